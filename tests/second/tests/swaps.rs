//! The mesh of kind 1: which sides are swapped, in which order, and how its triangles are listed.

mod common;

use common::*;
use second::{Height, FATTER, SWEPT};
use std::cmp::Ordering;

/// Four stations on one circle: 'ties stay'.
#[test]
fn the_square_stays_as_it_is() {
    assert_eq!(triangles(&q([0; 4]), FATTER), [[0, 1, 2], [1, 3, 2]]);
}

/// No side of T2's triangles is swapped; they are 'listed by their three numbers, lowest first'.
#[test]
fn the_square_with_its_middle_is_listed_by_its_numbers() {
    let expected = [[0, 1, 4], [0, 4, 2], [1, 3, 4], [2, 4, 3]];
    assert_eq!(triangles(&q5([0; 5]), FATTER), expected);
}

/// A kite on its tip. The sweep joins the far stations 2 and 3, at (10,0) and (10,20). The circle through
/// these and 0, at (5,10), has its centre at (17.5,10) and the radius 12.5, and 1, at (15,10), is 2.5 from
/// the centre.
fn kite() -> Survey {
    Survey::of(&[(5, 10), (15, 10), (10, 0), (10, 20)], &[0, 10, 0, 10])
}

/// The triangles of the kite as they are written are (0,2,1) and (0,1,3). The second is the lower: 1 comes
/// before 2.
#[test]
fn the_kite_is_swapped_and_listed_as_its_triangles_are_written() {
    assert_eq!(triangles(&kite(), SWEPT), [[0, 2, 3], [1, 3, 2]]);
    assert_eq!(triangles(&kite(), FATTER), [[0, 1, 3], [0, 2, 1]]);
}

/// The level 5 is crossed halfway along each side, where the bracket from 31/64 to 32/64 ends for a side
/// that goes up, and the one from 32/64 begins for a side that goes down: 63 or 65 of 128 parts of the way.
/// Side 1 to 2 goes down. Kind 0 has side 2 to 3 in the middle, kind 1 has side 0 to 1.
#[test]
fn lines_run_over_the_mesh_of_their_kind() {
    let ends = [(955, 1910), (1595, 630)];
    let over = |middle: (u32, u32)| [(OPEN, vec![ends[0], middle, ends[1]])];
    assert_eq!(lines(&kite(), SWEPT, 5, 0), over((1280, 1260)));
    assert_eq!(lines(&kite(), FATTER, 5, 0), over((1270, 1280)));
}

/// A saddle over the kite: 2 and 3 are high, 0 and 1 low. Kind 0 joins high with high over the middle, kind
/// 1 low with low. On a station and outside the hull the kind changes nothing.
#[test]
fn heights_are_those_of_the_mesh_of_their_kind() {
    let saddle = Survey {
        z: vec![0, 0, 10, 10],
        ..kite()
    };
    let differ =
        |&(px, py): &(u32, u32)| height(&saddle, SWEPT, px, py) != height(&saddle, FATTER, px, py);
    let inside = [(8, 9), (8, 11), (12, 9), (12, 11), (10, 10)];
    assert!(inside.iter().all(differ));
    assert!(!differ(&(5, 10)) && !differ(&(0, 0)));
}

/// A house. The sweep makes (0,2,4), (2,3,4) and (1,4,3). The circle through the feet 2 and 3, at (0,0) and
/// (2,0), and the roof's 4, at (1,2), has its centre at (1,3/4) and the square radius 25/16; 0 and 1, at
/// (0,1) and (2,1), have the square distance 17/16. So both 2-4 and 3-4 may be swapped. 2-4 is lower and
/// gives way to 0-3. The circle through 0, 3 and 4 then has its centre at (7/6,5/6) and the square radius
/// 50/36, and 1 has 26/36: 3-4 gives way to 0-1. Of the four on one circle 0-3 stays. With 3-4 first it
/// would be 1-2.
#[test]
fn the_lowest_side_is_swapped_first() {
    let house = Survey::of(&[(0, 1), (2, 1), (0, 0), (2, 0), (1, 2)], &[0; 5]);
    assert_eq!(triangles(&house, SWEPT), [[0, 2, 4], [2, 3, 4], [1, 4, 3]]);
    assert_eq!(triangles(&house, FATTER), [[0, 1, 4], [0, 2, 3], [0, 3, 1]]);
}

/// The centre of the circle through a, b, c: x and y, both over the last number, which is four times the
/// signed area. It is equally far from all three, which gives two equations in its coordinates.
fn centre(s: &Survey, [a, b, c]: [usize; 3]) -> (i128, i128, i128) {
    let at = |i: usize| (i128::from(s.x[i]), i128::from(s.y[i]));
    let square = |(x, y): (i128, i128)| x * x + y * y;
    let ((ax, ay), (bx, by), (cx, cy)) = (at(a), at(b), at(c));
    let (b2, c2) = (square(at(b)) - square(at(a)), square(at(c)) - square(at(a)));
    let x = b2 * (cy - ay) - c2 * (by - ay);
    let y = c2 * (bx - ax) - b2 * (cx - ax);
    (x, y, 2 * ((bx - ax) * (cy - ay) - (by - ay) * (cx - ax)))
}

/// How the square distance of a station from the centre of a triangle's circle compares with that of a
/// corner: less is strictly inside the circle, equal is on it.
fn compared(s: &Survey, corners: [usize; 3], station: usize) -> Ordering {
    let (x, y, factor) = centre(s, corners);
    let distance = |i: usize| {
        let (dx, dy) = (
            factor * i128::from(s.x[i]) - x,
            factor * i128::from(s.y[i]) - y,
        );
        dx * dx + dy * dy
    };
    distance(station).cmp(&distance(corners[0]))
}

fn inside(s: &Survey, corners: [usize; 3], station: usize) -> bool {
    compared(s, corners, station) == Ordering::Less
}

/// The two far corners of a side of two triangles, or nothing for any other pair of stations.
fn far_corners(triangles: &[[usize; 3]], a: usize, b: usize) -> Option<(usize, usize)> {
    let mut far = triangles
        .iter()
        .filter(|corners| corners.contains(&a) && corners.contains(&b))
        .map(|corners| corners.iter().sum::<usize>() - a - b);
    Some((far.next()?, far.next()?))
}

/// The rule by its words: every side is looked at, the lowest first, and after each swap again from the
/// lowest on.
fn swapped_by_the_words(s: &Survey) -> Vec<[usize; 3]> {
    let mut list = triangles(s, SWEPT);
    'swaps: loop {
        for a in 0..s.n() {
            for b in a + 1..s.n() {
                let Some((c, d)) = far_corners(&list, a, b) else {
                    continue;
                };
                if inside(s, [a, b, c], d) || inside(s, [a, b, d], c) {
                    list.retain(|corners| !corners.contains(&a) || !corners.contains(&b));
                    list.extend([as_written(s, a, c, d), as_written(s, b, c, d)]);
                    continue 'swaps;
                }
            }
        }
        list.sort();
        return list;
    }
}

/// Of the six ways to name three corners, the one that is counterclockwise with the lowest first.
fn as_written(s: &Survey, a: usize, b: usize, c: usize) -> [usize; 3] {
    let ways = [
        [a, b, c],
        [b, c, a],
        [c, a, b],
        [a, c, b],
        [c, b, a],
        [b, a, c],
    ];
    *ways
        .iter()
        .find(|&&[a, b, c]| a < b && a < c && station_turn(s, a, b, c) > 0)
        .expect("three corners not on one line")
}

/// Crowded surveys, where many stations lie on one circle and the order of the swaps decides, and wide
/// ones.
#[test]
fn the_mesh_is_what_the_words_of_the_rule_give() {
    for s in Random::new(31).surveys(240) {
        assert_eq!(triangles(&s, FATTER), swapped_by_the_words(&s), "{s:?}");
    }
    let mut random = Random::new(32);
    for _ in 0..60 {
        let s = random.survey(24, 6, 1);
        assert_eq!(triangles(&s, FATTER), swapped_by_the_words(&s), "{s:?}");
    }
}

/// 'until none is left': then no station at all lies strictly inside the circle of a triangle.
#[test]
fn no_station_lies_inside_the_circle_of_a_triangle() {
    for s in Random::new(33).surveys(300) {
        for corners in triangles(&s, FATTER) {
            assert!(
                (0..s.n()).all(|station| !inside(&s, corners, station)),
                "{s:?}"
            );
        }
    }
}

/// A mesh with no such side and no tie is the only one: the numbers of the stations, which order the swaps,
/// change nothing but the names. Here each survey is numbered backward.
#[test]
fn without_ties_the_order_of_the_swaps_changes_nothing() {
    for s in Random::new(34).surveys(200) {
        let n = s.n();
        let tied = triangles(&s, FATTER).into_iter().any(|corners| {
            let on_circle = |&i: &usize| compared(&s, corners, i) == Ordering::Equal;
            (0..n).filter(on_circle).count() > 3
        });
        if tied {
            continue;
        }
        let reversed = |list: &[u32]| list.iter().rev().copied().collect::<Vec<u32>>();
        let backward = Survey {
            x: reversed(&s.x),
            y: reversed(&s.y),
            z: s.z.clone(),
        };
        let mut named: Vec<[usize; 3]> = triangles(&backward, FATTER)
            .into_iter()
            .map(|[a, b, c]| as_written(&s, n - 1 - a, n - 1 - b, n - 1 - c))
            .collect();
        named.sort();
        assert_eq!(named, triangles(&s, FATTER), "{s:?}");
    }
}

#[test]
fn triangles_are_listed_by_their_numbers() {
    for s in Random::new(35).surveys(300) {
        let list = triangles(&s, FATTER);
        assert!(list.windows(2).all(|pair| pair[0] < pair[1]), "{s:?}");
    }
}

/// Both kinds cover the same hull.
#[test]
fn a_place_is_outside_both_kinds_or_neither() {
    let mut random = Random::new(36);
    for s in random.surveys(120) {
        let extent = u64::from(*s.x.iter().chain(&s.y).max().unwrap()) + 2;
        for _ in 0..8 {
            let (px, py) = (random.below(extent) as u32, random.below(extent) as u32);
            let outside = |kind: u32| height(&s, kind, px, py) == Height::Outside;
            assert_eq!(outside(SWEPT), outside(FATTER), "{s:?} {px} {py}");
        }
    }
}

/// Stations near a parabola that opens upward: more than 100,000 swaps.
#[test]
fn many_swaps_end() {
    let up = |i: u32| i.abs_diff(512).pow(2) / 33;
    let places: Vec<(u32, u32)> = (0..1024).map(|i| (8 * i, up(i))).collect();
    let s = Survey::of(&places, &[0; 1024]);
    let list = triangles(&s, FATTER);
    assert_eq!(list.len(), triangles(&s, SWEPT).len());
    for &corners in list.iter().step_by(16) {
        assert!((0..s.n()).all(|station| !inside(&s, corners, station)));
    }
}
