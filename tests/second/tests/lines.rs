//! The lines of one level, over the mesh of either kind.

mod common;

use common::*;
use second::{bracket, hull_sides, spot, End};
use std::collections::{BTreeMap, BTreeSet};

type Side = (usize, usize);

/// The crossed sides of a survey's mesh with their spots, from the mesh job and the slopes job alone.
fn crossed(s: &Survey, kind: u32, level: i32, style: u32) -> BTreeMap<Side, (u32, u32)> {
    let slopes = slopes(s);
    let end = |i: usize| End {
        x: s.x[i].into(),
        y: s.y[i].into(),
        z: s.z[i].into(),
        slopes: slopes[i].map(i64::from),
    };
    let mut spots = BTreeMap::new();
    for [a, b, c] in triangles(s, kind) {
        for (a, b) in [(a, b), (b, c), (c, a)] {
            let (low, high) = (a.min(b), a.max(b));
            if (s.z[low] < level) != (s.z[high] < level) {
                let k = bracket(end(low), end(high), level.into(), style).expect("a bracket");
                let (x, y) = spot(end(low), end(high), k);
                spots.insert((low, high), (x as u32, y as u32));
            }
        }
    }
    spots
}

/// The surveys, kinds of mesh, levels and styles that the properties below are tried on.
fn cases(seed: u64) -> Vec<(Survey, u32, i32, u32)> {
    let mut random = Random::new(seed);
    let mut cases = Vec::new();
    for s in random.surveys(240) {
        let level = s.z[random.below(s.n() as u64) as usize] + random.below(2) as i32;
        if level > 32767 {
            continue;
        }
        for kind in KINDS {
            for style in [0, 1] {
                cases.push((s.clone(), kind, level, style));
            }
        }
    }
    cases
}

/// The lines as lists of sides; spots stand inside their sides, so no two sides have one spot.
fn sides_of_lines(s: &Survey, kind: u32, level: i32, style: u32) -> Vec<(bool, Vec<Side>)> {
    let spots = crossed(s, kind, level, style);
    let side_at: BTreeMap<(u32, u32), Side> =
        spots.iter().map(|(&side, &spot)| (spot, side)).collect();
    assert_eq!(side_at.len(), spots.len());
    lines(s, kind, level, style)
        .into_iter()
        .map(|(closed, vertices)| {
            let sides = vertices.iter().map(|vertex| side_at[vertex]).collect();
            (closed, sides)
        })
        .collect()
}

#[test]
fn every_crossed_side_gives_exactly_one_vertex_over_all_lines() {
    for (s, kind, level, style) in cases(13) {
        let mut vertices: Vec<(u32, u32)> = lines(&s, kind, level, style)
            .into_iter()
            .flat_map(|line| line.1)
            .collect();
        let mut spots: Vec<(u32, u32)> = crossed(&s, kind, level, style).into_values().collect();
        vertices.sort();
        spots.sort();
        assert_eq!(vertices, spots, "{s:?} {kind} {level} {style}");
    }
}

/// Whether two sides are two sides of one triangle.
fn share_triangle(triangles: &[[usize; 3]], a: Side, b: Side) -> bool {
    a != b
        && triangles.iter().any(|corners| {
            [a.0, a.1, b.0, b.1]
                .iter()
                .all(|station| corners.contains(station))
        })
}

#[test]
fn lines_go_from_triangle_to_triangle_and_end_as_their_kind_says() {
    for (s, kind, level, style) in cases(14) {
        let triangles = triangles(&s, kind);
        let hull: BTreeSet<Side> = hull_sides(&s.x, &s.y)
            .into_iter()
            .map(|(a, b)| (a.min(b), a.max(b)))
            .collect();
        for (closed, sides) in sides_of_lines(&s, kind, level, style) {
            assert!(sides
                .windows(2)
                .all(|pair| share_triangle(&triangles, pair[0], pair[1])));
            let (first, last) = (sides[0], sides[sides.len() - 1]);
            if closed {
                assert!(sides.len() >= 3);
                assert!(sides.iter().all(|side| !hull.contains(side)));
                assert!(share_triangle(&triangles, first, last));
            } else {
                assert!(sides.len() >= 2);
                assert!(hull.contains(&first) && hull.contains(&last));
                let inner = &sides[1..sides.len() - 1];
                assert!(inner.iter().all(|side| !hull.contains(side)));
            }
        }
    }
}

/// Open lines stand before closed ones; each starts at its lowest hull side, or lowest side, and the starts
/// rise.
#[test]
fn lines_start_at_the_lowest_unused_side_open_ones_first() {
    for (s, kind, level, style) in cases(15) {
        let listed = sides_of_lines(&s, kind, level, style);
        let opens = listed.iter().take_while(|line| !line.0).count();
        assert!(listed[opens..].iter().all(|line| line.0));
        for (closed, sides) in &listed {
            if *closed {
                assert_eq!(sides[0], *sides.iter().min().unwrap());
            } else {
                assert!(sides[0] < sides[sides.len() - 1]);
            }
        }
        for kind in [&listed[..opens], &listed[opens..]] {
            assert!(kind.windows(2).all(|pair| pair[0].1[0] < pair[1].1[0]));
        }
    }
}

/// 'first into the triangle left of it as it runs', from the lower station to the higher.
#[test]
fn closed_lines_go_first_into_the_left_triangle() {
    let mut seen = 0;
    for (s, kind, level, style) in cases(16) {
        let triangles = triangles(&s, kind);
        for (closed, sides) in sides_of_lines(&s, kind, level, style) {
            if closed {
                let (low, high) = sides[0];
                let left = triangles
                    .iter()
                    .find(|&&[a, b, c]| [(a, b), (b, c), (c, a)].contains(&(low, high)))
                    .expect("a triangle left of an inner side");
                assert!(left.contains(&sides[1].0) && left.contains(&sides[1].1));
                seen += 1;
            }
        }
    }
    assert!(seen > 100, "closed lines are tried");
}

#[test]
fn a_record_is_twice_the_count_plus_1_if_closed() {
    let mut rooms = Rooms::new(4, 0);
    rooms.lines(&q([0, 10, 10, 0]), 0, 5, 0).unwrap();
    assert_eq!(rooms.records[..2], [4, 4]);
    let mut rooms = Rooms::new(5, 0);
    rooms.lines(&q5([0, 0, 0, 0, 10]), 0, 5, 0).unwrap();
    assert_eq!(rooms.records[0], 9);
}

#[test]
fn the_totals_are_those_of_the_lines_listed() {
    let drawn = Rooms::new(4, 0).lines(&q([0, 10, 10, 0]), 0, 5, 0).unwrap();
    assert_eq!((drawn.lines, drawn.vertices), (2, 4));
    let drawn = Rooms::new(5, 0)
        .lines(&q5([0, 0, 0, 0, 10]), 0, 5, 0)
        .unwrap();
    assert_eq!((drawn.lines, drawn.vertices), (1, 4));
    let drawn = Rooms::new(4, 0).lines(&q([0, 10, 10, 0]), 0, 0, 0).unwrap();
    assert_eq!((drawn.lines, drawn.vertices), (0, 0));
}

/// Heights below and not below swap places: T6 the other way up. The sides run from the corners, 0 high, to
/// the middle, -10 high, so each bracket is the one after the middle stop, and the level -5 itself is not
/// below.
#[test]
fn a_pit_has_the_closed_line_of_a_peak() {
    let expected = [(CLOSED, vec![(260, 260), (260, 764), (764, 764), (764, 260)])];
    assert_eq!(lines(&q5([0, 0, 0, 0, -10]), 0, -5, 0), expected);
}

/// All stations at the level: none is below, so nothing is nudged apart.
#[test]
fn stations_equal_to_the_level_are_not_below() {
    assert_eq!(lines(&q5([7; 5]), 0, 7, 0), []);
    assert_eq!(lines(&q5([7; 5]), 0, 7, 1), []);
    assert_eq!(lines(&q5([7; 5]), 0, 8, 0), []);
}

/// Steps (512,1,4) and (512,257,1029): NX = 1, NY = -524,800, NZ = 131,072, so that everywhere p = -1/2,
/// which is -1, and q = 262,400. Along side 0 to 1 D is (262,400 - 512)/256 = 1,023 at both ends, one less
/// than that of a straight line, which is at level 1 at stop 16. There the weights are 2^20 times 243, 405,
/// 270, 90, 15, 1, and the sum lacks 2^20·(4·405 + 8·270 - 8·90 - 4·15): it is below, the bracket is 16, and
/// the spot 33·(512,1). Along side 0 to 2 level 1 is passed before stop 1. With all heights negated p = 1/2
/// is 1, D is -1,023, and all else is negated too: the curve is above the level -1 at stop 16, by as much,
/// and the line is the same.
#[test]
fn a_half_slope_of_either_sign_takes_the_line_one_way() {
    let gains = Survey::of(&[(0, 0), (512, 1), (512, 257)], &[0, 4, 1029]);
    let expected = [(OPEN, vec![(33 * 512, 33), (512, 257)])];
    assert_eq!(lines(&gains, 0, 1, 1), expected);
    assert_eq!(lines(&gains.negated(), 0, -1, 1), expected);
}

/// 'The lines needn't mirror, since a height equal to a level stays not below.' T4 has two lines, which the
/// same four sides give in either style; with all heights and the level negated no station is below.
#[test]
fn the_lines_of_negated_heights_need_not_mirror() {
    let s = q([0, 10, 10, 0]);
    for (kind, style) in [(0, 0), (0, 1), (1, 0), (1, 1)] {
        assert_eq!(lines(&s, kind, 10, style).len(), 2);
        assert_eq!(lines(&s.negated(), kind, -10, style), []);
    }
}

#[test]
fn the_largest_survey_is_drawn_over_both_kinds_in_both_styles() {
    let s = Random::new(17).survey(1024, 8192, 32767);
    for (kind, style) in [(0, 0), (0, 1), (1, 0), (1, 1)] {
        let lines = lines(&s, kind, 0, style);
        let count: usize = lines.iter().map(|line| line.1.len()).sum();
        assert_eq!(count, crossed(&s, kind, 0, style).len());
    }
}
