//! A mesh that is handed in: which ones are accepted, what refusal 9 carries, and the jobs over one.

mod common;

use common::*;
use second::{coefficients, nested, slopes_of, Corner, Height, Refused, Steps};

fn judged(s: &Survey, triangles: &[[usize; 3]]) -> Result<(), Refused> {
    second::check_mesh(&s.x, &s.y, &s.z, &list(triangles))
}

/// Two squares side by side: stations 0, 1, 2 below and 3, 4, 5 above, 8 apart.
fn strip() -> Survey {
    let places = [(0, 0), (8, 0), (16, 0), (0, 8), (8, 8), (16, 8)];
    Survey::of(&places, &[0, 10, 20, 5, 15, 40])
}

/// Triangle 0 has a side with 1 alone, 1 with 0 and 2, 2 with 1 and 3.
const STRIP: [[usize; 3]; 4] = [[0, 1, 3], [1, 4, 3], [1, 2, 4], [2, 5, 4]];

/// The strip with other triangles in place of its last.
fn ending(last: &[[usize; 3]]) -> Vec<[usize; 3]> {
    [&STRIP[..3], last].concat()
}

#[test]
fn either_diagonal_of_a_square_is_accepted() {
    let s = q([0; 4]);
    assert_eq!(judged(&s, &[[0, 1, 2], [1, 3, 2]]), Ok(()));
    assert_eq!(judged(&s, &[[0, 1, 3], [0, 3, 2]]), Ok(()));
}

#[test]
fn a_triangle_may_begin_at_any_corner_and_stand_anywhere_in_the_list() {
    let s = strip();
    assert_eq!(judged(&s, &STRIP), Ok(()));
    assert_eq!(
        judged(&s, &[[4, 2, 5], [3, 0, 1], [4, 1, 2], [4, 3, 1]]),
        Ok(())
    );
}

/// 'any mesh of ours is accepted'
#[test]
fn the_mesh_of_either_kind_is_accepted() {
    let mut surveys = Random::new(30).surveys(300);
    surveys.push(Random::new(31).survey(1024, 8192, 100));
    for s in surveys {
        for kind in KINDS {
            assert_eq!(judged(&s, &triangles(&s, kind)), Ok(()), "{s:?} {kind}");
        }
    }
}

/// Whole triangles are 1 of 4 numbers and 0 of 2.
#[test]
fn a_length_that_is_no_multiple_of_three_carries_the_whole_triangles() {
    let s = q([0; 4]);
    let right = list(&[[0, 1, 2], [1, 3, 2]]);
    for (length, carried) in [(1, 0), (2, 0), (4, 1), (5, 1)] {
        let answer = second::check_mesh(&s.x, &s.y, &s.z, &right[..length]);
        assert_eq!(answer, refused(9, carried), "{length}");
    }
    let longer = [&right[..], &[0]].concat();
    assert_eq!(second::check_mesh(&s.x, &s.y, &s.z, &longer), refused(9, 2));
}

/// 2n-5 is 1 for three stations and 3 for four.
#[test]
fn more_than_2n_less_5_triangles_carry_their_count() {
    let s = example();
    assert_eq!(judged(&s, &[[0, 1, 2]; 1]), Ok(()));
    assert_eq!(judged(&s, &[[0, 1, 2]; 2]), refused(9, 2));
    let s = q([0; 4]);
    assert_eq!(judged(&s, &[[0, 1, 2]; 3]), refused(9, 0));
    assert_eq!(judged(&s, &[[0, 1, 2]; 4]), refused(9, 4));
    assert_eq!(judged(&s, &[[0, 1, 2]; 70000]), refused(9, 70000));
}

/// 'A wrong length is tested first.' Every triangle here is wrong.
#[test]
fn a_wrong_length_comes_before_a_wrong_triangle() {
    let s = q([0; 4]);
    let numbers = [9; 13];
    for (length, carried) in [(3, 0), (4, 1), (6, 0), (8, 2), (9, 0), (12, 4), (13, 4)] {
        let answer = second::check_mesh(&s.x, &s.y, &s.z, &numbers[..length]);
        assert_eq!(answer, refused(9, carried), "{length}");
    }
}

#[test]
fn an_empty_list_leaves_stations_unused() {
    assert_eq!(judged(&example(), &[]), refused(9, 0));
}

/// Station 4 is not there; triangle 0 has all its sides as they should be, since (1,4,2) still runs from 2
/// to 1.
#[test]
fn a_number_that_no_station_has_is_wrong() {
    let s = q([0; 4]);
    for number in [4, 5, 1023, 1024, 32768, 65535] {
        assert_eq!(judged(&s, &[[0, 1, 2], [1, number, 2]]), refused(9, 1));
        assert_eq!(judged(&s, &[[1, number, 2], [0, 1, 2]]), refused(9, 0));
    }
}

/// The last triangle clockwise runs from 2 to 4, as the one before it does.
#[test]
fn a_clockwise_triangle_is_wrong_and_so_is_the_one_beside_it() {
    assert_eq!(judged(&strip(), &ending(&[[2, 4, 5]])), refused(9, 2));
    let s = example();
    assert_eq!(judged(&s, &[[0, 2, 1]]), refused(9, 0));
    assert_eq!(judged(&s, &[[2, 1, 0]]), refused(9, 0));
}

#[test]
fn equal_corners_are_no_triangle() {
    let s = example();
    for corners in [[0, 0, 0], [0, 0, 1], [0, 1, 1], [1, 0, 1], [2, 2, 2]] {
        assert_eq!(judged(&s, &[corners]), refused(9, 0), "{corners:?}");
    }
}

/// Stations 0, 1, 2 are in line, with 3 above and 4 below. (0,2,1) has no area and joins one triangle
/// below, on whose edge station 1 stands, to the two above: all sides are run once each way, every station
/// is a corner and the sum is the hull's.
#[test]
fn three_in_line_are_no_triangle() {
    let s = Survey::of(&[(0, 8), (4, 8), (8, 8), (4, 16), (4, 0)], &[0; 5]);
    let (flat, above, below) = ([0, 2, 1], [[0, 1, 3], [1, 2, 3]], [4, 2, 0]);
    assert_eq!(
        judged(&s, &[flat, above[0], above[1], below]),
        refused(9, 0)
    );
    assert_eq!(
        judged(&s, &[above[0], above[1], flat, below]),
        refused(9, 2)
    );
    assert_eq!(
        judged(&s, &[above[0], below, flat, above[1]]),
        refused(9, 1)
    );
    assert_eq!(
        judged(&s, &[above[0], above[1], [4, 1, 0], [4, 2, 1]]),
        Ok(())
    );
}

/// Station 6 stands in the last triangle of the strip, all of whose sides are right: nothing but the inner
/// station is wrong there.
#[test]
fn an_inner_station_is_the_first_fault_where_no_other_is() {
    let mut s = strip();
    s.x.push(14);
    s.y.push(5);
    s.z.push(0);
    assert_eq!(judged(&s, &STRIP), refused(9, 3));
    let around = [[2, 5, 6], [5, 4, 6], [4, 2, 6]];
    assert_eq!(judged(&s, &ending(&around)), Ok(()));
}

/// '(edges counted)': on a hull side, and on the side between two triangles.
#[test]
fn a_station_on_an_edge_is_an_inner_station() {
    let s = Survey::of(&[(0, 0), (4, 0), (8, 0), (0, 8)], &[0; 4]);
    assert_eq!(judged(&s, &[[0, 2, 3]]), refused(9, 0));
    assert_eq!(judged(&s, &[[0, 1, 3], [1, 2, 3]]), Ok(()));
    let s = q5([0; 5]);
    assert_eq!(judged(&s, &[[0, 1, 3], [0, 3, 2]]), refused(9, 0));
    assert_eq!(
        judged(&s, &[[0, 1, 4], [1, 3, 4], [0, 3, 2]]),
        refused(9, 0)
    );
}

/// Between triangles 2 and 3 the side from 2 to 4 is run by three.
#[test]
fn a_triangle_twice_is_wrong_and_so_is_the_one_beside_it() {
    assert_eq!(
        judged(&strip(), &ending(&[[2, 5, 4], [2, 5, 4]])),
        refused(9, 2)
    );
    assert_eq!(
        judged(&strip(), &ending(&[[2, 5, 4], [4, 2, 5]])),
        refused(9, 2)
    );
    let s = q([0; 4]);
    assert_eq!(
        judged(&s, &[[0, 1, 2], [1, 3, 2], [0, 1, 2]]),
        refused(9, 0)
    );
}

/// (1,2,5) has the area of (2,5,4), and both it and (1,2,4) run from 1 to 2.
#[test]
fn an_overlap_that_keeps_the_sum_is_wrong() {
    assert_eq!(judged(&strip(), &ending(&[[1, 2, 5]])), refused(9, 2));
    let s = q([0; 4]);
    assert_eq!(judged(&s, &[[0, 1, 2], [0, 1, 3]]), refused(9, 0));
    assert_eq!(judged(&s, &[[1, 3, 2], [0, 1, 3]]), refused(9, 0));
}

/// The square with a station in its middle, each triangle in turn left out: the first that has a side with
/// it is wrong.
#[test]
fn a_hole_is_found_at_the_first_triangle_beside_it() {
    let s = q5([0; 5]);
    let whole = [[0, 4, 2], [0, 1, 4], [1, 3, 4], [2, 4, 3]];
    assert_eq!(judged(&s, &whole), Ok(()));
    for (hole, carried) in [(0, 0), (1, 0), (2, 1), (3, 0)] {
        let mut rest = whole.to_vec();
        rest.remove(hole);
        assert_eq!(judged(&s, &rest), refused(9, carried), "{hole}");
    }
}

/// Without the last triangle of the strip, two hull sides have none, and the side from 2 to 4 is no hull
/// side.
#[test]
fn a_hull_side_without_a_triangle_is_missed_at_the_side_behind_it() {
    assert_eq!(judged(&strip(), &ending(&[])), refused(9, 2));
    assert_eq!(judged(&strip(), &STRIP[1..]), refused(9, 0));
    assert_eq!(judged(&q([0; 4]), &[[0, 1, 2]]), refused(9, 0));
}

/// A side along the hull that passes over station 1 is no hull side.
#[test]
fn a_side_over_a_hull_station_is_no_hull_side() {
    let s = Survey::of(&[(0, 0), (4, 0), (8, 0), (0, 8)], &[0; 4]);
    assert_eq!(
        judged(&s, &[[0, 1, 3], [1, 2, 3], [0, 2, 1]]),
        refused(9, 2)
    );
    assert_eq!(judged(&s, &[[0, 2, 3], [0, 1, 3]]), refused(9, 0));
}

/// 'run by two triangles, once each way': a hull side that a second triangle, with a number that no station
/// has, runs the other way, or the same way.
#[test]
fn sides_are_counted_over_wrong_triangles_too() {
    let s = strip();
    let with = |wrong: [usize; 3]| judged(&s, &ending(&[[2, 5, 4], wrong]));
    assert_eq!(with([0, 1, 9]), refused(9, 0));
    assert_eq!(with([1, 0, 9]), refused(9, 4));
    assert_eq!(with([4, 1, 9]), refused(9, 1));
    assert_eq!(with([9, 4, 2]), refused(9, 2));
    assert_eq!(with([9, 5, 2]), refused(9, 4));
    assert_eq!(with([9, 2, 5]), refused(9, 3));
}

/// The strip with a number wrong, with a triangle twice, and with a triangle missing: what is carried is a
/// place in the list.
#[test]
fn the_first_wrong_triangle_in_the_order_of_the_list_is_carried() {
    let s = strip();
    let (number, twice) = ([0, 6, 1], [2, 5, 4]);
    assert_eq!(judged(&s, &[STRIP[0], STRIP[1], number]), refused(9, 1));
    assert_eq!(judged(&s, &[STRIP[0], STRIP[1], twice]), refused(9, 1));
    assert_eq!(
        judged(&s, &[STRIP[0], STRIP[1], STRIP[2], twice, twice, number]),
        refused(9, 2)
    );
    assert_eq!(
        judged(&s, &[number, STRIP[0], STRIP[1], STRIP[2], STRIP[3]]),
        refused(9, 0)
    );
    assert_eq!(
        judged(&s, &[STRIP[0], number, STRIP[1], STRIP[2], STRIP[3]]),
        refused(9, 1)
    );
}

/// What the strip, with the named faults, is asked for; 9 is a triangle left out.
fn called(faults: &[u32]) -> (Survey, Vec<u16>, i32, u32, Rooms) {
    let has = |fault: u32| faults.contains(&fault);
    let mut s = strip();
    if has(4) {
        s.x = (0..6).map(|x| 3 * x).collect();
        s.y = s.x.clone();
    }
    if has(3) {
        s.x[5] = s.x[1];
        s.y[5] = s.y[1];
    }
    if has(2) {
        s.z[2] = 32768;
    }
    if has(1) {
        s.z.push(0);
    }
    let list = list(if has(9) { &STRIP[..3] } else { &STRIP });
    let (level, px) = if has(5) { (32768, 8192) } else { (0, 3) };
    let mut rooms = Rooms::new(6, 3);
    if has(6) {
        rooms.slopes.truncate(29);
    }
    (s, list, level, px, rooms)
}

/// 'It comes after 4'; 'with refusal 9 in the same place': 1, 2, 3, 4, 9, 5, 6. The check of the mesh alone
/// ends with 9. Every set of faults is tried, and a refusal changes no room.
#[test]
fn nine_comes_after_four_and_before_five() {
    const ORDER: [(u32, u32); 7] = [(1, 0), (2, 2), (3, 5), (4, 0), (9, 2), (5, 0), (6, 0)];
    for set in 0..1u32 << ORDER.len() {
        let has = |i: &usize| set >> i & 1 == 1;
        let faults: Vec<(u32, u32)> = (0..ORDER.len()).filter(has).map(|i| ORDER[i]).collect();
        let numbers: Vec<u32> = faults.iter().map(|fault| fault.0).collect();
        let expected = |most: usize| match faults.first() {
            Some(&(number, at)) if ORDER[..most].contains(&(number, at)) => refused(number, at),
            _ => Ok(()),
        };
        let (s, list, level, px, rooms) = called(&numbers);
        let answer = second::check_mesh(&s.x, &s.y, &s.z, &list);
        assert_eq!(answer, expected(5), "{numbers:?}");
        let mut lent = rooms.clone();
        let answer = lent.height_over(&s, &list, px, 1).map(|_| ());
        assert_eq!(answer, expected(7), "{numbers:?}");
        assert!(answer.is_ok() || lent == rooms, "{numbers:?}");
        let mut lent = rooms.clone();
        let answer = lent.lines_over(&s, &list, level, 1).map(|_| ());
        assert_eq!(answer, expected(7), "{numbers:?}");
        assert!(answer.is_ok() || lent == rooms, "{numbers:?}");
    }
}

/// Rooms, and what they hold when a job is done, are those of the jobs over a kind: the strip is the mesh
/// of kind 1 in another order.
#[test]
fn rooms_over_a_mesh_are_those_over_a_kind() {
    let (s, list) = (strip(), list(&STRIP));
    for style in 0..2 {
        let (mut given, mut of_kind) = (Rooms::new(6, 5), Rooms::new(6, 5));
        assert_eq!(
            triangles(&s, 1),
            [[0, 1, 3], [1, 2, 4], [1, 4, 3], [2, 5, 4]]
        );
        let answer = given.lines_over(&s, &list, 12, style);
        assert_eq!(answer, of_kind.lines(&s, 1, 12, style));
        assert_eq!(given, of_kind);
    }
    for (px, py) in [(0, 0), (3, 1), (17, 1)] {
        let (mut given, mut of_kind) = (Rooms::new(6, 5), Rooms::new(6, 5));
        let answer = given.height_over(&s, &list, px, py);
        assert_eq!(answer, of_kind.height(&s, 1, px, py));
        assert_eq!(given, of_kind);
    }
    let shortened: [fn(&mut Rooms); 5] = [
        |r| r.vertex_x.truncate(11),
        |r| r.vertex_y.truncate(11),
        |r| r.records.truncate(5),
        |r| r.slopes.truncate(29),
        |r| r.work.truncate(95),
    ];
    for (number, shorten) in shortened.into_iter().enumerate() {
        let mut rooms = Rooms::new(6, 0);
        assert!(rooms.lines_over(&s, &list, 12, 1).is_ok());
        shorten(&mut rooms);
        assert_eq!(rooms.lines_over(&s, &list, 12, 1), refused(6, 0));
        if number >= 3 {
            assert_eq!(rooms.height_over(&s, &list, 3, 1), refused(6, 0));
        }
    }
}

/// The square of T3 over its other diagonal, which joins the two stations of height 0: each line cuts off
/// one of the others.
#[test]
fn lines_follow_the_mesh_that_is_handed_in() {
    let s = q([0, 10, 10, 0]);
    let expected = [
        (OPEN, vec![(504, 0), (1024, 520)]),
        (OPEN, vec![(0, 504), (520, 1024)]),
    ];
    for given in [[[0, 1, 3], [0, 3, 2]], [[3, 2, 0], [1, 3, 0]]] {
        assert_eq!(lines_over(&s, &list(&given), 5, 0), expected);
    }
}

/// 'any order': lines do not depend on the order of the triangles, nor on the corner that each begins with.
#[test]
fn lines_over_a_list_of_ours_are_those_over_its_kind() {
    let mut random = Random::new(32);
    for s in random.surveys(80) {
        let (kind, style) = (random.below(2) as u32, random.below(2) as u32);
        let mut given = triangles(&s, kind);
        for triangle in &mut given {
            triangle.rotate_left(random.below(3) as usize);
        }
        let turn = random.below(given.len() as u64) as usize;
        given.rotate_left(turn);
        let expected = lines(&s, kind, 0, style);
        assert_eq!(lines_over(&s, &list(&given), 0, style), expected);
    }
}

/// The numbered steps over one triangle, its corners as written.
fn stepped(s: &Survey, [one, two, three]: [usize; 3], px: u32, py: u32) -> f64 {
    let at = |i: usize| (i64::from(s.x[i]), i64::from(s.y[i]));
    let steps = Steps::of(at(one), at(two), at(three));
    let slopes = slopes_of(&s.x, &s.y, &s.z);
    let corner = |i: usize| Corner::of(steps, s.z[i], slopes[i]);
    let p = coefficients(steps, corner(one), corner(two), corner(three));
    let (u, v) = steps.turned(i64::from(px) - at(one).0, i64::from(py) - at(one).1);
    nested(p, u, v)
}

/// 'corners 1, 2, 3 as written': the three ways to write one triangle give bits of their own at some
/// places.
#[test]
fn the_height_takes_the_corners_as_they_are_handed_in() {
    let mut random = Random::new(33);
    let mut differing = 0;
    for _ in 0..200 {
        let s = random.survey(3, 8000, 32767);
        let [a, b, c] = triangles(&s, 0)[0];
        let place = |list: &[u32]| (list[0] / 2 + list[1] / 3 + list[2] / 6).min(8191);
        let (px, py) = (place(&s.x), place(&s.y));
        let found = [[a, b, c], [b, c, a], [c, a, b]].map(|given| {
            let answer = Rooms::new(3, 0).height_over(&s, &list(&[given]), px, py);
            match answer.expect("an accepted mesh") {
                Height::Between(z) => {
                    assert_eq!(z.to_bits(), stepped(&s, given, px, py).to_bits());
                    z.to_bits()
                }
                _ => 0,
            }
        });
        differing += usize::from(found[0] != found[1] || found[1] != found[2]);
    }
    assert!(differing > 50, "{differing}");
}

/// 'the first triangle in the list that holds the place': (3,2) is in one triangle of the other diagonal,
/// (3,3) on the edge of both.
#[test]
fn the_height_is_that_of_the_first_triangle_handed_in_that_holds_the_place() {
    let s = q([0, 10, 10, 3]);
    let (lower, upper) = ([0, 1, 3], [0, 3, 2]);
    let at = |given: [[usize; 3]; 2], px, py| {
        Rooms::new(4, 0)
            .height_over(&s, &list(&given), px, py)
            .expect("an accepted mesh")
    };
    for given in [[lower, upper], [upper, lower]] {
        let below = Height::Between(stepped(&s, lower, 3, 2));
        assert_eq!(at(given, 3, 2), below);
        assert_ne!(below, height(&s, 0, 3, 2));
        let first = Height::Between(stepped(&s, given[0], 3, 3));
        assert_eq!(at(given, 3, 3), first);
        assert_eq!(at(given, 8, 8), Height::Own(3));
        assert_eq!(at(given, 9, 8), Height::Outside);
    }
}
