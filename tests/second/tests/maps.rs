//! The known maps T1 to T12 of document 01, T9 as document 02 has it.

mod common;

use common::*;
use second::{check, rounded, weights};

#[test]
fn t1_the_square_has_two_triangles() {
    assert_eq!(triangles(&q([0; 4]), 0), [[0, 1, 2], [1, 3, 2]]);
}

#[test]
fn t2_the_square_with_its_middle_has_four_triangles() {
    let expected = [[0, 4, 2], [0, 1, 4], [1, 3, 4], [2, 4, 3]];
    assert_eq!(triangles(&q5([0; 5]), 0), expected);
}

#[test]
fn t3_the_square_at_level_5_has_two_open_lines() {
    let expected = [
        (OPEN, vec![(504, 0), (0, 504)]),
        (OPEN, vec![(1024, 520), (520, 1024)]),
    ];
    assert_eq!(lines(&q([0, 10, 10, 0]), 0, 5, 0), expected);
}

#[test]
fn t4_a_level_equal_to_two_stations_has_its_spots_one_half_bracket_before_them() {
    let expected = [
        (OPEN, vec![(1016, 0), (0, 1016)]),
        (OPEN, vec![(1024, 8), (8, 1024)]),
    ];
    assert_eq!(lines(&q([0, 10, 10, 0]), 0, 10, 0), expected);
}

#[test]
fn t5_a_level_with_no_station_below_has_no_line() {
    assert_eq!(lines(&q([0, 10, 10, 0]), 0, 0, 0), []);
}

#[test]
fn t6_a_closed_line_goes_first_into_the_left_triangle() {
    let expected = [(CLOSED, vec![(252, 252), (252, 772), (772, 772), (772, 252)])];
    assert_eq!(lines(&q5([0, 0, 0, 0, 10]), 0, 5, 0), expected);
}

#[test]
fn t7_a_plane_has_one_slope_everywhere() {
    assert_eq!(slopes(&example()), [[81920, 81920, 0, 0, 0]; 3]);
}

#[test]
fn t8_the_smooth_lines_of_a_plane_equal_its_straight_ones() {
    for level in -1..=11 {
        assert_eq!(
            lines(&example(), 0, level, 1),
            lines(&example(), 0, level, 0)
        );
    }
    assert_eq!(
        lines(&example(), 0, 5, 1),
        [(OPEN, vec![(504, 0), (0, 504)])]
    );
}

#[test]
fn t9_a_half_goes_away_from_zero() {
    assert_eq!(rounded(7, 2), 4);
    assert_eq!(rounded(-7, 2), -4);
}

#[test]
fn t10_the_weights_in_the_middle() {
    assert_eq!(weights(32), [1, 5, 10, 10, 5, 1].map(|i| i << 25));
}

#[test]
fn t11_three_stations_on_a_line_are_4() {
    let s = Survey::of(&[(1, 1), (3, 2), (5, 3)], &[0, 1, 2]);
    assert_eq!(check(&s.x, &s.y, &s.z), refused(4, 0));
}

#[test]
fn t12_two_stations_at_one_place_are_1() {
    let s = Survey::of(&[(1, 1), (1, 1)], &[0, 1]);
    assert_eq!(check(&s.x, &s.y, &s.z), refused(1, 0));
}
