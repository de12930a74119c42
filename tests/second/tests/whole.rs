//! Whole numbers: the rounded quotient, the cut, the turn.

mod common;

use common::Random;
use second::{cut, rounded, turn};

#[test]
fn quotients_go_to_the_nearest_and_halves_away_from_zero() {
    let thirds = [
        (-5, -2),
        (-4, -1),
        (-3, -1),
        (-2, -1),
        (-1, 0),
        (0, 0),
        (1, 0),
        (2, 1),
        (4, 1),
        (5, 2),
    ];
    for (n, expected) in thirds {
        assert_eq!(rounded(n, 3), expected, "{n}/3");
    }
    let halves = [(-5, -3), (-3, -2), (-1, -1), (1, 1), (3, 2), (5, 3)];
    for (n, expected) in halves {
        assert_eq!(rounded(n, 2), expected, "{n}/2");
    }
    for n in -9..=9 {
        assert_eq!(rounded(n, 1), n);
    }
}

/// m over 2m is a half, and over 2m - 1 it is more: both are 1. m - 1 over either is less, which is 0.
#[test]
fn a_half_beside_zero_is_one_and_less_is_zero() {
    for m in [1, 2, 3, 128, 65536, 1 << 59] {
        for sign in [-1, 1] {
            assert_eq!(rounded(sign * m, 2 * m), sign);
            assert_eq!(rounded(sign * m, 2 * m - 1), sign);
            assert_eq!(rounded(sign * (m - 1), 2 * m), 0);
            assert_eq!(rounded(sign * (m - 1), 2 * m - 1), 0);
        }
    }
}

/// A quotient as it comes, and one at a half.
fn random_quotients(random: &mut Random) -> [(i128, i128); 2] {
    let n = i128::from(random.next() as i64 >> random.below(60));
    let d = 1 + i128::from(random.below(1 << 40) >> random.below(40));
    [(n, d), ((2 * n + 1) * d, 2 * d)]
}

/// q is the rounded n/d exactly if it is at most a half away, and further from zero if just that: n/d -
/// 1/2 < q <= n/d + 1/2 for n >= 0, which is -d < 2qd - 2n <= d, and the same of -q and -n for n < 0.
#[test]
fn a_quotient_is_within_a_half_and_further_from_zero_on_a_half() {
    let mut random = Random::new(1);
    for _ in 0..20000 {
        for (n, d) in random_quotients(&mut random) {
            let sign = if n < 0 { -1 } else { 1 };
            let outward = sign * (2 * rounded(n, d) * d - 2 * n);
            assert!(-d < outward && outward <= d, "{n}/{d}");
        }
    }
}

#[test]
fn a_negated_quotient_is_negated() {
    let mut random = Random::new(26);
    for _ in 0..20000 {
        for (n, d) in random_quotients(&mut random) {
            assert_eq!(rounded(-n, d), -rounded(n, d), "{n}/{d}");
        }
    }
}

#[test]
fn a_cut_keeps_both_bounds_and_what_lies_between() {
    let cases = [
        (-11, -10),
        (-10, -10),
        (-9, -9),
        (0, 0),
        (9, 9),
        (10, 10),
        (11, 10),
    ];
    for (v, expected) in cases {
        assert_eq!(cut(v, 10), expected);
    }
}

#[test]
fn a_turn_is_twice_the_area_and_positive_counterclockwise() {
    assert_eq!(turn(0, 0, 8, 0, 0, 8), 64);
    assert_eq!(turn(0, 0, 0, 8, 8, 0), -64);
    assert_eq!(turn(1, 1, 3, 2, 5, 3), 0);
    assert_eq!(turn(0, 0, 8191, 0, 8191, 8191), 8191 * 8191);
}
