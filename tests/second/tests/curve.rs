//! The curve along a side: its weights, its brackets and its spots.

mod common;

use common::Random;
use second::{below_at, bracket, spot, weights, End};

const STRAIGHT: u32 = 0;
const SMOOTH: u32 = 1;

fn end(x: i64, y: i64, z: i64, slopes: [i64; 5]) -> End {
    End { x, y, z, slopes }
}

/// A side along x of the given length, level at both ends.
fn flat_side(length: i64, z1: i64, z2: i64) -> (End, End) {
    (end(0, 0, z1, [0; 5]), end(length, 0, z2, [0; 5]))
}

#[test]
fn each_row_of_weights_sums_to_2_to_the_30() {
    for stop in 0..=64 {
        assert_eq!(weights(stop).iter().sum::<i64>(), 1 << 30);
    }
}

#[test]
fn the_outer_rows_of_weights_hold_one_end_alone() {
    assert_eq!(weights(0), [1 << 30, 0, 0, 0, 0, 0]);
    assert_eq!(weights(64), [0, 0, 0, 0, 0, 1 << 30]);
    let row = [992436543, 78764805, 2500470, 39690, 315, 1];
    assert_eq!(weights(1), row);
    assert_eq!(weights(63).into_iter().rev().collect::<Vec<_>>(), row);
}

/// From 0 to 10: 10·k is not below 320 from k = 32 on, and not below 640 at k = 64 alone. From 10 to 0: 640
/// - 10·k is below 320 from k = 33 on, and below 640 from k = 1 on.
#[test]
fn a_straight_bracket_is_the_first_change_from_the_lower_numbered_station() {
    let (low, high) = flat_side(8, 0, 10);
    assert_eq!(bracket(low, high, 5, STRAIGHT), Some(31));
    assert_eq!(bracket(low, high, 10, STRAIGHT), Some(63));
    assert_eq!(bracket(low, high, 1, STRAIGHT), Some(6));
    let (low, high) = flat_side(8, 10, 0);
    assert_eq!(bracket(low, high, 5, STRAIGHT), Some(32));
    assert_eq!(bracket(low, high, 10, STRAIGHT), Some(0));
    assert_eq!(bracket(low, high, 1, STRAIGHT), Some(57));
}

#[test]
fn ends_on_one_side_of_the_level_have_no_bracket() {
    for style in [STRAIGHT, SMOOTH] {
        for (z1, z2, level) in [(0, 10, 0), (0, 10, 11), (10, 0, 0), (5, 5, 5), (4, 4, 5)] {
            let (low, high) = flat_side(8, z1, z2);
            assert_eq!(bracket(low, high, level, style), None);
        }
    }
}

/// At the ends of the height range: 65,534·k against 64·65,534 and against 64.
#[test]
fn straight_brackets_at_the_ends_of_the_height_range() {
    let (low, high) = flat_side(8, -32767, 32767);
    assert_eq!(bracket(low, high, 32767, STRAIGHT), Some(63));
    assert_eq!(bracket(low, high, -32766, STRAIGHT), Some(0));
    assert_eq!(bracket(low, high, 0, STRAIGHT), Some(31));
    assert_eq!(bracket(low, high, 1, STRAIGHT), Some(32));
}

/// Level ends, 0 and 2 high: the control heights are 0, 0, 0, 10240, 10240, 10240, and the curve rises all
/// the way through 1 exactly at the middle stop, which is not below.
#[test]
fn a_smooth_curve_equal_to_the_level_at_a_stop_is_not_below_there() {
    let (low, high) = flat_side(8, 0, 2);
    assert!(!below_at(low, high, 1, SMOOTH, 32));
    assert!(below_at(low, high, 1, SMOOTH, 31));
    assert_eq!(bracket(low, high, 1, SMOOTH), Some(31));
    assert_eq!(bracket(low, high, 2, SMOOTH), Some(63));
    let (low, high) = flat_side(8, 2, 0);
    assert_eq!(bracket(low, high, 1, SMOOTH), Some(32));
    assert_eq!(bracket(low, high, 2, SMOOTH), Some(0));
}

/// p = 65,536 at both ends of a side of 64 gives D = 16,384 and, from -1 to 0, the control heights -5120,
/// 60416, 125952, -131072, -65536, 0. At stop 1 the weighted sum is below 0: -5120·992436543 +
/// 60416·78764805 + 125952·2500470 - 131072·39690 - 65536·315 = -12,904,335,360. At stop 2 it is above,
/// since -5120·916132832 + 60416·147763360 is. At stop 63 it is below again, at stop 64 equal.
#[test]
fn of_several_changes_the_first_counts() {
    let slopes = [65536, 0, 0, 0, 0];
    let (low, high) = (end(0, 0, -1, slopes), end(64, 0, 0, slopes));
    assert!(below_at(low, high, 0, SMOOTH, 1));
    assert!(!below_at(low, high, 0, SMOOTH, 2));
    assert!(below_at(low, high, 0, SMOOTH, 63));
    assert!(!below_at(low, high, 0, SMOOTH, 64));
    assert_eq!(bracket(low, high, 0, SMOOTH), Some(1));
}

/// Both ends are at 0 and the curve leaves the level between them; only the ends decide.
#[test]
fn a_curve_that_leaves_the_level_between_agreeing_ends_has_no_bracket() {
    let slopes = [65536, 0, 0, 0, 0];
    let (low, high) = (end(0, 0, 0, slopes), end(64, 0, 0, slopes));
    assert!(!below_at(low, high, 0, SMOOTH, 16));
    assert!(below_at(low, high, 0, SMOOTH, 48));
    assert_eq!(bracket(low, high, 0, SMOOTH), None);
}

/// Between ends at 0, the curve at the middle stop is (5·c1 + 10·c2 + 10·c3 + 5·c4)/32 of the control
/// heights, in 5,120ths. D = 2^25 at one end alone makes it 25·2^22/5120 = 20,480; E = 2^27 alone makes it
/// 10·2^22/5120 = 8,192.
#[test]
fn d_and_e_are_cut() {
    let none = [0; 5];
    let steep = [268_435_456, 0, 0, 0, 0];
    let bent = [0, 0, 268_435_456, 0, 0];
    for (first, second, middle) in [
        (steep, none, 20480),
        (none, steep, -20480),
        (bent, none, 8192),
        (none, bent, 8192),
        (steep, steep, 0),
        (bent, bent, 16384),
        (steep.map(|slope| -slope), none, -20480),
        (bent.map(|slope| -slope), none, -8192),
    ] {
        let (low, high) = (end(0, 0, 0, first), end(8191, 0, 0, second));
        assert!(!below_at(low, high, middle, SMOOTH, 32));
        assert!(below_at(low, high, middle + 1, SMOOTH, 32));
    }
}

/// The bound of D is reached and not passed: p·dx/256 = 2^25 for p = 2^28 and dx = 32. One step less and
/// one step more of dx: 31/32 of 20,480 is 19,840, and 33 is cut back to 20,480.
#[test]
fn d_at_its_bound_is_kept() {
    let steep = [268_435_456, 0, 0, 0, 0];
    for (dx, middle) in [(31, 19840), (32, 20480), (33, 20480)] {
        let (low, high) = (end(0, 0, 0, steep), end(dx, 0, 0, [0; 5]));
        assert!(!below_at(low, high, middle, SMOOTH, 32));
        assert!(below_at(low, high, middle + 1, SMOOTH, 32));
    }
}

/// Whether the curve is below 0 at the middle stop of a side by (16,8) between heights of 0, with the
/// slopes of its two ends: exactly if 10·(D1 - D2) + E1 + E2 is negative.
fn below_in_the_middle(first: [i64; 5], second: [i64; 5]) -> bool {
    let (low, high) = (end(0, 0, 0, first), end(16, 8, 0, second));
    below_at(low, high, 0, SMOOTH, 32)
}

/// p = ±8 is D = ±8·16/256 = ±1/2, and r is E as it is. D1 = 1 and E1 = -10 give 0, and E1 = -11 gives -1;
/// D1 = -1 and E1 = 10 give 0, and E1 = 9 gives -1. p = ±7 is D = 0. At the other end p has the other sign.
#[test]
fn halves_of_d_go_away_from_zero() {
    let none = [0; 5];
    for (p, e) in [(8, -10), (-8, 10), (7, 0), (-7, 0)] {
        assert!(!below_in_the_middle([p, 0, e, 0, 0], none));
        assert!(below_in_the_middle([p, 0, e - 1, 0, 0], none));
        assert!(!below_in_the_middle(none, [-p, 0, e, 0, 0]));
        assert!(below_in_the_middle(none, [-p, 0, e - 1, 0, 0]));
    }
}

/// t = ±2 is E = ±2·64/256 = ±1/2, which is ±1, and r at the other end is E as it is: -1 beside 1 gives 0,
/// and 1 beside -1. t = ±1 is E = 0.
#[test]
fn halves_of_e_go_away_from_zero() {
    for (t, e) in [(2, -1), (-2, 1), (1, 0), (-1, 0)] {
        let half = [0, 0, 0, 0, t];
        for (e, below) in [(e, false), (e - 1, true)] {
            let whole = [0, 0, e, 0, 0];
            assert_eq!(below_in_the_middle(half, whole), below);
            assert_eq!(below_in_the_middle(whole, half), below);
        }
    }
}

/// On a side by (16,8) E is r + s + t/4: of t = -1 that is -1/4, which is 0, and of t = -2 it is -1/2,
/// which is -1.
#[test]
fn e_takes_all_three_second_slopes() {
    let below = |r, s, t| below_in_the_middle([0, 0, r, s, t], [0; 5]);
    assert!(!below(0, 0, -1));
    assert!(below(0, 0, -2));
    assert!(below(0, -1, 0));
    assert!(!below(1, -1, 0));
    assert!(below(1, -1, -2));
    assert!(!below(1, -1, -1));
}

/// D takes q·dy as it takes p·dx.
#[test]
fn d_takes_both_first_slopes() {
    let below = |slopes: [i64; 5]| {
        let (low, high) = (end(9, 9, 0, slopes), end(25, 1, 0, [0; 5]));
        below_at(low, high, 0, SMOOTH, 32)
    };
    // The side goes by (16,-8).
    assert!(below([-16, 0, 0, 0, 0]));
    assert!(below([0, 32, 0, 0, 0]));
    assert!(!below([0, -32, 0, 0, 0]));
    assert!(!below([16, 32, 0, 0, 0]));
    // 16·16 - 47·8 = -120, whose quotient by 256 is 0; 16·16 - 48·8 = -128, whose quotient is -1.
    assert!(!below([16, 47, 0, 0, 0]));
    assert!(below([16, 48, 0, 0, 0]));
}

#[test]
fn the_spot_is_the_middle_of_its_bracket() {
    let (low, high) = (end(3, 100, 0, [0; 5]), end(11, 90, 0, [0; 5]));
    assert_eq!(spot(low, high, 0), (128 * 3 + 8, 128 * 100 - 10));
    assert_eq!(spot(low, high, 31), (384 + 63 * 8, 12800 - 630));
    assert_eq!(spot(low, high, 63), (384 + 127 * 8, 12800 - 1270));
}

/// A side with random ends in range, the steep and bent ones included.
fn random_side(random: &mut Random) -> (End, End) {
    let mut one = || {
        let mut slope = || (random.next() as i64 >> 35) >> random.below(29);
        let slopes = std::array::from_fn(|_| slope());
        let place = random.below(8192 * 8192) as i64;
        let z = random.below(65535) as i64 - 32767;
        end(place % 8192, place / 8192, z >> random.below(15), slopes)
    };
    (one(), one())
}

/// 'Nothing exceeds 64 signed bits', at the ends of all ranges; an overflow stops a build with checks.
#[test]
fn the_curve_fits_64_bits_at_the_ends_of_all_ranges() {
    let most = 268_435_456;
    for signs in 0..1024 {
        let sign = |bit: u32| if signs >> bit & 1 == 1 { 1 } else { -1 };
        let slopes = |from: u32| std::array::from_fn(|i| most * sign(from + i as u32));
        let low = end(0, 0, 32767 * sign(0), slopes(0));
        let high = end(8191, 8191, 32767 * sign(9), slopes(5));
        for level in [-32767, 0, 32767] {
            for stop in 0..=64 {
                below_at(low, high, level, SMOOTH, stop);
            }
        }
    }
}

#[test]
fn the_outer_stops_agree_with_the_stations_themselves() {
    let mut random = Random::new(10);
    for _ in 0..2000 {
        let (low, high) = random_side(&mut random);
        for style in [STRAIGHT, SMOOTH] {
            for level in [low.z, low.z + 1, high.z, high.z + 1] {
                assert_eq!(below_at(low, high, level, style, 0), low.z < level);
                assert_eq!(below_at(low, high, level, style, 64), high.z < level);
            }
        }
    }
}

/// The bracket is the first one with a change, in either style; there is one exactly if the ends differ.
#[test]
fn a_bracket_is_the_first_change() {
    let mut random = Random::new(11);
    for _ in 0..2000 {
        let (low, high) = random_side(&mut random);
        for style in [STRAIGHT, SMOOTH] {
            let level = (low.z + high.z) / 2 + random.below(3) as i64 - 1;
            let below: Vec<bool> = (0..=64)
                .map(|stop| below_at(low, high, level, style, stop))
                .collect();
            match bracket(low, high, level, style) {
                None => assert_eq!(below[0], below[64]),
                Some(k) => {
                    let k = k as usize;
                    assert_ne!(below[0], below[64]);
                    assert!(below[..=k].iter().all(|&b| b == below[0]));
                    assert_ne!(below[k], below[k + 1]);
                }
            }
        }
    }
}

/// Along a side, spots of two levels in one style stand in order of height; they may coincide.
#[test]
fn brackets_of_two_levels_stand_in_order_of_height() {
    let mut random = Random::new(12);
    for _ in 0..2000 {
        let (low, high) = random_side(&mut random);
        for style in [STRAIGHT, SMOOTH] {
            let span = low.z.abs_diff(high.z);
            if span == 0 {
                continue;
            }
            let base = low.z.min(high.z) + 1;
            let mut levels = [0, 1].map(|_| base + random.below(span) as i64);
            levels.sort();
            let [first, second] =
                levels.map(|level| bracket(low, high, level, style).expect("a crossed side"));
            if low.z < high.z {
                assert!(first <= second);
            } else {
                assert!(first >= second);
            }
        }
    }
}
