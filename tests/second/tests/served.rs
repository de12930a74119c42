//! The ground served and unserved.

mod common;

use common::*;
use second::{bracket, spot, twice_hull_area, End};

/// Square Q with z 0,10,10,0, straight. T1: the triangles are (0,1,2) and (1,3,2). In 128ths the stations are at (0,0), (1024,0),
/// (0,1024), (1024,1024), and each triangle has twice the area 1024·1024 = 1,048,576.
///
/// Level 5, spots of T3: (504,0) on side 0-1, (0,504) on 0-2, (1024,520) on 1-3, (520,1024) on 2-3; 1-2 is not crossed.
/// - (0,1,2), below: (0,0), (504,0), (0,504), a right angle: 504·504 = 254,016.
///   Not below: (504,0), (1024,0), (0,1024), (0,504). From (504,0): with the next two 520·1024 = 532,480, with the last two
///   504·520 = 262,080 (an upright side of 520, 504 away): 794,560.
/// - (1,3,2), below: (1024,520), (1024,1024), (520,1024), a right angle: 504·504 = 254,016.
///   Not below: (1024,0), (1024,520), (520,1024), (0,1024). From (1024,0): an upright side of 520 with a corner 504 away, 262,080;
///   a level side of 520 with a corner 1024 away, 532,480: 794,560.
/// Served 2·794,560 = 1,589,120, unserved 2·254,016 = 508,032; together 2,097,152.
#[test]
fn the_square_at_level_5() {
    assert_eq!(served(&q([0, 10, 10, 0]), 0, 5, 0), (1_589_120, 508_032));
    assert_eq!(1_589_120 + 508_032, 2_097_152);
}

/// Level 10, spots of T4: (1016,0) on side 0-1, (0,1016) on 0-2, (1024,8) on 1-3, (8,1024) on 2-3. Stations 1 and 2 have the level's own
/// height and are not below it.
/// - (0,1,2), below: (0,0), (1016,0), (0,1016): 1016·1016 = 1,032,256.
///   Not below: (1016,0), (1024,0), (0,1024), (0,1016). From (1016,0): 8·1024 = 8,192 and 8·1016 = 8,128: 16,320.
/// - (1,3,2), below: (1024,8), (1024,1024), (8,1024): 1016·1016 = 1,032,256.
///   Not below: (1024,0), (1024,8), (8,1024), (0,1024). From (1024,0): 8·1016 = 8,128 and 8·1024 = 8,192: 16,320.
/// Served 2·16,320 = 32,640, unserved 2·1,032,256 = 2,064,512; together 2,097,152.
#[test]
fn the_square_at_level_10() {
    assert_eq!(served(&q([0, 10, 10, 0]), 0, 10, 0), (32_640, 2_064_512));
    assert_eq!(32_640 + 2_064_512, 2_097_152);
}

/// T5: at level 0 no station is below; above 10 all are.
#[test]
fn the_square_whole() {
    for (kind, style) in [(0, 0), (0, 1), (1, 0), (1, 1)] {
        let s = q([0, 10, 10, 0]);
        assert_eq!(served(&s, kind, 0, style), (2_097_152, 0));
        assert_eq!(served(&s, kind, 11, style), (0, 2_097_152));
    }
}

/// The triangle (0,1,2) of the square, by itself; T8: its smooth lines equal its straight ones.
#[test]
fn the_example() {
    for (kind, style) in [(0, 0), (0, 1), (1, 0), (1, 1)] {
        assert_eq!(served(&example(), kind, 5, style), (794_560, 254_016));
    }
}

/// A kite on its tip: (640,1280), (1920,1280), (1280,0), (1280,2560) in 128ths, the first two with height 0, the others with 10. Rising
/// from 0 to 10 a side has its spot at 63/128.
///
/// Kind 0 joins 2 and 3, which are both not below 5. In (0,2,3) the spots are (955,650) on 0-2 and (955,1910) on 0-3: below is
/// (640,1280), (955,650), (955,1910), an upright side of 1260 with a corner 315 away, 396,900; not below is (955,650), (1280,0),
/// (1280,2560), (955,1910), upright sides of 1260 and 2560 that are 325 apart, 325·3820 = 1,241,500. (1,3,2) is its mirror image.
///
/// Kind 1 joins 0 and 1, which are both below. In (0,1,3) the spots are (955,1910) on 0-3 and (1605,1910) on 1-3: not below is
/// (1280,2560), (955,1910), (1605,1910), a level side of 650 with a corner 650 away, 422,500; below is (640,1280), (1920,1280),
/// (1605,1910), (955,1910), level sides of 1280 and 650 that are 630 apart, 630·1930 = 1,215,900. (0,2,1) is its mirror image.
#[test]
fn a_kite_over_either_kind() {
    let kite = Survey::of(&[(5, 10), (15, 10), (10, 0), (10, 20)], &[0, 0, 10, 10]);
    assert_eq!(served(&kite, 0, 5, 0), (2 * 1_241_500, 2 * 396_900));
    assert_eq!(served(&kite, 1, 5, 0), (2 * 422_500, 2 * 1_215_900));
}

/// The same kite with heights 0, 10, 0, 10, which lie in a plane. A side that falls from 10 to 0 has its spot at 65/128, so the spots are
/// (955,1910) on 0-3, (1595,630) on 1-2, (1280,1260) on 2-3 and (1270,1280) on 0-1.
///
/// Kind 0. In (0,2,3) station 3 alone is not below: (1280,2560), (955,1910), (1280,1260), an upright side of 1300 with a corner 325 away,
/// 422,500; below is (640,1280), (1280,0), (1280,1260), (955,1910): from (640,1280) an upright side of 1260 with a corner 640 away, 806,400, and
/// with (1280,1260) and (955,1910) 640·630 - (-20)·315 = 409,500: 1,215,900. In (1,3,2) station 2 alone is below: (1280,0), (1595,630),
/// (1280,1260), an upright side of 1260 with a corner 315 away, 396,900; not below is (1920,1280), (1280,2560), (1280,1260), (1595,630): from
/// (1920,1280) an upright side of 1300 with a corner 640 away, 832,000, and with (1280,1260) and (1595,630)
/// (-640)·(-650) - (-20)·(-325) = 409,500: 1,241,500. Served 422,500 + 1,241,500, unserved 1,215,900 + 396,900.
///
/// Kind 1. In (0,1,3) station 0 alone is below, with both spots at 63/128, as in the kite above: 396,900, and 1,241,500 are not. In (0,2,1)
/// station 1 alone is not below, with both at 65/128 from it: 422,500, and 1,215,900 are below. The sums are those of kind 0.
#[test]
fn a_kite_in_a_plane_over_either_kind() {
    let kite = Survey::of(&[(5, 10), (15, 10), (10, 0), (10, 20)], &[0, 10, 0, 10]);
    for kind in KINDS {
        assert_eq!(served(&kite, kind, 5, 0), (1_664_000, 1_612_800));
    }
}

/// The least triangle at the far corner of the range, and the widest one: spots are a unit of a 128th from a station.
///
/// (8190,8190), (8191,8190), (8190,8191), twice the area 1, or 16,384: with heights -32,767, 32,767, 32,767 and level 32,767 the spots
/// are at 127/128 from station 0, and below are 127·127 = 16,129 squares.
///
/// (0,0), (8191,0), (0,8191): the same times 8191·8191 = 67,092,481.
#[test]
fn the_least_and_the_widest_triangle() {
    let z = [-32767, 32767, 32767];
    let least = Survey::of(&[(8190, 8190), (8191, 8190), (8190, 8191)], &z);
    let widest = Survey::of(&[(0, 0), (8191, 0), (0, 8191)], &z);
    for (s, scale) in [(least, 1), (widest, 67_092_481)] {
        assert_eq!(served(&s, 0, 32767, 0), (255 * scale, 16_129 * scale));
        assert_eq!(served(&s, 0, -32767, 0), (16_384 * scale, 0));
    }
}

/// Some of a survey's levels, rising: its heights, those next to them, and the ends of the range.
fn levels(s: &Survey) -> Vec<i32> {
    let near = s.z.iter().take(6).flat_map(|&z| [z - 1, z, z + 1]);
    let mut levels: Vec<i32> = near.chain([-32767, 0, 32767]).collect();
    levels.retain(|level| (-32767..=32767).contains(level));
    levels.sort();
    levels.dedup();
    levels
}

/// 'together they must equal 16,384 times twice the hull area. Raising the level mustn't raise the served figure.'
#[test]
fn both_figures_make_the_hull_and_the_served_one_falls() {
    for s in Random::new(31).surveys(160) {
        let hull = 16_384 * twice_hull_area(&s.x, &s.y) as u64;
        let (least, most) = (s.z.iter().min().unwrap(), s.z.iter().max().unwrap());
        for (kind, style) in [(0, 0), (0, 1), (1, 0), (1, 1)] {
            let mut before = hull;
            for level in levels(&s) {
                let (served, unserved) = served(&s, kind, level, style);
                assert_eq!(served + unserved, hull, "{s:?} {kind} {level} {style}");
                assert!(served <= before, "{s:?} {kind} {level} {style}");
                assert_eq!(served == hull, level <= *least, "{s:?} {kind} {level}");
                assert_eq!(served == 0, level > *most, "{s:?} {kind} {level}");
                before = served;
            }
        }
    }
}

/// The part of the corner that is alone on its side of the level has the two spots at so many 128ths along its sides: of the
/// triangle's twice area A it has one part in 16,384 for each of their product. The other part has the rest.
#[test]
fn a_corner_cut_off_has_the_product_of_its_shares() {
    for s in Random::new(32).surveys(160) {
        let slopes = slopes(&s);
        let end = |i: usize| End {
            x: s.x[i].into(),
            y: s.y[i].into(),
            z: s.z[i].into(),
            slopes: slopes[i].map(i64::from),
        };
        for (kind, style) in [(0, 0), (0, 1), (1, 0), (1, 1)] {
            for level in levels(&s) {
                let below = |i: usize| s.z[i] < level;
                // How far the spot of a side is from one of its ends, in 128ths of the side.
                let share = |from: usize, to: usize| {
                    let (low, high) = (end(from.min(to)), end(from.max(to)));
                    let k = bracket(low, high, level.into(), style).expect("a crossed side");
                    let at = spot(low, high, k);
                    let along = 2 * i64::from(k) + 1;
                    assert_eq!(at.0 - 128 * low.x, along * (high.x - low.x));
                    if from < to {
                        along
                    } else {
                        128 - along
                    }
                };
                let (mut expected, mut hull) = ((0, 0), 0);
                for [a, b, c] in triangles(&s, kind) {
                    let area = station_turn(&s, a, b, c);
                    hull += 16_384 * area;
                    let alone = [[a, b, c], [b, c, a], [c, a, b]]
                        .into_iter()
                        .find(|&[v, p, q]| below(v) != below(p) && below(v) != below(q));
                    let (of_first, rest) = match alone {
                        None => (16_384 * area, 0),
                        Some([v, p, q]) => {
                            let cut = share(v, p) * share(v, q);
                            (cut * area, (16_384 - cut) * area)
                        }
                    };
                    let first = alone.map_or(a, |[v, _, _]| v);
                    let (served, unserved) = if below(first) {
                        (rest, of_first)
                    } else {
                        (of_first, rest)
                    };
                    expected = (expected.0 + served, expected.1 + unserved);
                }
                assert_eq!(expected.0 + expected.1, hull);
                let counted = served(&s, kind, level, style);
                assert_eq!((counted.0 as i64, counted.1 as i64), expected);
            }
        }
    }
}
