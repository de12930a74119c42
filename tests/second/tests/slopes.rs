//! The slopes at the stations.

mod common;

use common::*;

/// z = x·y on the unit square. At station 0 the pairs (1,2), (1,3), (2,3) give (0,0,1), (0,-1,1) and,
/// negated, (-1,0,1): p = q = 65536/3, rounded 21,845. At station 1 the sum is (-1,-2,3), at station 2
/// (-2,-1,3), at station 3 (-2,-2,3), and 2·65536/3 is rounded 43,691. So p is the plane 21,845 + 21,846·y
/// and q is 21,845 + 21,846·x, whence r = t = 0 and s = (21,846 + 21,846)/2.
#[test]
fn the_four_corners_of_a_saddle() {
    let s = Survey::of(&[(0, 0), (1, 0), (0, 1), (1, 1)], &[0, 0, 0, 1]);
    let expected = [
        [21845, 21845, 0, 21846, 0],
        [21845, 43691, 0, 21846, 0],
        [43691, 21845, 0, 21846, 0],
        [43691, 43691, 0, 21846, 0],
    ];
    assert_eq!(slopes(&s), expected);
}

/// With four stations the sum at each is that over all four triangles, less the one that it is no corner
/// of. The heights 0, 600, 0, 0 give (-600,0,2), (-600,600,2), (0,0,1), (0,600,1) for the triangles 012,
/// 013, 023, 123, so p is 240, 240, 150, 150 and q is -120, -240, -150, -300. Then p is the plane 240 -
/// 90·y, and q gives (120,60,2), (120,240,2), (150,30,1), (150,210,1); so t is -330/5, -510/5, -300/4,
/// -480/4, and s is -(450+390)/10 twice and -(360+420)/8 twice. With x and y exchanged, p and q are, and r
/// and t.
#[test]
fn second_slopes_of_four_stations() {
    let places = [(0, 0), (2, 0), (0, 1), (1, 1)];
    let expected = [
        [240.0, -120.0, 0.0, -84.0, -66.0],
        [240.0, -240.0, 0.0, -84.0, -102.0],
        [150.0, -150.0, 0.0, -97.5, -75.0],
        [150.0, -300.0, 0.0, -97.5, -120.0],
    ]
    .map(|five| five.map(|slope| (slope * 65536.0) as i32));
    let heights = [0, 600, 0, 0];
    assert_eq!(slopes(&Survey::of(&places, &heights)), expected);
    let exchanged = Survey::of(&places.map(|(x, y)| (y, x)), &heights);
    let expected = expected.map(|[p, q, r, s, t]| [q, p, t, s, r]);
    assert_eq!(slopes(&exchanged), expected);
}

/// Steps (512,1,0) and (512,257,dz): NX = dz, NY = -512·dz, NZ = 131,072, so p = -dz/2 and q = 256·dz at
/// all three stations, and the second slopes are 0. With x and y exchanged, p and q are.
#[test]
fn a_half_slope_goes_away_from_zero() {
    let places = [(0, 0), (512, 1), (512, 257)];
    for (dz, half) in [(1, -1), (-1, 1), (3, -2), (-3, 2), (7, -4), (-7, 4)] {
        let heights = [0, 0, dz];
        let s = Survey::of(&places, &heights);
        assert_eq!(slopes(&s), [[half, 256 * dz, 0, 0, 0]; 3], "{dz}");
        let exchanged = Survey::of(&places.map(|(x, y)| (y, x)), &heights);
        assert_eq!(slopes(&exchanged), [[256 * dz, half, 0, 0, 0]; 3], "{dz}");
    }
}

/// The stations of `second_slopes_of_four_stations`, 128 times as far apart and 5·h high in the place of
/// 600: a first slope there is 65,536·5·h/(600·128) = 64·h/15 times as much, a second one h/30 times. So s
/// is -2.8·h and -3.25·h, t is -2.2·h, -3.4·h, -2.5·h and -4·h: -2.5 goes to -3, and -6.5 to -7.
#[test]
fn half_second_slopes_go_away_from_zero() {
    let places = [(0, 0), (256, 0), (0, 128), (128, 128)];
    let once = [
        [1024, -512, 0, -3, -2],
        [1024, -1024, 0, -3, -3],
        [640, -640, 0, -3, -3],
        [640, -1280, 0, -3, -4],
    ];
    let twice = [
        [2048, -1024, 0, -6, -4],
        [2048, -2048, 0, -6, -7],
        [1280, -1280, 0, -7, -5],
        [1280, -2560, 0, -7, -8],
    ];
    for (h, expected) in [(1, once), (2, twice)] {
        for sign in [1, -1] {
            let heights = [0, sign * 5 * h, 0, 0];
            let expected = expected.map(|five| five.map(|slope| sign * slope));
            assert_eq!(slopes(&Survey::of(&places, &heights)), expected);
            let exchanged = Survey::of(&places.map(|(x, y)| (y, x)), &heights);
            let expected = expected.map(|[p, q, r, s, t]| [q, p, t, s, r]);
            assert_eq!(slopes(&exchanged), expected);
        }
    }
}

/// 'Negating all heights must then negate every slope exactly.'
#[test]
fn negated_heights_negate_every_slope() {
    for s in Random::new(27).surveys(400) {
        let expected: Vec<[i32; 5]> = slopes(&s)
            .into_iter()
            .map(|five| five.map(|slope| -slope))
            .collect();
        assert_eq!(slopes(&s.negated()), expected, "{s:?}");
    }
}

/// A rise of dz over one step is a slope of 65,536·dz, and 4,096·65,536 = 268,435,456.
#[test]
fn first_slopes_are_cut_to_268435456() {
    let bound = 268_435_456;
    for (dz, p) in [
        (4095, bound - 65536),
        (4096, bound),
        (4097, bound),
        (-4095, 65536 - bound),
        (-4096, -bound),
        (-4097, -bound),
        (32767, bound),
        (-32767, -bound),
    ] {
        let s = Survey::of(&[(0, 0), (1, 0), (0, 1)], &[0, dz, 0]);
        assert_eq!(slopes(&s), [[p, 0, 0, 0, 0]; 3], "{dz}");
    }
}

/// On the unit square with z = 3·4,097·x·y the sums are (-1,-1,3), (-1,-2,3), (-2,-1,3), (-2,-2,3) times
/// 12,291, so each p and q is over 4,096 and is cut. Second slopes formed from the cut p and q are all 0.
#[test]
fn second_slopes_use_the_first_ones_after_their_cut() {
    let s = Survey::of(&[(0, 0), (1, 0), (0, 1), (1, 1)], &[0, 0, 0, 3 * 4097]);
    let bound = 268_435_456;
    assert_eq!(slopes(&s), [[bound, bound, 0, 0, 0]; 4]);
}

/// z = h·x·y on the unit square with h·65,536/3 within the cut and twice that beyond it: p is h·65,536/3 at
/// y = 0 and the bound at y = 1, so s = bound - h·65,536/3. With h = 3·4,095 that is 65,536.
#[test]
fn a_cut_first_slope_stands_in_the_second_slopes() {
    let s = Survey::of(&[(0, 0), (1, 0), (0, 1), (1, 1)], &[0, 0, 0, 3 * 4095]);
    let (low, high) = (268_435_456 - 65536, 268_435_456);
    let expected = [
        [low, low, 0, 65536, 0],
        [low, high, 0, 65536, 0],
        [high, low, 0, 65536, 0],
        [high, high, 0, 65536, 0],
    ];
    assert_eq!(slopes(&s), expected);
}

/// Five stations at distance 5 from station 0, four of them taken. With the odd one last it isn't taken and
/// the rest are level. With it first, the sum over the six pairs is (-5,-10,105) times 1/21 of its height,
/// 21.
#[test]
fn ties_of_distance_go_to_the_lower_number() {
    let (x, y) = (10, 10);
    let cross = [(15, 10), (10, 15), (5, 10), (10, 5)];
    let mut places = vec![(x, y)];
    places.extend(cross);
    places.push((13, 14));
    let s = Survey::of(&places, &[0, 0, 0, 0, 0, 21]);
    assert_eq!(slopes(&s)[0][..2], [0, 0]);

    let mut places = vec![(x, y), (13, 14)];
    places.extend(cross);
    let s = Survey::of(&places, &[0, 21, 0, 0, 0, 0]);
    assert_eq!(slopes(&s)[0][..2], [65536, 131072]);
}

/// The four nearest of station 2 stand with it on the line y = 0; the last, 4, gives way to 5, the nearer
/// of the two off the line. The pairs (1,5), (3,5), (0,5) give (0,-50,50), (-350,-50,50), (0,-100,100), and
/// the pairs on the line have NZ = 0 and are skipped, though station 3 is higher. Heights of 4 and 6 don't
/// count.
#[test]
fn the_last_of_four_in_line_is_replaced_by_the_nearest_off_the_line() {
    let places = [
        (10, 0),
        (11, 0),
        (12, 0),
        (13, 0),
        (14, 0),
        (12, 50),
        (12, 60),
    ];
    let s = Survey::of(&places, &[0, 0, 0, 7, 1000, 50, 999]);
    assert_eq!(slopes(&s)[2][..2], [114688, 65536]);
}

/// Both stations off the line are 50 away, by (0,50) and by (30,40), and 100 high. Beside (0,50) the sum
/// over the pairs off the line is (-400,-400,200), beside (30,40) it is (-320,-160,160).
#[test]
fn the_replacement_has_the_same_ties() {
    let line = [(10, 0), (11, 0), (12, 0), (13, 0), (14, 0)];
    for (off, expected) in [
        ([(12, 50), (42, 40)], [131072, 131072]),
        ([(42, 40), (12, 50)], [131072, 65536]),
    ] {
        let places = [&line[..], &off[..]].concat();
        let s = Survey::of(&places, &[0, 0, 0, 8, 1000, 100, 100]);
        assert_eq!(slopes(&s)[2][..2], expected);
    }
}

/// A survey of four stations has three others to take, one of five has four.
#[test]
fn a_plane_in_whole_slopes_is_found_by_surveys_of_3_4_5_and_more_stations() {
    let mut random = Random::new(9);
    for n in 3..40 {
        let s = random.survey(n, 40, 1);
        let z: Vec<i32> = (0..n)
            .map(|i| 3 * s.x[i] as i32 - 5 * s.y[i] as i32 + 11)
            .collect();
        let plane = Survey { z, ..s };
        assert_eq!(slopes(&plane), vec![[3 * 65536, -5 * 65536, 0, 0, 0]; n]);
    }
}

#[test]
fn every_slope_is_within_the_cut_at_the_ends_of_all_ranges() {
    let s = Survey::of(
        &[
            (0, 0),
            (1, 0),
            (0, 1),
            (8191, 8191),
            (8190, 8191),
            (8191, 8190),
        ],
        &[-32767, 32767, 32767, 32767, -32767, -32767],
    );
    for slope in slopes(&s).iter().flatten() {
        assert!(slope.abs() <= 268_435_456);
    }
}
