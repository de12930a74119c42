//! The height at a place.

mod common;

use common::*;
use second::{coefficients, nested, slopes_of, Corner, Height, Steps};

#[test]
fn a_place_on_a_station_gives_its_height_exactly() {
    for s in Random::new(18).surveys(60) {
        for i in 0..s.n() {
            for kind in KINDS {
                assert_eq!(height(&s, kind, s.x[i], s.y[i]), Height::Own(s.z[i]));
            }
        }
    }
}

/// The plane 1.25·x + 1.25·y: every step is exact, on the hull's edge as well as inside.
#[test]
fn a_plane_is_met_exactly() {
    let s = example();
    for (px, py, expected) in [
        (4, 0, 5.0),
        (0, 4, 5.0),
        (4, 4, 10.0),
        (2, 2, 5.0),
        (1, 2, 3.75),
        (1, 0, 1.25),
    ] {
        assert_eq!(
            height(&s, 0, px, py),
            Height::Between(expected),
            "{px} {py}"
        );
    }
}

#[test]
fn a_place_beyond_the_hull_is_outside() {
    let s = example();
    for (px, py) in [(8, 1), (5, 4), (9, 0), (8191, 8191), (0, 9)] {
        assert_eq!(height(&s, 0, px, py), Height::Outside, "{px} {py}");
    }
}

/// A place is outside exactly if it lies right of some side of the hull, which is defined without the mesh.
#[test]
fn outside_is_outside_the_hull() {
    for s in Random::new(19).surveys(48) {
        let extent = s.x.iter().chain(&s.y).max().unwrap() + 2;
        if extent > 14 {
            continue;
        }
        let hull = second::hull_sides(&s.x, &s.y);
        for px in 0..extent {
            for py in 0..extent {
                let at = |i: usize| (i64::from(s.x[i]), i64::from(s.y[i]));
                let right = hull.iter().any(|&(a, b)| {
                    let ((ax, ay), (bx, by)) = (at(a), at(b));
                    second::turn(ax, ay, bx, by, px.into(), py.into()) < 0
                });
                for kind in KINDS {
                    assert_eq!(
                        height(&s, kind, px, py) == Height::Outside,
                        right,
                        "{s:?} {kind} {px} {py}"
                    );
                }
            }
        }
    }
}

/// The other nesting: for each power of v first the sum over j, nested in u, then the sum over k, nested in
/// v.
fn nested_in_u_then_v(p: [[f64; 6]; 6], u: f64, v: f64) -> f64 {
    let in_u = |k: usize| {
        (0..5 - k)
            .rev()
            .fold(p[5 - k][k], |sum, j| sum * u + p[j][k])
    };
    (0..5).rev().fold(in_u(5), |sum, k| sum * v + in_u(k))
}

/// The coefficients and the turned place for a place in a survey: by hand from the first triangle that
/// holds it.
fn numbered_steps(s: &Survey, kind: u32, px: u32, py: u32) -> Option<([[f64; 6]; 6], f64, f64)> {
    let at = |i: usize| (i64::from(s.x[i]), i64::from(s.y[i]));
    let place = (i64::from(px), i64::from(py));
    let inside = |a: usize, b: usize| {
        let ((ax, ay), (bx, by)) = (at(a), at(b));
        second::turn(ax, ay, bx, by, place.0, place.1) >= 0
    };
    let [one, two, three] = triangles(s, kind)
        .into_iter()
        .find(|&[a, b, c]| inside(a, b) && inside(b, c) && inside(c, a))?;
    let steps = Steps::of(at(one), at(two), at(three));
    let slopes = slopes_of(&s.x, &s.y, &s.z);
    let corner = |i: usize| Corner::of(steps, s.z[i], slopes[i]);
    let p = coefficients(steps, corner(one), corner(two), corner(three));
    let (u, v) = steps.turned(place.0 - at(one).0, place.1 - at(one).1);
    Some((p, u, v))
}

/// 0x1.e9efeb6fab46ap+6 nested in v and then in u, 0x1.e9efeb6fab46ep+6 the other way.
#[test]
fn the_sum_is_nested_in_v_then_in_u() {
    let s = Survey::of(
        &[(46, 320), (173, 885), (187, 433), (93, 746)],
        &[-230, 353, 435, -202],
    );
    let v_then_u = f64::from_bits(0x405e_9efe_b6fa_b46a);
    let u_then_v = f64::from_bits(0x405e_9efe_b6fa_b46e);
    assert_eq!(height(&s, 0, 128, 557), Height::Between(v_then_u));
    let (p, u, v) = numbered_steps(&s, 0, 128, 557).unwrap();
    assert_eq!(nested(p, u, v).to_bits(), v_then_u.to_bits());
    assert_eq!(nested_in_u_then_v(p, u, v).to_bits(), u_then_v.to_bits());
}

/// p = 1, 2, 3, ... in the order p00, p01, ..., p05, p10, ... at u = 2, v = 3: small whole numbers, so the
/// plain sum of powers is exact too.
#[test]
fn the_nested_sum_is_the_sum_of_powers() {
    let mut p = [[0.0; 6]; 6];
    let (mut next, mut plain) = (1.0, 0.0);
    for (j, row) in p.iter_mut().enumerate() {
        for (k, coefficient) in row[..6 - j].iter_mut().enumerate() {
            *coefficient = next;
            plain += next * 2f64.powi(j as i32) * 3f64.powi(k as i32);
            next += 1.0;
        }
    }
    assert_eq!(next, 22.0);
    assert_eq!(nested(p, 2.0, 3.0), plain);
    assert_eq!(nested_in_u_then_v(p, 2.0, 3.0), plain);
}

#[test]
fn the_two_nestings_agree_to_the_last_bits() {
    let mut random = Random::new(20);
    let mut tried = 0;
    for s in random.surveys(200) {
        let extent = u64::from(*s.x.iter().chain(&s.y).max().unwrap()) + 1;
        let (px, py) = (random.below(extent) as u32, random.below(extent) as u32);
        let kind = KINDS[random.below(2) as usize];
        if let (Height::Between(between), Some((p, u, v))) =
            (height(&s, kind, px, py), numbered_steps(&s, kind, px, py))
        {
            assert_eq!(between.to_bits(), nested(p, u, v).to_bits());
            let size: f64 = p.iter().flatten().map(|c| c.abs()).sum();
            let difference = (nested_in_u_then_v(p, u, v) - between).abs();
            assert!(difference <= 1e-14 * size, "{difference} of {size}");
            tried += 1;
        }
    }
    assert!(tried > 50);
}

/// Each of the numbered steps with its heights and slopes negated is negated, and an f64 is rounded alike
/// on either side of zero. `==` of f64 tells all bits apart but the sign of a zero.
#[test]
fn negated_heights_negate_the_height_at_every_place() {
    let mut random = Random::new(28);
    let mut tried = 0;
    for s in random.surveys(400) {
        let extent = u64::from(*s.x.iter().chain(&s.y).max().unwrap()) + 1;
        for kind in KINDS {
            let (px, py) = (random.below(extent) as u32, random.below(extent) as u32);
            let found = height(&s, kind, px, py);
            let expected = match found {
                Height::Own(z) => Height::Own(-z),
                Height::Between(z) => Height::Between(-z),
                Height::Outside => Height::Outside,
            };
            assert_eq!(height(&s.negated(), kind, px, py), expected, "{s:?}");
            tried += usize::from(matches!(found, Height::Between(_)));
        }
    }
    assert!(tried > 100);
}

/// The value and the derivatives of the sum at (u,v): z, zu, zv, zuu, zuv, zvv.
fn jet(p: &[[f64; 6]; 6], u: f64, v: f64) -> [f64; 6] {
    let mut jet = [0.0; 6];
    let orders = [(0, 0), (1, 0), (0, 1), (2, 0), (1, 1), (0, 2)];
    for (entry, (du, dv)) in jet.iter_mut().zip(orders) {
        for (j, row) in p.iter().enumerate() {
            for (k, coefficient) in row.iter().enumerate() {
                *entry += coefficient * derived(u, j, du) * derived(v, k, dv);
            }
        }
    }
    jet
}

/// The derivative of the given order of t^power.
fn derived(t: f64, power: usize, order: usize) -> f64 {
    if order > power {
        return 0.0;
    }
    let factor: usize = (power - order + 1..=power).product();
    factor as f64 * t.powi((power - order) as i32)
}

/// Random corners of a random triangle.
fn random_corners(random: &mut Random) -> (Steps, [Corner; 3]) {
    let s = random.survey(3, 100, 100);
    let at = |i: usize| (i64::from(s.x[i]), i64::from(s.y[i]));
    let turned = station_turn(&s, 0, 1, 2) > 0;
    let (two, three) = if turned { (1, 2) } else { (2, 1) };
    let steps = Steps::of(at(0), at(two), at(three));
    let corners = [0, two, three].map(|i| {
        let slopes = std::array::from_fn(|_| random.below(2 << 17) as i64 - (1 << 17));
        Corner::of(steps, s.z[i], slopes)
    });
    (steps, corners)
}

/// The report's first condition: at each corner the height and its five derivatives are the corner's own.
#[test]
fn the_quintic_meets_height_and_derivatives_at_each_corner() {
    let mut random = Random::new(21);
    for _ in 0..300 {
        let (steps, corners) = random_corners(&mut random);
        let p = coefficients(steps, corners[0], corners[1], corners[2]);
        let size: f64 = p.iter().flatten().map(|c| c.abs()).sum::<f64>() + 1.0;
        for (corner, (u, v)) in corners.iter().zip([(0.0, 0.0), (1.0, 0.0), (0.0, 1.0)]) {
            let own = [
                corner.z, corner.zu, corner.zv, corner.zuu, corner.zuv, corner.zvv,
            ];
            for (met, own) in jet(&p, u, v).into_iter().zip(own) {
                assert!((met - own).abs() <= 1e-11 * size, "{met} {own} {size}");
            }
        }
    }
}

/// The report's second condition: across each side the derivative square to the side is at most cubic along
/// it, so its fourth difference over five evenly spaced places is nothing.
#[test]
fn the_derivative_square_to_each_side_is_at_most_cubic() {
    let mut random = Random::new(22);
    for _ in 0..300 {
        let (steps, corners) = random_corners(&mut random);
        let Steps { a, b, c, d } = steps;
        let p = coefficients(steps, corners[0], corners[1], corners[2]);
        let sides = [
            ((0.0, 0.0), (1.0, 0.0), (a, c)),
            ((0.0, 0.0), (0.0, 1.0), (b, d)),
            ((1.0, 0.0), (0.0, 1.0), (b - a, d - c)),
        ];
        for ((u1, v1), (u2, v2), (dx, dy)) in sides {
            let (square_u, square_v) = steps.turned(-dy, dx);
            let across = |i: usize| {
                let t = i as f64 / 4.0;
                let [_, zu, zv, ..] = jet(&p, u1 + t * (u2 - u1), v1 + t * (v2 - v1));
                square_u * zu + square_v * zv
            };
            let fourth =
                across(0) - 4.0 * across(1) + 6.0 * across(2) - 4.0 * across(3) + across(4);
            let size: f64 = p.iter().flatten().map(|c| c.abs()).sum();
            let reach = square_u.abs() + square_v.abs();
            assert!(
                fourth.abs() <= 1e-11 * (size * reach + 1.0),
                "{fourth} {size} {reach}"
            );
        }
    }
}

/// 'zu = a·zx + c·zy' and the rest at a corner, with a, b, c, d = 2, 3, 5, 7 and slopes of 1, 10, 100,
/// 1000, 10000.
#[test]
fn derivatives_are_turned_by_the_steps_of_the_triangle() {
    let steps = Steps {
        a: 2,
        b: 3,
        c: 5,
        d: 7,
    };
    let slopes = [1, 10, 100, 1000, 10000].map(|slope| slope * 65536);
    let corner = Corner::of(steps, -9, slopes);
    assert_eq!(corner.z, -9.0);
    assert_eq!(corner.zu, 2.0 + 50.0);
    assert_eq!(corner.zv, 3.0 + 70.0);
    assert_eq!(corner.zuu, 400.0 + 20000.0 + 250000.0);
    assert_eq!(corner.zuv, 600.0 + 29000.0 + 350000.0);
    assert_eq!(corner.zvv, 900.0 + 42000.0 + 490000.0);
}
