//! The hull: 'the hull is the convex outline of all the stations, defined without the mesh.'

use crate::survey::station_turn;

/// The sides of the hull going counterclockwise, each from its first station to its second, by rising first
/// station. A side joins two stations such that every station is left of it or in line with it, and none
/// stands between them. So a station in the middle of a straight hull side ends one side and starts the
/// next, and b, the count of 'stations on the hull's edge', is the count of sides.
pub fn hull_sides(x: &[u32], y: &[u32]) -> Vec<(usize, usize)> {
    let n = x.len();
    let mut sides = Vec::new();
    for s in 0..n {
        for t in 0..n {
            let outline = (0..n).all(|r| station_turn(x, y, s, t, r) >= 0);
            if s != t && outline && !(0..n).any(|r| between(x, y, s, t, r)) {
                sides.push((s, t));
            }
        }
    }
    sides
}

/// Whether station r stands on the way from s to t, and is neither.
/// The steps from r to both ends then point opposite ways, which a negative sum of products says.
fn between(x: &[u32], y: &[u32], s: usize, t: usize, r: usize) -> bool {
    let step = |from: u32, to: u32| i64::from(to) - i64::from(from);
    let product = step(x[r], x[s]) * step(x[r], x[t]) + step(y[r], y[s]) * step(y[r], y[t]);
    station_turn(x, y, s, t, r) == 0 && product < 0
}

/// Twice the hull's area: over the sides from s to t, the sum of x_s·y_t - x_t·y_s.
pub fn twice_hull_area(x: &[u32], y: &[u32]) -> i64 {
    let at = |station: usize| (i64::from(x[station]), i64::from(y[station]));
    hull_sides(x, y)
        .into_iter()
        .map(|(s, t)| at(s).0 * at(t).1 - at(t).0 * at(s).1)
        .sum()
}
