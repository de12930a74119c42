//! A survey as handed in: the checks that every job makes first.

use crate::refusal::{
    coordinate_in_range, height_in_range, refuse, Refused, LEAST_STATIONS, MOST_STATIONS,
};
use crate::whole::turn;
use std::collections::HashSet;

/// Refusals 1, 2, 3 and 4: 'The four jobs test 1, 2, 3, 4, 5, 6 in that order. The first that applies is
/// given.'
pub fn check(x: &[u32], y: &[u32], z: &[i32]) -> Result<(), Refused> {
    check_count(x, y, z)?;
    check_ranges(x, y, z)?;
    check_places(x, y)?;
    check_line(x, y)
}

/// 1: 'x, y, z lists differ in length, or the count isn't 3 to 1,024'; carries 0.
pub fn check_count(x: &[u32], y: &[u32], z: &[i32]) -> Result<(), Refused> {
    let one_length = x.len() == y.len() && x.len() == z.len();
    if !one_length || !(LEAST_STATIONS..=MOST_STATIONS).contains(&x.len()) {
        return refuse(1, 0);
    }
    Ok(())
}

/// 2: 'a coordinate or height out of range'; carries the 'lowest such station'.
pub fn check_ranges(x: &[u32], y: &[u32], z: &[i32]) -> Result<(), Refused> {
    for station in 0..x.len() {
        let right = coordinate_in_range(x[station])
            && coordinate_in_range(y[station])
            && height_in_range(z[station]);
        if !right {
            return refuse(2, station);
        }
    }
    Ok(())
}

/// 3: 'two stations at one place'; carries the 'lowest station equal to an earlier one'.
fn check_places(x: &[u32], y: &[u32]) -> Result<(), Refused> {
    let mut earlier = HashSet::new();
    for station in 0..x.len() {
        if !earlier.insert((x[station], y[station])) {
            return refuse(3, station);
        }
    }
    Ok(())
}

/// 4: 'all stations on one line'; carries 0. Stations 0 and 1 are at two places by now, so they give the
/// line.
fn check_line(x: &[u32], y: &[u32]) -> Result<(), Refused> {
    if (2..x.len()).all(|station| station_turn(x, y, 0, 1, station) == 0) {
        return refuse(4, 0);
    }
    Ok(())
}

/// `turn` of three stations named by number.
pub fn station_turn(x: &[u32], y: &[u32], a: usize, b: usize, c: usize) -> i64 {
    let (ax, ay) = (i64::from(x[a]), i64::from(y[a]));
    let (bx, by) = (i64::from(x[b]), i64::from(y[b]));
    let (cx, cy) = (i64::from(x[c]), i64::from(y[c]));
    turn(ax, ay, bx, by, cx, cy)
}
