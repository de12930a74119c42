//! A mesh that is handed in, and the jobs over it. Document 02, "A mesh from the supplier". A survey has no
//! stations but those in use.

use crate::height::{height_in_rooms, holds, Height};
use crate::hull::{hull_sides, twice_hull_area};
use crate::lines::{directed_sides, lines_in_rooms, Drawn};
use crate::refusal::{most_triangles, refuse, Refused};
use crate::survey::{check, station_turn};
use std::collections::BTreeMap;

/// 'a check of such a mesh against our stations'
pub fn check_mesh(x: &[u32], y: &[u32], z: &[i32], list: &[u16]) -> Result<(), Refused> {
    accepted(x, y, z, list).map(|_| ())
}

/// 'An accepted mesh may then be used for heights and lines; the calls that take one make this check
/// themselves, with refusal 9 in the same place'
#[allow(clippy::too_many_arguments)]
pub fn height_over(
    x: &[u32],
    y: &[u32],
    z: &[i32],
    list: &[u16],
    px: u32,
    py: u32,
    slopes: &mut [i32],
    work: &mut [u16],
) -> Result<Height, Refused> {
    let triangles = accepted(x, y, z, list)?;
    height_in_rooms(x, y, z, || triangles, px, py, slopes, work)
}

/// The same for lines.
#[allow(clippy::too_many_arguments)]
pub fn lines_over(
    x: &[u32],
    y: &[u32],
    z: &[i32],
    list: &[u16],
    level: i32,
    style: u32,
    vertex_x: &mut [u32],
    vertex_y: &mut [u32],
    records: &mut [u16],
    slopes: &mut [i32],
    work: &mut [u16],
) -> Result<Drawn, Refused> {
    let triangles = accepted(x, y, z, list)?;
    lines_in_rooms(
        x,
        y,
        z,
        || triangles,
        level,
        style,
        vertex_x,
        vertex_y,
        records,
        slopes,
        work,
    )
}

/// The triangles of a list that is accepted. 9 'carries the first triangle, in its order, with a wrong
/// number, turn, inner station or side; where only the length, the unused station or the sum is wrong, the
/// count of whole triangles. A wrong length is tested first. It comes after 4.'
fn accepted(x: &[u32], y: &[u32], z: &[i32], list: &[u16]) -> Result<Vec<[usize; 3]>, Refused> {
    check(x, y, z)?;
    let whole = list.len() / 3;
    if list.len() != 3 * whole || whole > most_triangles(x.len()) {
        return refuse(9, whole.min(u32::MAX as usize));
    }
    let triangles: Vec<[usize; 3]> = list
        .chunks(3)
        .map(|three| [three[0].into(), three[1].into(), three[2].into()])
        .collect();
    let sides = Sides::of(x, y, &triangles);
    let wrong = |&triangle: &[usize; 3]| {
        has_wrong_number(x, triangle)
            || has_wrong_turn(x, y, triangle)
            || has_inner_station(x, y, triangle)
            || directed_sides(triangle)
                .into_iter()
                .any(|side| !sides.is_right(side))
    };
    if let Some(first) = triangles.iter().position(wrong) {
        return refuse(9, first);
    }
    if has_unused_station(x, &triangles) || has_wrong_sum(x, y, &triangles) {
        return refuse(9, whole);
    }
    Ok(triangles)
}

/// 'of stations in use'
fn has_wrong_number(x: &[u32], triangle: [usize; 3]) -> bool {
    triangle.iter().any(|&corner| corner >= x.len())
}

/// 'counterclockwise with positive area'
fn has_wrong_turn(x: &[u32], y: &[u32], [a, b, c]: [usize; 3]) -> bool {
    station_turn(x, y, a, b, c) <= 0
}

/// 'no station in use lies in a triangle (edges counted) except as its corner'
fn has_inner_station(x: &[u32], y: &[u32], triangle: [usize; 3]) -> bool {
    (0..x.len()).any(|station| {
        !triangle.contains(&station) && holds(x, y, triangle, x[station], y[station])
    })
}

/// How often each side is run each way, by all triangles of a list, right or wrong; and the hull's sides.
struct Sides {
    runs: BTreeMap<(usize, usize), usize>,
    hull: Vec<(usize, usize)>,
}

impl Sides {
    fn of(x: &[u32], y: &[u32], triangles: &[[usize; 3]]) -> Sides {
        let mut runs = BTreeMap::new();
        for &triangle in triangles {
            for side in directed_sides(triangle) {
                *runs.entry(side).or_insert(0) += 1;
            }
        }
        let hull = hull_sides(x, y);
        Sides { runs, hull }
    }

    fn run(&self, a: usize, b: usize) -> usize {
        self.runs.get(&(a, b)).copied().unwrap_or(0)
    }

    /// 'each side is run by two triangles, once each way, or is a hull side with one'
    fn is_right(&self, (a, b): (usize, usize)) -> bool {
        match (self.run(a, b), self.run(b, a)) {
            (1, 1) => true,
            (1, 0) => self.hull.contains(&(a, b)),
            _ => false,
        }
    }
}

/// 'every station in use is a corner'
fn has_unused_station(x: &[u32], triangles: &[[usize; 3]]) -> bool {
    (0..x.len()).any(|station| !triangles.iter().any(|corners| corners.contains(&station)))
}

/// 'the areas sum to the hull's': twice the areas to twice the hull's.
fn has_wrong_sum(x: &[u32], y: &[u32], triangles: &[[usize; 3]]) -> bool {
    let areas = triangles
        .iter()
        .map(|&[a, b, c]| station_turn(x, y, a, b, c));
    areas.sum::<i64>() != twice_hull_area(x, y)
}
