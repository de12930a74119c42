//! The slopes at the stations.

use crate::refusal::{room, slope_room, Refused};
use crate::survey::{check, station_turn};
use crate::whole::{cut, rounded};

/// 'the four nearest others (fewer if n is under 5)'
const NEAREST: usize = 4;

/// 'The slopes in 65,536ths'
const UNIT: i64 = 65536;

/// 'cut to within ±268,435,456'
const SLOPE_BOUND: i128 = 268_435_456;

/// The slopes job: 'Order for each station: p, q, r, s, t.'
pub fn slopes(x: &[u32], y: &[u32], z: &[i32], slopes: &mut [i32]) -> Result<(), Refused> {
    check(x, y, z)?;
    room(slopes.len(), slope_room(x.len()))?;
    for (station, five) in slopes_of(x, y, z).into_iter().enumerate() {
        for (i, slope) in five.into_iter().enumerate() {
            slopes[5 * station + i] = slope as i32;
        }
    }
    Ok(())
}

/// p, q, r, s, t of each station of a checked survey. 'The second slopes repeat this with p and q in the
/// place of z', those of the neighbours too, so p and q of every station come first.
pub fn slopes_of(x: &[u32], y: &[u32], z: &[i32]) -> Vec<[i64; 5]> {
    let n = x.len();
    let taken: Vec<Vec<usize>> = (0..n).map(|station| neighbours(x, y, station)).collect();
    let z: Vec<i64> = z.iter().map(|&z| i64::from(z)).collect();
    let z_sums: Vec<Sums> = (0..n)
        .map(|station| sums(x, y, &z, station, &taken[station]))
        .collect();
    let p: Vec<i64> = z_sums.iter().map(|z| slope(-UNIT * z.nx, z.nz)).collect();
    let q: Vec<i64> = z_sums.iter().map(|z| slope(-UNIT * z.ny, z.nz)).collect();
    (0..n)
        .map(|station| {
            let of_p = sums(x, y, &p, station, &taken[station]);
            let of_q = sums(x, y, &q, station, &taken[station]);
            let [r, s, t] = second_slopes(of_p, of_q);
            [p[station], q[station], r, s, t]
        })
        .collect()
}

/// 'For each station take the four nearest others (fewer if n is under 5): squared distance, ties to the
/// lower number. If these and the station lie on one line, the last taken is replaced by the nearest
/// station off that line, same ties.' The line is that of the station and the first taken; a station off it
/// exists, as not all are on one line.
fn neighbours(x: &[u32], y: &[u32], station: usize) -> Vec<usize> {
    let mut taken = nearest(x, y, station, NEAREST, |other| other != station);
    let off_line = |other: usize| station_turn(x, y, station, taken[0], other) != 0;
    if !taken.iter().any(|&other| off_line(other)) {
        let replacement = nearest(x, y, station, 1, off_line)[0];
        let last = taken.len() - 1;
        taken[last] = replacement;
    }
    taken
}

/// The `most` nearest of the stations that are wanted, or all of them if they are fewer, nearest first.
fn nearest(
    x: &[u32],
    y: &[u32],
    station: usize,
    most: usize,
    wanted: impl Fn(usize) -> bool,
) -> Vec<usize> {
    let mut taken: Vec<(i64, usize)> = Vec::with_capacity(most + 1);
    for other in (0..x.len()).filter(|&other| wanted(other)) {
        let dx = i64::from(x[other]) - i64::from(x[station]);
        let dy = i64::from(y[other]) - i64::from(y[station]);
        let candidate = (dx * dx + dy * dy, other);
        if taken.len() < most || candidate < taken[most - 1] {
            let place = taken.partition_point(|&nearer| nearer < candidate);
            taken.insert(place, candidate);
            taken.truncate(most);
        }
    }
    taken.into_iter().map(|(_, other)| other).collect()
}

/// NX, NY and NZ, each summed over the pairs of neighbours of one station.
#[derive(Clone, Copy)]
struct Sums {
    nx: i64,
    ny: i64,
    nz: i64,
}

/// 'For each pair (i before j in that order) with steps (dx1,dy1,dz1), (dx2,dy2,dz2): NX = dy1·dz2 -
/// dz1·dy2, NY = dz1·dx2 - dx1·dz2, NZ = dx1·dy2 - dy1·dx2. A pair with NZ = 0 is skipped; with NZ negative
/// all three are negated. Sum them.' `z` holds what stands in the place of z.
fn sums(x: &[u32], y: &[u32], z: &[i64], station: usize, taken: &[usize]) -> Sums {
    let step = |other: usize| {
        (
            i64::from(x[other]) - i64::from(x[station]),
            i64::from(y[other]) - i64::from(y[station]),
            z[other] - z[station],
        )
    };
    let mut sums = Sums {
        nx: 0,
        ny: 0,
        nz: 0,
    };
    for i in 0..taken.len() {
        for j in i + 1..taken.len() {
            let (dx1, dy1, dz1) = step(taken[i]);
            let (dx2, dy2, dz2) = step(taken[j]);
            let nx = dy1 * dz2 - dz1 * dy2;
            let ny = dz1 * dx2 - dx1 * dz2;
            let nz = dx1 * dy2 - dy1 * dx2;
            let sign = nz.signum();
            sums.nx += sign * nx;
            sums.ny += sign * ny;
            sums.nz += sign * nz;
        }
    }
    sums
}

/// 'r from p's NX, t from q's NY, and s = -(p's NY + q's NX)/(2·NZ), the sign flips following NZ as before
/// and no further factor 65,536.' NZ is that of the places alone, so p and q have one NZ.
fn second_slopes(of_p: Sums, of_q: Sums) -> [i64; 3] {
    let nz = of_p.nz;
    let r = slope(-of_p.nx, nz);
    let s = slope(-(of_p.ny + of_q.nx), 2 * nz);
    let t = slope(-of_q.ny, nz);
    [r, s, t]
}

/// 'Each quotient is rounded to the nearest whole number', with its half as document 02 has it, 'and cut to
/// within ±268,435,456 (p and q before they are used for r, s, t).'
fn slope(n: i64, d: i64) -> i64 {
    cut(rounded(i128::from(n), i128::from(d)), SLOPE_BOUND) as i64
}
