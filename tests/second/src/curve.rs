//! The curve along a side, its brackets and its spots.

use crate::refusal::STRAIGHT;
use crate::whole::{cut, rounded};

/// One end of a side: the station's place, its height, and its slopes p, q, r, s, t.
#[derive(Clone, Copy, Debug, PartialEq, Eq)]
pub struct End {
    pub x: i64,
    pub y: i64,
    pub z: i64,
    pub slopes: [i64; 5],
}

/// A side is cut at stops 0 to 64 into brackets 0 to 63.
const BRACKETS: u32 = 64;

/// 'With Z = 5,120·z'
const Z_UNIT: i64 = 5120;

/// 'then D cut to ±33,554,432 and E to ±134,217,728'
const D_BOUND: i128 = 33_554_432;
const E_BOUND: i128 = 134_217_728;

/// Whether the curve of a style is below the level at a stop. 'A side runs from its lower-numbered station
/// to its higher', so stop 0 is the lower-numbered station and stop 64 the higher.
pub fn below_at(low: End, high: End, level: i64, style: u32, stop: u32) -> bool {
    Curve::of(low, high, style).below_at(level, stop)
}

/// The first bracket at whose two ends the curve is below the level at one and not below at the other,
/// counted from the lower-numbered station. There is none unless one station is below the level and the
/// other isn't: '"Below" means z less than the level; equal is not below.'
pub fn bracket(low: End, high: End, level: i64, style: u32) -> Option<u32> {
    if (low.z < level) == (high.z < level) {
        return None;
    }
    let curve = Curve::of(low, high, style);
    (0..BRACKETS).find(|&k| curve.below_at(level, k) != curve.below_at(level, k + 1))
}

/// 'The spot of bracket k (0 to 63, from k/64 to (k+1)/64) is, in 128ths, 128·x1 + (2k+1)·dx, and likewise
/// y.'
pub fn spot(low: End, high: End, k: u32) -> (i64, i64) {
    let middle = 2 * i64::from(k) + 1;
    (
        128 * low.x + middle * (high.x - low.x),
        128 * low.y + middle * (high.y - low.y),
    )
}

/// The curve of one side in one style, made once and read at its stops.
enum Curve {
    Straight { z1: i64, z2: i64 },
    Smooth { controls: [i64; 6] },
}

impl Curve {
    fn of(low: End, high: End, style: u32) -> Curve {
        if style == STRAIGHT {
            Curve::Straight {
                z1: low.z,
                z2: high.z,
            }
        } else {
            Curve::Smooth {
                controls: controls(low, high),
            }
        }
    }

    /// 'Straight, at k/64: z1·(64-k) + z2·k, against 64 times the level.' Smooth: 'The weighted sum is
    /// compared with 5,120·2^30 times the level.'
    fn below_at(&self, level: i64, stop: u32) -> bool {
        let k = i64::from(stop);
        match self {
            Curve::Straight { z1, z2 } => z1 * (64 - k) + z2 * k < 64 * level,
            Curve::Smooth { controls } => {
                let weights = weights(stop);
                let sum: i64 = (0..6).map(|i| weights[i] * controls[i]).sum();
                sum < Z_UNIT * (1 << 30) * level
            }
        }
    }
}

/// 'the six control heights are Z1, Z1+4D1, Z1+8D1+E1, Z2-8D2+E2, Z2-4D2, Z2.'
fn controls(low: End, high: End) -> [i64; 6] {
    let (dx, dy) = (high.x - low.x, high.y - low.y);
    let (z1, d1, e1) = (Z_UNIT * low.z, first(low, dx, dy), second(low, dx, dy));
    let (z2, d2, e2) = (Z_UNIT * high.z, first(high, dx, dy), second(high, dx, dy));
    [
        z1,
        z1 + 4 * d1,
        z1 + 8 * d1 + e1,
        z2 - 8 * d2 + e2,
        z2 - 4 * d2,
        z2,
    ]
}

/// 'at each end D = p·dx + q·dy' ... 'divided by 256 with the rounding above, then D cut to ±33,554,432'
fn first(end: End, dx: i64, dy: i64) -> i64 {
    let [p, q, _, _, _] = end.slopes;
    let d = p * dx + q * dy;
    cut(rounded(i128::from(d), 256), D_BOUND) as i64
}

/// 'E = r·dx² + 2·s·dx·dy + t·dy², divided by 256 with the rounding above, then' ... 'E to ±134,217,728'
fn second(end: End, dx: i64, dy: i64) -> i64 {
    let [_, _, r, s, t] = end.slopes;
    let e = r * dx * dx + 2 * s * dx * dy + t * dy * dy;
    cut(rounded(i128::from(e), 256), E_BOUND) as i64
}

/// 'The weights at k are C(5,i)·k^i·(64-k)^(5-i) for i = 0 to 5.'
pub fn weights(stop: u32) -> [i64; 6] {
    let k = i64::from(stop);
    let mut row = [0; 6];
    for (i, weight) in row.iter_mut().enumerate() {
        let i = i as u32;
        *weight = choose(5, i64::from(i)) * k.pow(i) * (64 - k).pow(5 - i);
    }
    row
}

/// C(n,i), by the product n/1 · (n-1)/2 · ... of i factors, each quotient of which is whole.
fn choose(n: i64, i: i64) -> i64 {
    (0..i).fold(1, |product, j| product * (n - j) / (j + 1))
}
