//! Every half near zero: D and E of a smooth side from each of its slopes, and the second slopes of four stations.

use crate::agree::holds;
use crate::jobs;
use crate::parts::{bracket, second_bracket};
use crate::run::{compared, Difference, Outcome, Part};
use crate::sides::{End, Side};
use crate::surveys::{Place, Survey};

/// The slopes of a station are p, q, r, s, t.
const SIDES: [(&str, usize); 5] = [
    ("p in D", 0),
    ("q in D", 1),
    ("r in E", 2),
    ("s in E", 3),
    ("t in E", 4),
];

pub fn sides(between: String) -> Part {
    Part::once("every-half", between, &SIDES, tried)
}

/// Smooth sides by (8,8) between heights of -1 and 1 with the level 0. D = (p + q)/32 and E = (r + 2s + t)/4, and the curve is below the
/// level at stop 32 exactly if 10·(D1 - D2) + E1 + E2 is negative: where it is 0 or -1, a unit of D or E shows in the bracket. r of the
/// other end brings it there.
fn tried(slope: usize) -> Outcome {
    let (most, tens) = if slope < 2 { (160, 10) } else { (20, 1) };
    let mut met = [false; 64];
    for number in -most..=most {
        for whole in -6..=6 {
            for e in [tens * whole, tens * whole - 1] {
                let (mut one, mut other) = ([0; 5], [0; 5]);
                one[slope] = number;
                other[2] = 4 * e;
                for (low, high) in [(one, other), (other, one)] {
                    for z in [-1, 1] {
                        let side = smooth(z, low, high);
                        compared(&side, bracket)?;
                        met[second_bracket(&side).map_or(0, |[k, _, _]| k as usize)] = true;
                    }
                }
            }
        }
    }
    holds(met[31] && met[32], "the level is always on one side").map_err(|said| Difference {
        input: "all sides of the family".to_string(),
        said,
    })
}

fn smooth(z: i32, low: [i32; 5], high: [i32; 5]) -> Side {
    let end = |at, z, slopes| End {
        x: at,
        y: at,
        z,
        slopes,
    };
    Side {
        low: end(0, z, low),
        high: end(8, -z, high),
        level: 0,
        style: 1,
    }
}

/// Four stations by two widths: the corners of a rectangle, whose s is at times a half, and of a kite, whose r and t are.
type Places = fn(u32, u32) -> [Place; 4];

const SURVEYS: [(&str, Places); 2] = [
    ("rectangles", |a, b| {
        [(0, 0), (2 * a, 0), (0, 2 * b), (2 * a, 2 * b)]
    }),
    ("kites", |a, b| [(a, 0), (0, b), (2 * a, b), (a, 2 * b)]),
];

pub fn slopes(between: String) -> Part {
    Part::once("every-half-slope", between, &SURVEYS, surveyed)
}

/// Every height from -4 to 4 beside a first station at 0. A height of 1 over a width of 128 is a second slope of about 4.
fn surveyed(places: Places) -> Outcome {
    const WIDTHS: [u32; 4] = [64, 128, 192, 256];
    for (a, b) in WIDTHS.into_iter().flat_map(|a| WIDTHS.map(|b| (a, b))) {
        for heights in 0..9 * 9 * 9 {
            let [x, y] = [0, 1].map(|axis| places(a, b).map(|(x, y)| [x, y][axis]).to_vec());
            let survey = Survey {
                x,
                y,
                z: vec![0, heights % 9 - 4, heights / 9 % 9 - 4, heights / 81 - 4],
                level: 0,
                style: 1,
                number: Some(0),
            };
            compared(&survey, jobs::slopes)?;
        }
    }
    Ok(())
}
