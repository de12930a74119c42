//! Families of numbers for the rules below the jobs, within their ranges and beyond them.

use crate::random::Random;
use crate::run::Maker;

/// A quotient n/d.
#[derive(Clone, Debug, PartialEq)]
pub struct Quotient {
    pub n: i64,
    pub d: u64,
}

/// A number and the bound that it is cut to.
#[derive(Clone, Debug, PartialEq)]
pub struct Cut {
    pub v: i64,
    pub bound: u64,
}

/// Three places a, b, c: their x and y in turn.
#[derive(Clone, Debug, PartialEq)]
pub struct Corners(pub [u32; 6]);

/// Within these ranges a rule answers, beyond them it does not.
pub const MOST_QUOTIENT: u64 = 1 << 60;
pub const MOST_BOUND: u64 = 1 << 62;
pub const MOST_CORNER: u32 = (1 << 30) - 1;

pub const QUOTIENTS: &[Maker<Quotient>] = &[
    ("small", |random| Quotient {
        n: random.within(-60, 60),
        d: random.natural(1, 12).into(),
    }),
    ("halves", halves),
    ("near whole numbers", near_whole),
    ("wide", |random| Quotient {
        n: sized(random, 60),
        d: sized(random, 60).unsigned_abs().max(1),
    }),
    ("ends of the range", |random| Quotient {
        n: signed_end(random, MOST_QUOTIENT),
        d: end(random, MOST_QUOTIENT),
    }),
    ("any bits", |random| Quotient {
        n: random.bits() as i64,
        d: random.bits(),
    }),
];

pub const CUTS: &[Maker<Cut>] = &[
    ("about the bound", about_bound),
    ("wide", |random| Cut {
        v: sized(random, 63),
        bound: sized(random, 62).unsigned_abs(),
    }),
    ("ends of the range", |random| Cut {
        v: signed_end(random, MOST_BOUND),
        bound: end(random, MOST_BOUND),
    }),
    ("any bits", |random| Cut {
        v: random.bits() as i64,
        bound: random.bits(),
    }),
];

pub const CORNERS: &[Maker<Corners>] = &[
    ("small", |random| corners(|| random.natural(0, 4))),
    ("places", |random| corners(|| random.natural(0, 8191))),
    ("on one line", on_one_line),
    ("wide", |random| corners(|| random.natural(0, MOST_CORNER))),
    ("ends of the range", |random| corners(|| corner_end(random))),
    ("any bits", |random| corners(|| random.bits() as u32)),
];

/// n is an odd multiple, of either sign, of half of d.
fn halves(random: &mut Random) -> Quotient {
    let half = sized(random, 28).unsigned_abs().max(1);
    let odd = 2 * sized(random, 28) + 1;
    Quotient {
        n: odd * half as i64,
        d: 2 * half,
    }
}

/// n is next to a multiple of d.
fn near_whole(random: &mut Random) -> Quotient {
    let d = sized(random, 29).unsigned_abs().max(1);
    Quotient {
        n: sized(random, 29) * d as i64 + random.within(-1, 1),
        d,
    }
}

fn about_bound(random: &mut Random) -> Cut {
    let bound = random.pick(&[0, 1, 2, 1 << 25, 1 << 27, 1 << 28, MOST_BOUND]);
    let edge = random.pick(&[bound as i64, 0, -(bound as i64)]);
    Cut {
        v: edge + random.within(-2, 2),
        bound,
    }
}

/// A number of either sign with at most so many bits, each count of bits as often as any other.
fn sized(random: &mut Random, bits: u32) -> i64 {
    let size = 1i64 << random.below(bits as usize + 1).min(62);
    random.within(-size, size)
}

/// A number at an end of a range from 0, at an end of 64 bits, or next to one.
fn end(random: &mut Random, most: u64) -> u64 {
    let edge = random.pick(&[0, 1, most, 1 << 63, u64::MAX]);
    edge.wrapping_add(random.within(-2, 2) as u64)
}

fn signed_end(random: &mut Random, most: u64) -> i64 {
    let edge = end(random, most) as i64;
    if random.once_in(2) {
        edge
    } else {
        edge.wrapping_neg()
    }
}

/// Mostly an end of the range or next to it, at times beyond.
fn corner_end(random: &mut Random) -> u32 {
    if random.once_in(10) {
        return random.pick(&[MOST_CORNER + 1, 1 << 31, u32::MAX]);
    }
    random.pick(&[0, 1, 2, MOST_CORNER - 1, MOST_CORNER])
}

fn corners(mut number: impl FnMut() -> u32) -> Corners {
    Corners(std::array::from_fn(|_| number()))
}

/// Three places on one line, or one of them a unit off it.
fn on_one_line(random: &mut Random) -> Corners {
    let (dx, dy) = (random.natural(0, 1 << 14), random.natural(0, 1 << 14));
    let mut numbers = [0; 6];
    for corner in 0..3 {
        let step = random.natural(0, 1 << 14);
        numbers[2 * corner] = step * dx;
        numbers[2 * corner + 1] = step * dy;
    }
    numbers[random.below(6)] += random.natural(0, 1);
    Corners(numbers)
}
