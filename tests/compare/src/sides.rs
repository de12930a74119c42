//! Families of sides for the curve, its brackets and its spots, within their ranges and beyond them.

use crate::random::Random;
use crate::run::Maker;

/// A station at an end of a side, with its slopes p, q, r, s, t.
#[derive(Clone, Copy, Debug, PartialEq)]
pub struct End {
    pub x: u32,
    pub y: u32,
    pub z: i32,
    pub slopes: [i32; 5],
}

/// A side from its lower-numbered station, and a level and a style.
#[derive(Clone, Debug, PartialEq)]
pub struct Side {
    pub low: End,
    pub high: End,
    pub level: i32,
    pub style: u32,
}

/// Within these ranges a side is drawn, beyond them it is not.
pub const MOST_PLACE: u32 = 8191;
pub const MOST_HEIGHT: i32 = 32767;
pub const MOST_SLOPE: i32 = 1 << 28;

pub const SIDES: &[Maker<Side>] = &[
    ("gentle", |random| {
        side(random, |random| End {
            x: random.natural(0, 20),
            y: random.natural(0, 20),
            z: random.whole(-5, 5),
            slopes: slopes(|| random.whole(-200_000, 200_000)),
        })
    }),
    ("any slopes", |random| side(random, any)),
    ("several changes", several_changes),
    ("level at a station", |random| {
        let mut side = side(random, any);
        side.level = random.pick(&[side.low.z, side.high.z]);
        side
    }),
    ("at the level halfway", at_level_halfway),
    ("a few units from the level", near_level),
    ("second slopes that cancel", cancelling),
    ("ends of the range", |random| {
        let mut side = side(random, at_the_ends);
        side.level = height_end(random);
        side
    }),
    ("a unit beyond", |random| {
        let mut side = side(random, at_the_ends);
        beyond(random, &mut side);
        side
    }),
];

/// A side between two stations of one kind, and a level at or between their heights.
fn side(random: &mut Random, station: impl Fn(&mut Random) -> End) -> Side {
    let (low, high) = (station(random), station(random));
    Side {
        low,
        high,
        level: random.whole(low.z.min(high.z), low.z.max(high.z)),
        style: random.natural(0, 1),
    }
}

fn any(random: &mut Random) -> End {
    End {
        x: random.natural(0, MOST_PLACE),
        y: random.natural(0, MOST_PLACE),
        z: random.whole(-MOST_HEIGHT, MOST_HEIGHT),
        slopes: slopes(|| {
            let most = 1 << random.below(29);
            random.whole(-most, most)
        }),
    }
}

fn at_the_ends(random: &mut Random) -> End {
    End {
        x: random.pick(&[0, 1, MOST_PLACE - 1, MOST_PLACE]),
        y: random.pick(&[0, 1, MOST_PLACE - 1, MOST_PLACE]),
        z: height_end(random),
        slopes: slopes(|| {
            random.pick(&[-MOST_SLOPE, 1 - MOST_SLOPE, 0, MOST_SLOPE - 1, MOST_SLOPE])
        }),
    }
}

fn height_end(random: &mut Random) -> i32 {
    random.pick(&[
        -MOST_HEIGHT,
        1 - MOST_HEIGHT,
        -1,
        0,
        1,
        MOST_HEIGHT - 1,
        MOST_HEIGHT,
    ])
}

fn slopes(mut slope: impl FnMut() -> i32) -> [i32; 5] {
    std::array::from_fn(|_| slope())
}

/// A smooth side between two stations of nearly one height, whose curve is on either side of the level more than once.
fn several_changes(random: &mut Random) -> Side {
    loop {
        let mut side = side(random, |random| {
            let most = 1 << random.below(29);
            End {
                z: random.whole(-3, 3),
                slopes: slopes(|| random.whole(-most, most)),
                ..any(random)
            }
        });
        side.style = 1;
        if changes(&side) > 1 {
            return side;
        }
    }
}

/// A smooth side that is at the level at stop 32, or a unit of E from it, so that a unit of D or E at either end shows. Its numbers
/// at stop 32 are 2^25 times 81,920·(z1 + z2) + 100·(D1 - D2) + 10·(E1 + E2), which is to be 163,840 times the level. dy is 16, so
/// that t stands in E as it is: the last one is chosen to fit. It does not fit where it takes a half past zero, which goes the other way
/// there, or where E is cut.
fn at_level_halfway(random: &mut Random) -> Side {
    const DY: i64 = 16;
    loop {
        let dx = random.within(1, i64::from(MOST_PLACE));
        let (mut low, mut high) = (any(random), any(random));
        (low.x, low.y, high.x, high.y) = (0, 0, dx as u32, DY as u32);
        let most = 1 << random.below(29);
        (low.slopes, high.slopes) = (
            slopes(|| random.whole(-most, most)),
            slopes(|| random.whole(-most, most)),
        );
        high.slopes[4] = 0;
        let level = random.whole(-MOST_HEIGHT, MOST_HEIGHT);
        let rising = 8192 * (2 * i64::from(level) - i64::from(low.z) - i64::from(high.z));
        let others = 10 * (d_of(&low, dx, DY) - d_of(&high, dx, DY)) + e_of(&low, dx, DY);
        let wanted = rising - others + random.pick(&[-1, 0, 0, 0, 1]);
        let t = wanted - e_of(&high, dx, DY);
        let one_below = (low.z < level) != (high.z < level);
        if !one_below || t.unsigned_abs() > MOST_SLOPE as u64 {
            continue;
        }
        high.slopes[4] = t as i32;
        if e_of(&high, dx, DY) == wanted {
            return Side {
                low,
                high,
                level,
                style: 1,
            };
        }
    }
}

/// A smooth side whose weighted sum at an early or a late stop k is the level's number or a few units from it: the sum has up to 58
/// bits, so that one taken in f64 is at times on the other side of the level. dy is 16, so that t alone is E. E1 and E2 weigh (64-k)
/// and k times `unit`, so that they reach each multiple of it; what is left over is to be small.
fn near_level(random: &mut Random) -> Side {
    const DY: i64 = 16;
    const FEW: i64 = 64;
    const HEIGHT: i64 = 5120 << 30;
    let nearest = |n: i64, unit: i64| (n + unit / 2).div_euclid(unit);
    loop {
        let dx = random.within(1, i64::from(MOST_PLACE));
        let stop = random.pick(&[1, 3, 61, 63]);
        let (mut low, mut high) = (any(random), any(random));
        (low.x, low.y, high.x, high.y) = (0, 0, dx as u32, DY as u32);
        let [w0, w1, w2, w3, w4, w5] = second::weights(stop);
        let of_z = (w0 + w1 + w2) * i64::from(low.z) + (w3 + w4 + w5) * i64::from(high.z);
        let of_d = 4 * (w1 + 2 * w2) * d_of(&low, dx, DY) - 4 * (2 * w3 + w4) * d_of(&high, dx, DY);
        let level = nearest(5120 * of_z + of_d, HEIGHT);
        let wanted = HEIGHT * level - 5120 * of_z - of_d;
        let (k, unit) = (i64::from(stop), w3 / i64::from(stop));
        let units = nearest(wanted, unit);
        let reaches = |e1: &i64| (units - (64 - k) * e1) % k == 0;
        let e1 = (units / 64..).find(reaches).expect("one of k in a row");
        let e2 = (units - (64 - k) * e1) / k;
        let few = (wanted - unit * units).abs() <= FEW;
        let crossed = (i64::from(low.z) < level) != (i64::from(high.z) < level);
        if few && crossed && e1.abs().max(e2.abs()) <= MOST_E {
            low.slopes[2..].copy_from_slice(&[0, 0, e1 as i32]);
            high.slopes[2..].copy_from_slice(&[0, 0, e2 as i32]);
            return Side {
                low,
                high,
                level: level as i32,
                style: 1,
            };
        }
    }
}

/// A smooth side over a long step, along which r, s and t of its low end nearly cancel: their products have up to 56 bits, and their sum
/// stands where its 256th changes from one whole number to the next, so that one taken in f64 is at times another E. The high end has no
/// slopes, and the low end's D is chosen to put stop 32 at the level or a unit of E below it: 10·D + E is to be 8,192 times
/// 2·level - z1 - z2.
fn cancelling(random: &mut Random) -> Side {
    loop {
        let mut step = || random.within(4000, i64::from(MOST_PLACE));
        let (dx, dy) = (step(), step());
        let mut steep = || i64::from(random.whole(-MOST_SLOPE, MOST_SLOPE));
        let (r, s) = (steep(), steep());
        let t = -(r * dx * dx + 2 * s * dx * dy) / (dy * dy);
        let sum = r * dx * dx + 2 * s * dx * dy + t * dy * dy;
        let changes = in_256ths(sum - 4) != in_256ths(sum + 4);
        if !changes || t.unsigned_abs() > MOST_SLOPE as u64 {
            continue;
        }
        let wanted = random.within(-1, 0) - in_256ths(sum);
        let Some(rising) = (0..5).find(|rising| (8192 * rising + wanted) % 10 == 0) else {
            continue;
        };
        let d = (8192 * rising + wanted) / 10;
        let Some(p) = (0..dy).find(|p| (256 * d - p * dx) % dy == 0) else {
            continue;
        };
        let q = (256 * d - p * dx) / dy;
        let level = random.whole(-1000, 1000);
        let below = random.whole(5, 1000);
        let end = |x: i64, y: i64, z: i32, slopes: [i64; 5]| End {
            x: x as u32,
            y: y as u32,
            z,
            slopes: slopes.map(|slope| slope as i32),
        };
        return Side {
            low: end(0, 0, level - below, [p, q, r, s, t]),
            high: end(dx, dy, level + below - rising as i32, [0; 5]),
            level,
            style: 1,
        };
    }
}

/// 'D cut to ±33,554,432 and E to ±134,217,728'
const MOST_D: i64 = 33_554_432;
const MOST_E: i64 = 134_217_728;

/// 'D = p·dx + q·dy', 'divided by 256 with the rounding above', then cut.
fn d_of(end: &End, dx: i64, dy: i64) -> i64 {
    let [p, q, _, _, _] = end.slopes.map(i64::from);
    in_256ths(p * dx + q * dy).clamp(-MOST_D, MOST_D)
}

/// 'E = r·dx² + 2·s·dx·dy + t·dy²', in the same way.
fn e_of(end: &End, dx: i64, dy: i64) -> i64 {
    let [_, _, r, s, t] = end.slopes.map(i64::from);
    in_256ths(r * dx * dx + 2 * s * dx * dy + t * dy * dy).clamp(-MOST_E, MOST_E)
}

/// 'rounded to the nearest whole number', 'a half must go away from zero': the size is rounded, and the sign put back.
fn in_256ths(n: i64) -> i64 {
    n.signum() * ((n.abs() + 128) / 256)
}

/// How many times the curve comes to the other side of the level.
fn changes(side: &Side) -> usize {
    let (low, high) = (side.low.second(), side.high.second());
    let below = |stop| second::below_at(low, high, side.level.into(), side.style, stop);
    (0..64).filter(|&k| below(k) != below(k + 1)).count()
}

/// One number of the side set out of its range, by a unit or to an end of its type.
fn beyond(random: &mut Random, side: &mut Side) {
    let place = random.pick(&[MOST_PLACE + 1, u32::MAX]);
    let height = random.pick(&[-MOST_HEIGHT - 1, MOST_HEIGHT + 1, i32::MIN, i32::MAX]);
    let slope = random.pick(&[-MOST_SLOPE - 1, MOST_SLOPE + 1, i32::MIN, i32::MAX]);
    let end = if random.once_in(2) {
        &mut side.low
    } else {
        &mut side.high
    };
    match random.below(9) {
        0 => end.x = place,
        1 => end.y = place,
        2 => end.z = height,
        3 => side.level = height,
        number => end.slopes[number - 4] = slope,
    }
}

impl Side {
    pub fn in_range(&self) -> bool {
        self.low.in_range() && self.high.in_range() && is_height(self.level)
    }
}

impl End {
    fn in_range(&self) -> bool {
        self.x <= MOST_PLACE
            && self.y <= MOST_PLACE
            && is_height(self.z)
            && self
                .slopes
                .iter()
                .all(|slope| (-MOST_SLOPE..=MOST_SLOPE).contains(slope))
    }

    /// The same station for the second program.
    pub fn second(&self) -> second::End {
        second::End {
            x: self.x.into(),
            y: self.y.into(),
            z: self.z.into(),
            slopes: self.slopes.map(i64::from),
        }
    }
}

fn is_height(z: i32) -> bool {
    (-MOST_HEIGHT..=MOST_HEIGHT).contains(&z)
}
