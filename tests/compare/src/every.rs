//! Straight sides between all heights of short ranges and at the ends of the whole one, each with every level from below both its stations
//! to above them, or with every level at or beside a stop.

use crate::agree::holds;
use crate::parts::bracket;
use crate::run::{compared, Difference, Outcome, Part};
use crate::sides::{End, Side, MOST_HEIGHT, MOST_PLACE};
use std::ops::RangeInclusive;

/// The heights of the lower-numbered station and of the higher.
type Heights = (i32, i32);

const LOWEST: RangeInclusive<i32> = -MOST_HEIGHT..=64 - MOST_HEIGHT;
const MIDDLE: RangeInclusive<i32> = -32..=32;
const HIGHEST: RangeInclusive<i32> = MOST_HEIGHT - 64..=MOST_HEIGHT;

/// For sides from end to end of the range with every level of it: four heights at either end.
const FIRST: RangeInclusive<i32> = -MOST_HEIGHT..=3 - MOST_HEIGHT;
const LAST: RangeInclusive<i32> = MOST_HEIGHT - 3..=MOST_HEIGHT;

/// Sides, and the levels of each.
type Sides = (fn() -> Vec<Heights>, fn(Heights) -> Vec<i32>);

const SIDES: [(&str, Sides); 8] = [
    ("lowest heights", (|| pairs(LOWEST, LOWEST), all)),
    ("around 0", (|| pairs(MIDDLE, MIDDLE), all)),
    ("highest heights", (|| pairs(HIGHEST, HIGHEST), all)),
    ("up the whole range", (|| pairs(FIRST, LAST), all)),
    ("down the whole range", (|| pairs(LAST, FIRST), all)),
    ("up, at the stops", (|| pairs(LOWEST, HIGHEST), at_stops)),
    ("down, at the stops", (|| pairs(HIGHEST, LOWEST), at_stops)),
    ("whole heights at the stops", (multiples, at_stops)),
];

pub fn brackets(between: String) -> Part {
    Part::once("every-bracket", between, &SIDES, tried)
}

fn pairs(low: RangeInclusive<i32>, high: RangeInclusive<i32>) -> Vec<Heights> {
    low.flat_map(|z1| high.clone().map(move |z2| (z1, z2)))
        .collect()
}

/// From either end of the range by every multiple of 64, so that the height at each stop is whole.
fn multiples() -> Vec<Heights> {
    let from_ends = |apart| {
        [
            (-MOST_HEIGHT, apart - MOST_HEIGHT),
            (MOST_HEIGHT, MOST_HEIGHT - apart),
        ]
    };
    let widths = (1..=2 * MOST_HEIGHT / 64).map(|n| 64 * n);
    widths.flat_map(from_ends).collect()
}

fn all((z1, z2): Heights) -> Vec<i32> {
    (z1.min(z2) - 1..=z1.max(z2) + 1).collect()
}

/// The whole height at each stop, or the one below it, and one on either side: elsewhere the bracket does not change.
fn at_stops((z1, z2): Heights) -> Vec<i32> {
    let whole = |k: i32| (z1 * (64 - k) + z2 * k).div_euclid(64);
    (0..=64).flat_map(|k| whole(k) - 1..=whole(k) + 1).collect()
}

/// Compares the bracket of each side with each of its levels, of which some have to pass between the stations and some not.
fn tried((sides, levels): Sides) -> Outcome {
    let mut passed = [false; 2];
    for (z1, z2) in sides() {
        for level in levels((z1, z2)) {
            compared(&straight(z1, z2, level), bracket)?;
            passed[usize::from((z1 < level) != (z2 < level))] = true;
        }
    }
    holds(passed == [true; 2], "no level passes, or each does").map_err(|said| Difference {
        input: "all sides of the family".to_string(),
        said,
    })
}

/// A side from corner to corner of the ground, so that each bracket has a spot of its own.
fn straight(z1: i32, z2: i32, level: i32) -> Side {
    let end = |x, y, z| End {
        x,
        y,
        z,
        slopes: [0; 5],
    };
    Side {
        low: end(0, MOST_PLACE, z1),
        high: end(MOST_PLACE, 0, z2),
        level,
        style: 0,
    }
}
