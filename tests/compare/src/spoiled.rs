//! Families of surveys that some job refuses, alone or with several faults that compete.

use crate::random::Random;
use crate::run::Maker;
use crate::surveys::{
    count, measured, on_line, scattered, sound, uniform_of, Survey, MOST_COORDINATE, MOST_STATIONS,
};

pub const SPOILED: &[Maker<Survey>] = &[
    ("lists of different lengths", lengths),
    ("too few or too many", counts),
    ("out of range", ranges),
    ("two at one place", places),
    ("all on one line", line),
    ("level or style out of range", asked),
    ("several faults", several),
];

/// Numbers that no coordinate has; some fall within the range when they are cut to 16 bits or 13.
pub const WRONG_COORDINATES: [u32; 6] = [8192, 65536, 70000, 1 << 31, u32::MAX - 1, u32::MAX];

/// Numbers that no height and no level has.
pub const WRONG_HEIGHTS: [i32; 6] = [-32768, 32768, 65536, -70000, i32::MIN, i32::MAX];

/// Numbers that no style has.
pub const WRONG_STYLES: [u32; 5] = [2, 3, 256, 1 << 16, u32::MAX];

/// Numbers that no kind of mesh has; some are one when they are cut to 8 bits or 16.
pub const WRONG_KINDS: [u32; 7] = [2, 3, 256, 257, 1 << 16, (1 << 16) + 1, u32::MAX];

fn any(random: &mut Random) -> Survey {
    let n = count(random);
    let places = scattered(random, n);
    sound(random, places)
}

fn lengths(random: &mut Random) -> Survey {
    let mut survey = any(random);
    spoil_lengths(random, &mut survey);
    survey.number = Some(1);
    survey
}

fn counts(random: &mut Random) -> Survey {
    let n = random.pick(&[0, 1, 2, MOST_STATIONS + 1, MOST_STATIONS + 2, 2000]);
    let mut survey = uniform_of(random, MOST_STATIONS);
    for places in [&mut survey.x, &mut survey.y] {
        places.resize(n, 7);
    }
    survey.z.resize(n, 7);
    survey.number = Some(1);
    survey
}

fn ranges(random: &mut Random) -> Survey {
    let mut survey = any(random);
    spoil_ranges(random, &mut survey);
    survey.number = Some(2);
    survey
}

fn places(random: &mut Random) -> Survey {
    let mut survey = any(random);
    spoil_places(random, &mut survey);
    survey.number = Some(3);
    survey
}

fn line(random: &mut Random) -> Survey {
    let n = count(random);
    let places = on_line(random, n);
    measured(random, &places, Some(4))
}

fn asked(random: &mut Random) -> Survey {
    let mut survey = any(random);
    if random.once_in(2) {
        survey.level = random.pick(&WRONG_HEIGHTS);
    } else {
        survey.style = random.pick(&WRONG_STYLES);
    }
    survey
}

/// Two to four faults of any kind: which of them is answered is the order of the refusals.
fn several(random: &mut Random) -> Survey {
    const SPOILS: [fn(&mut Random, &mut Survey); 4] =
        [spoil_lengths, spoil_ranges, spoil_places, spoil_line];
    let mut survey = any(random);
    for _ in 0..random.within(2, 4) {
        random.pick(&SPOILS)(random, &mut survey);
    }
    survey.number = None;
    survey
}

/// Lengthens or shortens one list, or two of them.
pub fn spoil_lengths(random: &mut Random, survey: &mut Survey) {
    let length = survey.z.len() + 1 + random.below(3);
    match random.below(6) {
        0 => survey.x.resize(length, 3),
        1 => survey.y.resize(length, 3),
        2 => survey.z.resize(length, 3),
        3 => survey.x.truncate(random.below(3)),
        4 => survey.y.clear(),
        _ => {
            survey.x.pop();
            survey.z.pop();
        }
    }
}

/// Puts one to three wrong numbers anywhere.
pub fn spoil_ranges(random: &mut Random, survey: &mut Survey) {
    for _ in 0..random.within(1, 3) {
        match random.below(3) {
            0 => put(random, &mut survey.x, &WRONG_COORDINATES),
            1 => put(random, &mut survey.y, &WRONG_COORDINATES),
            _ => put(random, &mut survey.z, &WRONG_HEIGHTS),
        }
    }
}

fn put<T: Copy>(random: &mut Random, list: &mut [T], numbers: &[T]) {
    if !list.is_empty() {
        list[random.below(list.len())] = random.pick(numbers);
    }
}

/// Moves one to three stations to the place of another; the first and the last are often among them.
pub fn spoil_places(random: &mut Random, survey: &mut Survey) {
    let n = survey.x.len().min(survey.y.len());
    for _ in 0..random.within(1, 3) {
        if n < 2 {
            return;
        }
        let (other, another) = (random.below(n), random.below(n));
        let from = random.pick(&[0, n - 2, other]);
        let to = random.pick(&[n - 1, another]);
        let to = if to == from { (from + 1) % n } else { to };
        survey.x[to] = survey.x[from];
        survey.y[to] = survey.y[from];
    }
}

/// Moves every station to one line.
fn spoil_line(random: &mut Random, survey: &mut Survey) {
    let upright = random.once_in(2);
    let list = if upright {
        &mut survey.x
    } else {
        &mut survey.y
    };
    list.fill(random.natural(0, MOST_COORDINATE));
}
