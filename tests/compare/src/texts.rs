//! Families of survey text: right ones, and ones that are damaged in one way or in several.

use crate::damage::{self, Damage, NO_TAG_BYTES, TAG_BYTES};
use crate::random::Random;
use crate::run::Maker;
use crate::spoiled::spoil_places;
use crate::surveys::{
    measured, on_line, scattered, Place, Survey, MOST_COORDINATE, MOST_HEIGHT, MOST_STATIONS, SOUND,
};
use crate::swaps::SWAPS;
use std::collections::{BTreeSet, HashSet};
use std::fmt;

/// Text handed to the reader.
#[derive(Clone, PartialEq)]
pub struct Text {
    pub bytes: Vec<u8>,
    /// Is it accepted, where the way it was made decides that?
    pub accepted: Option<bool>,
}

impl fmt::Debug for Text {
    fn fmt(&self, to: &mut fmt::Formatter) -> fmt::Result {
        write!(to, "\"{}\"", self.bytes.escape_ascii())
    }
}

/// The lines of a text, without their ends.
pub type Sheet = Vec<Vec<u8>>;

/// 'Text is at most 65,535 bytes'
pub const MOST_BYTES: usize = 65535;

pub const TEXTS: &[Maker<Text>] = &[
    ("right", |random| text(&sheet(random), Some(true))),
    ("of every family", of_every_family),
    ("tags equal but for case", tags_of_two_cases),
    ("tags equal but for one byte", |random| {
        near(random, but_for_one_byte)
    }),
    ("tags that begin others", |random| near(random, beginnings)),
    ("near tags far apart", near_far_apart),
    ("two at one place", two_at_one_place),
    ("ends of the ranges", ends_of_ranges),
    ("any byte in a tag", any_byte_in_tag),
    ("line lost", |random| refused(random, damage::lose_line)),
    ("line doubled", |random| {
        refused(random, damage::double_line)
    }),
    ("lines swapped", |random| {
        damaged(random, damage::swap_lines)
    }),
    ("digit changed", |random| {
        damaged(random, damage::change_digit)
    }),
    ("byte changed", |random| {
        damaged(random, damage::change_byte)
    }),
    ("number not of the form", |random| {
        refused(random, damage::misshape_number)
    }),
    ("number out of range", |random| {
        refused(random, damage::exceed_range)
    }),
    ("another key", |random| refused(random, damage::change_key)),
    ("tag not of the form", |random| {
        refused(random, damage::misshape_tag)
    }),
    ("tag used before", |random| {
        refused(random, damage::repeat_tag)
    }),
    ("levels not rising", |random| {
        refused(random, damage::disorder_levels)
    }),
    ("several faults", several),
    ("line ends", line_ends),
    ("length", length),
];

/// Further texts for the program that draws over the mesh of kind 1.
pub const FATTER_TEXTS: &[Maker<Text>] = &[("of many swaps", |random| of_family(random, SWAPS))];

/// A right text.
fn sheet(random: &mut Random) -> Sheet {
    let (survey, tags, levels) = parts_of_text(random);
    rendered(&survey, &tags, &levels)
}

/// What a right text says, the survey, its tags and its levels: mostly a small one, at times the largest.
pub fn parts_of_text(random: &mut Random) -> (Survey, Vec<Vec<u8>>, Vec<i32>) {
    let (n, levels) = match random.below(400) {
        0 => (MOST_STATIONS, 64),
        1..=10 => (
            random.within(9, 200) as usize,
            random.within(1, 64) as usize,
        ),
        _ => (random.within(3, 8) as usize, random.within(1, 4) as usize),
    };
    let places = if random.once_in(8) {
        on_line(random, n)
    } else {
        scattered(random, n)
    };
    let survey = measured(random, &places, None);
    let tags = tags(random, places.len());
    let levels = rising(random, levels);
    (survey, tags, levels)
}

/// What a right text says at both ends of every range: the fewest stations and the most, one level and 64, and numbers at their
/// ends or next to them.
pub fn parts_at_ends(random: &mut Random) -> (Survey, Vec<Vec<u8>>, Vec<i32>) {
    const COORDINATES: [u32; 4] = [0, 1, MOST_COORDINATE - 1, MOST_COORDINATE];
    const HEIGHTS: [i32; 5] = [
        -MOST_HEIGHT,
        1 - MOST_HEIGHT,
        0,
        MOST_HEIGHT - 1,
        MOST_HEIGHT,
    ];
    let n = if random.once_in(20) { MOST_STATIONS } else { 3 };
    let places: Vec<Place> = (0..n)
        .map(|_| (random.pick(&COORDINATES), random.pick(&COORDINATES)))
        .collect();
    let mut survey = measured(random, &places, None);
    survey.z.fill_with(|| random.pick(&HEIGHTS));
    let levels = match random.below(4) {
        0 => vec![-MOST_HEIGHT],
        1 => vec![MOST_HEIGHT],
        2 => HEIGHTS.to_vec(),
        _ => (0..64).map(|level| MOST_HEIGHT - 63 + level).collect(),
    };
    (survey, tags(random, n), levels)
}

fn ends_of_ranges(random: &mut Random) -> Text {
    let (survey, tags, levels) = parts_at_ends(random);
    text(&rendered(&survey, &tags, &levels), Some(true))
}

/// A tag with any byte in it but the end of a line.
fn any_byte_in_tag(random: &mut Random) -> Text {
    let mut sheet = sheet(random);
    let (line, _) = damage::two_tags(random, &sheet).expect("a right text has tags");
    let byte = any_byte(random);
    let (tag, _) = tag_with(random, byte);
    sheet[line] = [b"tag=", &tag[..]].concat();
    text(&sheet, Some(TAG_BYTES.contains(&byte)))
}

/// Any byte but the end of a line, often one that a tag may not have.
pub fn any_byte(random: &mut Random) -> u8 {
    if random.once_in(2) {
        return random.pick(NO_TAG_BYTES);
    }
    match random.bits() as u8 {
        b'\n' => b'.',
        byte => byte,
    }
}

/// A tag that no other station has, with this byte somewhere in it, and where that is.
pub fn tag_with(random: &mut Random, byte: u8) -> (Vec<u8>, usize) {
    let mut tag = vec![b'Q'; random.within(1, 8) as usize];
    let at = random.below(tag.len());
    tag[at] = byte;
    if tag.len() < 2 {
        tag.push(b'Q');
    }
    (tag, at)
}

fn of_every_family(random: &mut Random) -> Text {
    of_family(random, SOUND)
}

/// A survey of one of the families, which every job accepts, with its own level and those of some of its stations.
fn of_family(random: &mut Random, families: &[Maker<Survey>]) -> Text {
    let (_, make) = random.pick(families);
    let survey = make(random);
    let tags = tags(random, survey.x.len());
    let mut levels = BTreeSet::from([survey.level]);
    for _ in 0..random.below(5) {
        levels.insert(random.pick(&survey.z));
    }
    let levels: Vec<i32> = levels.into_iter().collect();
    text(&rendered(&survey, &tags, &levels), Some(true))
}

/// n different tags.
fn tags(random: &mut Random, n: usize) -> Vec<Vec<u8>> {
    filled_up(random, Vec::new(), n)
}

/// These tags, which are different, and then others up to n.
fn filled_up(random: &mut Random, mut tags: Vec<Vec<u8>>, n: usize) -> Vec<Vec<u8>> {
    let mut used: HashSet<Vec<u8>> = tags.iter().cloned().collect();
    while tags.len() < n {
        let length = random.within(1, 8);
        let tag = tag_of_length(random, length);
        if used.insert(tag.clone()) {
            tags.push(tag);
        }
    }
    tags
}

fn tag_of_length(random: &mut Random, length: i64) -> Vec<u8> {
    const LETTERS: &[u8] = b"ABCXYZabcxyz0189-";
    (0..length).map(|_| random.pick(LETTERS)).collect()
}

/// A way to make different tags, two at least, that are nearly equal.
pub type Near = fn(&mut Random) -> Vec<Vec<u8>>;

/// Tags equal but for one byte, at any of the 8 places.
pub fn but_for_one_byte(random: &mut Random) -> Vec<Vec<u8>> {
    let at = random.below(8);
    let length = random.within(at as i64 + 1, 8);
    let tag = tag_of_length(random, length);
    let with = |&byte: &u8| [&tag[..at], &[byte], &tag[at + 1..]].concat();
    TAG_BYTES.iter().map(with).collect()
}

/// Tags of 1 to 8 bytes, each the beginning of the next.
pub fn beginnings(random: &mut Random) -> Vec<Vec<u8>> {
    let tag = tag_of_length(random, 8);
    (1..=8).map(|length| tag[..length].to_vec()).collect()
}

/// What a right text says in which two or more tags are nearly equal, at any stations.
pub fn parts_of_near(random: &mut Random, near: Near) -> (Survey, Vec<Vec<u8>>, Vec<i32>) {
    let (survey, _, levels) = parts_of_text(random);
    let n = survey.x.len();
    let mut tags = near(random);
    random.shuffle(&mut tags);
    tags.truncate(random.within(2, n as i64) as usize);
    let mut tags = filled_up(random, tags, n);
    random.shuffle(&mut tags);
    (survey, tags, levels)
}

/// So many levels, strictly rising, at times from end to end of the range.
fn rising(random: &mut Random, count: usize) -> Vec<i32> {
    let most = random.pick(&[100, MOST_HEIGHT]);
    let mut levels = BTreeSet::new();
    while levels.len() < count {
        levels.insert(random.whole(-most, most));
    }
    levels.into_iter().collect()
}

pub fn rendered(survey: &Survey, tags: &[Vec<u8>], levels: &[i32]) -> Sheet {
    let style = ["straight", "smooth"][survey.style as usize];
    let mut sheet = vec![
        line("survey", 1),
        line("style", style),
        line("points", survey.x.len()),
    ];
    for (station, tag) in tags.iter().enumerate() {
        sheet.push([b"tag=", &tag[..]].concat());
        sheet.push(line("x", survey.x[station]));
        sheet.push(line("y", survey.y[station]));
        sheet.push(line("z", survey.z[station]));
    }
    sheet.push(line("levels", levels.len()));
    sheet.extend(levels.iter().map(|level| line("level", level)));
    sheet
}

fn line(key: &str, value: impl fmt::Display) -> Vec<u8> {
    format!("{key}={value}").into_bytes()
}

fn text(sheet: &Sheet, accepted: Option<bool>) -> Text {
    Text {
        bytes: ended(sheet),
        accepted,
    }
}

/// The lines, each with its end.
pub fn ended(sheet: &Sheet) -> Vec<u8> {
    sheet
        .iter()
        .flat_map(|line| [line, &b"\n"[..]].concat())
        .collect()
}

/// A damaged text that may still be right: a digit changed is often another number in range.
fn damaged(random: &mut Random, damage: Damage) -> Text {
    let mut sheet = sheet(random);
    damage(random, &mut sheet);
    text(&sheet, None)
}

/// A text damaged so that it can't be right.
fn refused(random: &mut Random, damage: Damage) -> Text {
    let mut text = damaged(random, damage);
    text.accepted = Some(false);
    text
}

/// Two to four damages: which of them is answered is the order of the lines.
fn several(random: &mut Random) -> Text {
    let mut sheet = sheet(random);
    for _ in 0..random.within(2, 4) {
        random.pick(&damage::ALL)(random, &mut sheet);
    }
    text(&sheet, None)
}

/// Tags are 'compared by its bytes': two that differ in case alone are two tags.
fn tags_of_two_cases(random: &mut Random) -> Text {
    let mut sheet = sheet(random);
    let (earlier, later) = damage::two_tags(random, &sheet).expect("a right text has tags");
    sheet[earlier] = b"tag=Qq-77".to_vec();
    sheet[later] = b"tag=qQ-77".to_vec();
    text(&sheet, Some(true))
}

/// Tags are 'compared by its bytes', all of them: those that are nearly equal are different tags.
fn near(random: &mut Random, near: Near) -> Text {
    let (survey, tags, levels) = parts_of_near(random, near);
    text(&rendered(&survey, &tags, &levels), Some(true))
}

/// Two tags nearly equal, one among the first stations and one among the last.
fn near_far_apart(random: &mut Random) -> Text {
    let n = if random.once_in(20) {
        MOST_STATIONS
    } else {
        random.within(20, 100) as usize
    };
    let places = scattered(random, n);
    let survey = measured(random, &places, None);
    let mut two = random.pick(&[but_for_one_byte as Near, beginnings])(random);
    random.shuffle(&mut two);
    two.truncate(2);
    let mut tags = filled_up(random, two, n);
    tags.swap(1, n - 1 - random.below(n / 4));
    tags.swap(0, random.below(n / 4));
    let levels = rising(random, 1);
    text(&rendered(&survey, &tags, &levels), Some(true))
}

/// 'The reader tests ranges (7) but not 3 or 4.'
fn two_at_one_place(random: &mut Random) -> Text {
    let (mut survey, tags, levels) = parts_of_text(random);
    spoil_places(random, &mut survey);
    text(&rendered(&survey, &tags, &levels), Some(true))
}

/// A right text but for how its lines end, or for what follows the last.
fn line_ends(random: &mut Random) -> Text {
    let sheet = sheet(random);
    let mut text = text(&sheet, Some(false));
    let bytes = &mut text.bytes;
    let ends: Vec<usize> = (0..bytes.len()).filter(|&at| bytes[at] == b'\n').collect();
    let end = random.pick(&ends);
    match random.below(9) {
        0 => {
            *bytes = sheet
                .iter()
                .flat_map(|line| [line, &b"\r\n"[..]].concat())
                .collect()
        }
        1 => bytes.insert(end, b'\r'),
        2 => bytes[end] = b'\r',
        3 => bytes[end] = 0,
        4 => bytes.insert(end, b'\n'),
        5 => bytes.truncate(bytes.len() - 1),
        6 => bytes.push(b'\n'),
        7 => bytes.push(0),
        _ => bytes.extend_from_slice(b"level=32767\n"),
    }
    text
}

/// No bytes, a right text cut off anywhere, or a text up to its most bytes and beyond: filled up behind the last line
/// or within the first tag.
fn length(random: &mut Random) -> Text {
    let mut text = text(&sheet(random), Some(false));
    let bytes = &mut text.bytes;
    let filled = random.pick(&[MOST_BYTES - 1, MOST_BYTES, MOST_BYTES + 1, 70_000]);
    let filling = random.pick(b"\nA0=");
    match random.below(6) {
        0 => bytes.clear(),
        1 => bytes.truncate(random.below(bytes.len())),
        2 => *bytes = vec![filling; filled],
        3 | 4 => bytes.resize(filled, filling),
        _ => {
            let tag = bytes
                .windows(4)
                .position(|four| four == b"tag=")
                .unwrap_or(0);
            let more = vec![filling; filled.saturating_sub(bytes.len())];
            bytes.splice(tag + 4..tag + 4, more);
        }
    }
    text
}
