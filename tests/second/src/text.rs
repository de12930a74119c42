//! Survey text: its reader and its writer.

use crate::refusal::{
    levels_in_range, refuse, room, style_in_range, tag_room, Refused, LEAST_LEVELS, LEAST_STATIONS,
    MOST_BYTES, MOST_COORDINATE, MOST_HEIGHT, MOST_LEVELS, MOST_STATIONS, MOST_TAG, SMOOTH,
    STRAIGHT,
};
use crate::survey::{check_count, check_ranges};
use std::collections::HashSet;

/// What the reader answers beside the rooms that it fills.
#[derive(Clone, Copy, Debug, PartialEq, Eq)]
pub struct Read {
    pub style: u32,
    pub stations: usize,
    pub levels: usize,
}

/// A tag of 8 bytes, 'the unused end of each zero'.
type Tag = [u8; MOST_TAG];

/// A survey as its text holds it.
struct Held {
    style: u32,
    tags: Vec<Tag>,
    x: Vec<u32>,
    y: Vec<u32>,
    z: Vec<i32>,
    levels: Vec<i32>,
}

/// The reader. 'Room (6) is tested last.' The text is held whole before any room is filled. 'The reader
/// needs n each for x, y, z, 8n bytes of tags (the unused end of each zero) and one entry per level'.
pub fn read(
    text: &[u8],
    x: &mut [u32],
    y: &mut [u32],
    z: &mut [i32],
    tags: &mut [u8],
    levels: &mut [i32],
) -> Result<Read, Refused> {
    let held = held_in(text)?;
    let n = held.x.len();
    room(x.len(), n)?;
    room(y.len(), n)?;
    room(z.len(), n)?;
    room(tags.len(), tag_room(n))?;
    room(levels.len(), held.levels.len())?;
    x[..n].copy_from_slice(&held.x);
    y[..n].copy_from_slice(&held.y);
    z[..n].copy_from_slice(&held.z);
    tags[..tag_room(n)].copy_from_slice(&held.tags.concat());
    levels[..held.levels.len()].copy_from_slice(&held.levels);
    Ok(Read {
        style: held.style,
        stations: n,
        levels: held.levels.len(),
    })
}

/// The survey in a text. 'Text is at most 65,535 bytes; longer is 7 with line 0. Otherwise the first line
/// not as expected counts (from 1), a missing line or a leftover included; 8 competes by its line number.'
/// So the lines are taken in order, and the first fault of either kind is the answer. 'in this order:
/// survey=1, style, points, then tag, x, y, z for each station, then levels (1 to 64) and one level line
/// each, strictly rising.'
fn held_in(text: &[u8]) -> Result<Held, Refused> {
    if text.len() > MOST_BYTES {
        return refuse(7, 0);
    }
    let mut reader = LineReader {
        rest: text,
        line: 0,
    };
    reader.value("survey", |value| (value == b"1").then_some(()))?;
    let mut held = Held {
        style: reader.value("style", style_of)?,
        tags: Vec::new(),
        x: Vec::new(),
        y: Vec::new(),
        z: Vec::new(),
        levels: Vec::new(),
    };
    let points = reader.value("points", |value| {
        number_within(value, LEAST_STATIONS as i32, MOST_STATIONS as i32)
    })?;
    let mut used = HashSet::new();
    for _ in 0..points {
        let tag = reader.value("tag", tag_of)?;
        if !used.insert(tag) {
            return refuse(8, reader.line);
        }
        held.tags.push(tag);
        held.x.push(reader.value("x", coordinate_of)?);
        held.y.push(reader.value("y", coordinate_of)?);
        held.z.push(reader.value("z", height_of)?);
    }
    let levels = reader.value("levels", |value| {
        number_within(value, LEAST_LEVELS as i32, MOST_LEVELS as i32)
    })?;
    for _ in 0..levels {
        let last = held.levels.last().copied();
        let level = reader.value("level", |value| {
            height_of(value).filter(|&level| last.is_none_or(|last| last < level))
        })?;
        held.levels.push(level);
    }
    reader.end()?;
    Ok(held)
}

/// The lines of a text that are still to come, and the number of the last line taken, counted from 1.
struct LineReader<'a> {
    rest: &'a [u8],
    line: usize,
}

impl LineReader<'_> {
    /// Takes the next line and answers what its value means. 'Lines of key=value end in LF': a line that
    /// isn't there, has no LF, has another key or a value without the meaning asked for is 7.
    fn value<T>(&mut self, key: &str, meaning: impl Fn(&[u8]) -> Option<T>) -> Result<T, Refused> {
        self.line += 1;
        let Some(length) = self.rest.iter().position(|&byte| byte == b'\n') else {
            return refuse(7, self.line);
        };
        let line = &self.rest[..length];
        self.rest = &self.rest[length + 1..];
        let value = line
            .strip_prefix(key.as_bytes())
            .and_then(|after| after.strip_prefix(b"="));
        match value.and_then(meaning) {
            Some(meant) => Ok(meant),
            None => refuse(7, self.line),
        }
    }

    /// 'a leftover included': any byte after the last line expected begins a leftover line.
    fn end(&self) -> Result<(), Refused> {
        if !self.rest.is_empty() {
            return refuse(7, self.line + 1);
        }
        Ok(())
    }
}

/// 'Style is 0 straight, 1 smooth.'
fn style_of(value: &[u8]) -> Option<u32> {
    match value {
        b"straight" => Some(STRAIGHT),
        b"smooth" => Some(SMOOTH),
        _ => None,
    }
}

/// The word of a style, as texts have it.
pub fn style_word(style: u32) -> &'static str {
    if style == STRAIGHT {
        "straight"
    } else {
        "smooth"
    }
}

/// 'A tag is 1 to 8 ASCII letters, digits or hyphens'
fn tag_of(value: &[u8]) -> Option<Tag> {
    let right = (1..=MOST_TAG).contains(&value.len()) && value.iter().all(|&byte| tag_byte(byte));
    if !right {
        return None;
    }
    let mut tag = [0; MOST_TAG];
    tag[..value.len()].copy_from_slice(value);
    Some(tag)
}

fn tag_byte(byte: u8) -> bool {
    byte.is_ascii_alphanumeric() || byte == b'-'
}

/// 'x and y from 0 to 8,191'
fn coordinate_of(value: &[u8]) -> Option<u32> {
    number_within(value, 0, MOST_COORDINATE as i32).map(|number| number as u32)
}

/// 'a height z from -32,767 to 32,767'
fn height_of(value: &[u8]) -> Option<i32> {
    number_within(value, -MOST_HEIGHT, MOST_HEIGHT)
}

/// A number of the stated form in a range. 'The reader tests ranges (7) but not 3 or 4.'
fn number_within(value: &[u8], least: i32, most: i32) -> Option<i32> {
    number_of(value).filter(|number| (least..=most).contains(number))
}

/// 'Numbers are plain decimal with no leading zeros, no plus and no -0.'
/// No range reaches past five digits, so a longer number is out of every range.
fn number_of(value: &[u8]) -> Option<i32> {
    let (negative, digits) = match value.strip_prefix(b"-") {
        Some(digits) => (true, digits),
        None => (false, value),
    };
    let decimal = (1..=5).contains(&digits.len()) && digits.iter().all(u8::is_ascii_digit);
    let leading_zero = digits.len() > 1 && digits[0] == b'0';
    let minus_zero = negative && digits == b"0";
    if !decimal || leading_zero || minus_zero {
        return None;
    }
    let size = digits
        .iter()
        .fold(0, |number, digit| 10 * number + i32::from(digit - b'0'));
    Some(if negative { -size } else { size })
}

/// The writer: 'The writer tests 1 (the tag list's length too), 2, 7, 8, 5, 6; tags stand in number order.'
/// The tag list holds 8 bytes for each station. Answers how many bytes the text has; it needs 'the text's
/// bytes' of room.
pub fn write(
    style: u32,
    tags: &[u8],
    x: &[u32],
    y: &[u32],
    z: &[i32],
    levels: &[i32],
    text: &mut [u8],
) -> Result<usize, Refused> {
    check_count(x, y, z)?;
    if tags.len() != tag_room(x.len()) {
        return refuse(1, 0);
    }
    check_ranges(x, y, z)?;
    let tags: Vec<&[u8]> = tags.chunks(MOST_TAG).collect();
    check_tag_forms(&tags)?;
    check_tag_uses(&tags)?;
    if !style_in_range(style) || !levels_in_range(levels) {
        return refuse(5, 0);
    }
    let written = written(style, &tags, x, y, z, levels);
    room(text.len(), written.len())?;
    text[..written.len()].copy_from_slice(&written);
    Ok(written.len())
}

/// 7: 'text or tag not of the stated form'; carries, in the writer, the lowest station with such a tag. A
/// tag is right if what stands before its zeros is a tag and only zeros follow.
fn check_tag_forms(tags: &[&[u8]]) -> Result<(), Refused> {
    for (station, tag) in tags.iter().enumerate() {
        let used = used_part(tag);
        let zeros = tag[used.len()..].iter().all(|&byte| byte == 0);
        if tag_of(used).is_none() || !zeros {
            return refuse(7, station);
        }
    }
    Ok(())
}

/// The part of a tag before its first zero.
fn used_part(tag: &[u8]) -> &[u8] {
    let length = tag.iter().position(|&byte| byte == 0);
    &tag[..length.unwrap_or(tag.len())]
}

/// 8: 'tag used before'; carries, in the writer, the station 'of the second use'. Tags are 'compared by its
/// bytes', so letters of another case make another tag.
fn check_tag_uses(tags: &[&[u8]]) -> Result<(), Refused> {
    let mut used = HashSet::new();
    for (station, tag) in tags.iter().enumerate() {
        if !used.insert(tag) {
            return refuse(8, station);
        }
    }
    Ok(())
}

/// The text of a survey, in the order of lines that the reader takes.
fn written(style: u32, tags: &[&[u8]], x: &[u32], y: &[u32], z: &[i32], levels: &[i32]) -> Vec<u8> {
    let mut text = Vec::new();
    put(&mut text, "survey", 1);
    put(&mut text, "style", style_word(style));
    put(&mut text, "points", x.len());
    for station in 0..x.len() {
        text.extend_from_slice(b"tag=");
        text.extend_from_slice(used_part(tags[station]));
        text.push(b'\n');
        put(&mut text, "x", x[station]);
        put(&mut text, "y", y[station]);
        put(&mut text, "z", z[station]);
    }
    put(&mut text, "levels", levels.len());
    for level in levels {
        put(&mut text, "level", level);
    }
    text
}

/// Puts one line of key=value at the end of a text; the display of a whole number is plain decimal.
pub fn put(text: &mut Vec<u8>, key: &str, value: impl std::fmt::Display) {
    text.extend_from_slice(format!("{key}={value}\n").as_bytes());
}
