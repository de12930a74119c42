//! Families of surveys with tags and levels, as the writer of survey text takes them: right ones, and ones with a fault or
//! with several that compete.

use crate::damage::TAG_BYTES;
use crate::random::Random;
use crate::run::Maker;
use crate::spoiled::{spoil_lengths, spoil_places, spoil_ranges, WRONG_HEIGHTS, WRONG_STYLES};
use crate::surveys::{Survey, MOST_HEIGHT, MOST_STATIONS};
use crate::texts::{
    any_byte, beginnings, but_for_one_byte, parts_at_ends, parts_of_near, parts_of_text, tag_with,
};

/// What the writer takes: the lists and the style of a survey, 8 bytes of tag for each station, and levels.
#[derive(Clone, Debug, PartialEq)]
pub struct Filed {
    pub survey: Survey,
    pub tags: Vec<u8>,
    pub levels: Vec<i32>,
    /// Which refusal it gives, or 0, where the way it was made decides that.
    pub number: Option<u32>,
}

pub const FILED: &[Maker<Filed>] = &[
    ("right", right),
    ("tags equal but for case", two_cases),
    ("tags equal but for one byte", |random| {
        of_parts(parts_of_near(random, but_for_one_byte))
    }),
    ("tags that begin others", |random| {
        of_parts(parts_of_near(random, beginnings))
    }),
    ("two at one place", |random| {
        spoiled(
            random,
            |random, filed| spoil_places(random, &mut filed.survey),
            0,
        )
    }),
    ("ends of the ranges", |random| {
        of_parts(parts_at_ends(random))
    }),
    ("any byte in a tag", any_byte_in_tag),
    ("lists of different lengths", |random| {
        spoiled(
            random,
            |random, filed| spoil_lengths(random, &mut filed.survey),
            1,
        )
    }),
    ("too few or too many", counts),
    ("tag list of another length", |random| {
        spoiled(random, spoil_tag_list, 1)
    }),
    ("out of range", |random| {
        spoiled(
            random,
            |random, filed| spoil_ranges(random, &mut filed.survey),
            2,
        )
    }),
    ("tag not of the form", |random| {
        spoiled(random, misshape_tag, 7)
    }),
    ("tag used before", |random| spoiled(random, repeat_tag, 8)),
    ("style out of range", |random| {
        spoiled(random, spoil_style, 5)
    }),
    ("level list wrong", |random| {
        spoiled(random, spoil_levels, 5)
    }),
    ("several faults", several),
];

/// A way to spoil what the writer takes, also what is spoiled already.
type Spoil = fn(&mut Random, &mut Filed);

fn right(random: &mut Random) -> Filed {
    of_parts(parts_of_text(random))
}

fn of_parts((survey, tags, levels): (Survey, Vec<Vec<u8>>, Vec<i32>)) -> Filed {
    Filed {
        survey,
        tags: tags.iter().flat_map(|tag| filled(tag)).collect(),
        levels,
        number: Some(0),
    }
}

/// A tag of 8 bytes, 'the unused end of each zero'.
pub fn filled(tag: &[u8]) -> [u8; 8] {
    let mut bytes = [0; 8];
    bytes[..tag.len()].copy_from_slice(tag);
    bytes
}

fn spoiled(random: &mut Random, spoil: Spoil, number: u32) -> Filed {
    let mut filed = right(random);
    spoil(random, &mut filed);
    filed.number = Some(number);
    filed
}

/// Two to four faults of any kind: which of them is answered is the order of the refusals.
fn several(random: &mut Random) -> Filed {
    const SPOILS: [Spoil; 7] = [
        |random, filed| spoil_lengths(random, &mut filed.survey),
        |random, filed| spoil_ranges(random, &mut filed.survey),
        spoil_tag_list,
        misshape_tag,
        repeat_tag,
        spoil_style,
        spoil_levels,
    ];
    let mut filed = right(random);
    for _ in 0..random.within(2, 4) {
        random.pick(&SPOILS)(random, &mut filed);
    }
    filed.number = None;
    filed
}

/// A tag with any byte in it; a zero stands before the tag's end, where it is no more right than any other.
fn any_byte_in_tag(random: &mut Random) -> Filed {
    let mut filed = right(random);
    let byte = any_byte(random);
    let (mut tag, at) = tag_with(random, byte);
    if at + 1 == tag.len() {
        tag.reverse();
    }
    let (station, _) = two_tags(random, &filed.tags);
    put_tag(&mut filed.tags, station, filled(&tag));
    filed.number = Some(if TAG_BYTES.contains(&byte) { 0 } else { 7 });
    filed
}

/// Tags are 'compared by its bytes': two that differ in case alone are two tags.
fn two_cases(random: &mut Random) -> Filed {
    let mut filed = right(random);
    let (earlier, later) = two_tags(random, &filed.tags);
    put_tag(&mut filed.tags, earlier, filled(b"Qq-77"));
    put_tag(&mut filed.tags, later, filled(b"qQ-77"));
    filed
}

/// The lists agree, but there are fewer than 3 stations or more than 1,024.
fn counts(random: &mut Random) -> Filed {
    let n = random.pick(&[0, 1, 2, MOST_STATIONS + 1, MOST_STATIONS + 2, 2000]);
    let mut filed = right(random);
    filed.survey.x.resize(n, 7);
    filed.survey.y.resize(n, 7);
    filed.survey.z.resize(n, 7);
    filed.tags = (0..n)
        .flat_map(|tag| filled(format!("{tag}").as_bytes()))
        .collect();
    filed.number = Some(1);
    filed
}

/// Two different tags of the list, the earlier first. The list has two at least, or both are the first.
fn two_tags(random: &mut Random, tags: &[u8]) -> (usize, usize) {
    let count = tags.len() / 8;
    if count < 2 {
        return (0, 0);
    }
    let one = random.below(count);
    let other = (one + 1 + random.below(count - 1)) % count;
    (one.min(other), one.max(other))
}

pub fn put_tag(tags: &mut [u8], station: usize, tag: [u8; 8]) {
    if let Some(place) = tags.get_mut(8 * station..8 * station + 8) {
        place.copy_from_slice(&tag);
    }
}

/// 'The writer tests 1 (the tag list's length too)': some bytes more or fewer, or one tag.
pub fn spoil_tag_list(random: &mut Random, filed: &mut Filed) {
    let length = filed.tags.len();
    let other = random.pick(&[
        0,
        1,
        7,
        8,
        length.saturating_sub(8),
        length.saturating_sub(1),
        length + 1,
        length + 8,
    ]);
    filed
        .tags
        .resize(if other == length { length + 1 } else { other }, b'A');
}

/// One to three tags that are none: empty, a zero within, or a byte next to those that are allowed.
fn misshape_tag(random: &mut Random, filed: &mut Filed) {
    const TAGS: [&[u8; 8]; 14] = [
        b"\0\0\0\0\0\0\0\0",
        b"\0A7\0\0\0\0\0",
        b"A\x007\0\0\0\0\0",
        b"ABCDEF\0H",
        b"ABCDEFG ",
        b"A_7\0\0\0\0\0",
        b"A7\n\0\0\0\0\0",
        b",\0\0\0\0\0\0\0",
        b"/\0\0\0\0\0\0\0",
        b":\0\0\0\0\0\0\0",
        b"ABC@\0\0\0\0",
        b"ABC[\0\0\0\0",
        b"ABC`\0\0\0\0",
        b"ABC{\xff\x80\xc1\0",
    ];
    for _ in 0..random.within(1, 3) {
        let (station, _) = two_tags(random, &filed.tags);
        put_tag(&mut filed.tags, station, *random.pick(&TAGS));
    }
}

/// One to three tags that an earlier station has.
fn repeat_tag(random: &mut Random, filed: &mut Filed) {
    for _ in 0..random.within(1, 3) {
        let (earlier, later) = two_tags(random, &filed.tags);
        if let Some(tag) = filed.tags.get(8 * earlier..8 * earlier + 8) {
            let tag = tag.try_into().expect("a tag has 8 bytes");
            put_tag(&mut filed.tags, later, tag);
        }
    }
}

pub fn spoil_style(random: &mut Random, filed: &mut Filed) {
    filed.survey.style = random.pick(&WRONG_STYLES);
}

/// 'A level list is 5 if its count, order or a level is wrong.'
pub fn spoil_levels(random: &mut Random, filed: &mut Filed) {
    let levels = &mut filed.levels;
    let place = random.below(levels.len().max(1));
    match random.below(6) {
        0 => levels.clear(),
        1 => *levels = (0..random.pick(&[65, 65, 66, 1000])).collect(),
        2 if !levels.is_empty() => levels.insert(place, levels[place]),
        3 if levels.len() > 1 => levels.reverse(),
        4 => *levels = vec![-MOST_HEIGHT - 1, 0],
        5 => *levels = vec![0, MOST_HEIGHT + 1],
        _ if !levels.is_empty() => levels[place] = random.pick(&WRONG_HEIGHTS),
        _ => (),
    }
}
