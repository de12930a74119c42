//! Faults that meet in one writing: every subset of those that the writer can be handed at once.

use crate::damage::NO_TAG_BYTES;
use crate::faults::{pair_below, put_beyond_any, put_lengths, Wrong, COUNTS};
use crate::filed::{filled, put_tag, spoil_levels, spoil_style, spoil_tag_list, Filed};
use crate::random::Random;
use crate::surveys::Survey;
use crate::texts::{ended, parts_of_text, rendered};
use second::Refused;
use Fault::*;

/// The faults of the writer in the order of its tests: 1, 2, 7, 8, 5, 6.
#[derive(Clone, Copy, Debug, PartialEq)]
pub enum Fault {
    Count,
    Range,
    TagForm,
    TagUsed,
    Asked,
    Room,
}

pub const WRITER: &[Fault] = &[Count, Range, TagForm, TagUsed, Asked, Room];

/// What the writer is called with, and what it must answer: the bytes written, or the refusal.
#[derive(Clone, Debug, PartialEq)]
pub struct Writing {
    pub filed: Filed,
    pub room: usize,
    pub expected: Result<Vec<u8>, Refused>,
}

/// A writing with these faults. 'The writer tests 1 (the tag list's length too), 2, 7, 8, 5, 6'.
pub fn writing(faults: &Vec<Fault>, random: &mut Random) -> Writing {
    let has = |fault: Fault| faults.contains(&fault);
    let (survey, tags, levels) = parts_of_text(random);
    let text = ended(&rendered(&survey, &tags, &levels));
    let mut filed = Filed {
        survey,
        tags: tags.iter().flat_map(|tag| filled(tag)).collect(),
        levels,
        number: None,
    };
    let count = has(Count).then(|| random.pick(&COUNTS));
    if let Some(count @ (Wrong::Few | Wrong::Many)) = count {
        let n = count.stations(random);
        put_count(&mut filed, n);
    }
    let n = filed.survey.x.len();
    let beyond = has(Range)
        .then(|| put_beyond_any(random, &mut filed.survey))
        .flatten();
    let pair = (has(TagUsed) && n >= 2).then(|| put_used(random, &mut filed.tags, n));
    let misshapen = (has(TagForm) && n >= 1).then(|| put_form(random, &mut filed.tags, n, pair));
    if let Some(Wrong::Lengths) = count {
        match random.below(3) {
            0 => spoil_tag_list(random, &mut filed),
            _ => put_lengths(random, &mut filed.survey),
        }
    }
    if has(Asked) {
        let spoil = random.pick(&[spoil_style, spoil_levels, spoil_levels]);
        spoil(random, &mut filed);
    }
    let room = if has(Room) {
        random.pick(&[0, 1, text.len() / 2, text.len() - 1])
    } else {
        text.len() + random.pick(&[0, 0, 1, 9])
    };
    let refused = |number: u32, at: usize| Refused {
        number,
        at: at as u32,
    };
    let expected = match faults.first() {
        None => Ok(text),
        Some(Count) => Err(refused(1, 0)),
        Some(Range) => Err(refused(2, beyond.unwrap_or(0))),
        Some(TagForm) => Err(refused(7, misshapen.unwrap_or(0))),
        Some(TagUsed) => Err(refused(8, pair.map_or(0, |(_, later)| later))),
        Some(Asked) => Err(refused(5, 0)),
        Some(Room) => Err(refused(6, 0)),
    };
    Writing {
        filed,
        room,
        expected,
    }
}

/// So many stations with different tags.
fn put_count(filed: &mut Filed, n: usize) {
    let Survey { x, y, z, .. } = &mut filed.survey;
    x.resize(n, 7);
    y.resize(n, 9);
    z.resize(n, 1);
    filed.tags = (0..n)
        .flat_map(|station| filled(format!("{station}").as_bytes()))
        .collect();
}

/// 8, and its station 'of the second use', the second of the pair: the tags before it differ, and one after it is often used too.
fn put_used(random: &mut Random, tags: &mut [u8], n: usize) -> (usize, usize) {
    let (earlier, later) = pair_below(random, n);
    let tag = tags[8 * earlier..8 * earlier + 8].try_into();
    let tag = tag.expect("a tag has 8 bytes");
    put_tag(tags, later, tag);
    if later + 1 < n && random.once_in(2) {
        put_tag(tags, n - 1, tag);
    }
    (earlier, later)
}

/// 7, and the lowest station whose tag is not of the form. A pair that is used twice is left as it is, where others are.
fn put_form(random: &mut Random, tags: &mut [u8], n: usize, pair: Option<(usize, usize)>) -> usize {
    let is_free = |&station: &usize| {
        pair.is_none_or(|(earlier, later)| station != earlier && station != later)
    };
    let free: Vec<usize> = (0..n).filter(is_free).collect();
    let stations = if free.is_empty() { vec![0] } else { free };
    let mut lowest = n;
    for _ in 0..random.within(1, 3) {
        let station = random.pick(&stations);
        put_tag(tags, station, wrong_tag(random));
        lowest = lowest.min(station);
    }
    lowest
}

/// A tag that is none: empty, with a zero before its end, or with a byte that no tag has.
fn wrong_tag(random: &mut Random) -> [u8; 8] {
    let length = random.within(1, 8) as usize;
    let mut tag = filled(&b"Ab-9zZ0a"[..length]);
    match random.below(6) {
        0 => tag = [0; 8],
        1 if length > 1 => tag[random.below(length - 1)] = 0,
        1 => tag[7] = b'A',
        _ => tag[random.below(length)] = random.pick(NO_TAG_BYTES),
    }
    tag
}
