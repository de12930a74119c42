//! Faults that meet in one reading: two lines that are wrong or whose tag is used, in either order, a text at its limit or over it, and
//! rooms that are too short.

use crate::damage::spoil_line;
use crate::faults::{pair_below, Rooms};
use crate::random::Random;
use crate::run::Kind;
use crate::texts::{ended, parts_of_text, rendered, Sheet, MOST_BYTES};
use second::{Read, Refused};
use std::fmt;
use Lines::*;

/// Which lines of a text are not as they should be.
#[derive(Clone, Copy, Debug)]
enum Lines {
    Right,
    Wrong,
    Used,
    WrongThenUsed,
    UsedThenWrong,
    WrongTwice,
    UsedTwice,
}

/// How long the text is.
#[derive(Clone, Copy, Debug)]
enum Length {
    Own,
    /// Ended within a line.
    CutOff,
    /// Filled up behind its last line to the most bytes.
    Most,
    /// Filled up to more.
    OverMost,
}

/// A kind of reading: its lines, its length, and whether the rooms are too short.
#[derive(Clone, Copy, Debug)]
pub struct Faults {
    lines: Lines,
    length: Length,
    short: bool,
}

/// Every kind of reading.
pub fn kinds() -> Vec<Kind<Faults>> {
    let mut kinds = Vec::new();
    for lines in [
        Right,
        Wrong,
        Used,
        WrongThenUsed,
        UsedThenWrong,
        WrongTwice,
        UsedTwice,
    ] {
        for length in [Length::Own, Length::CutOff, Length::Most, Length::OverMost] {
            for short in [false, true] {
                let faults = Faults {
                    lines,
                    length,
                    short,
                };
                kinds.push((format!("{faults:?}"), faults));
            }
        }
    }
    kinds
}

/// What a reader is called with, and what it must answer.
#[derive(Clone, PartialEq)]
pub struct Reading {
    pub bytes: Vec<u8>,
    pub rooms: Rooms,
    /// What the text says as it was made: the rooms are measured by it.
    pub made: Read,
    pub expected: Result<Read, Refused>,
}

impl fmt::Debug for Reading {
    fn fmt(&self, to: &mut fmt::Formatter) -> fmt::Result {
        let Reading {
            bytes,
            rooms,
            expected,
            ..
        } = self;
        write!(to, "{rooms:?}, {expected:?}, \"{}\"", bytes.escape_ascii())
    }
}

/// A reading of one kind. 'longer is 7 with line 0. Otherwise the first line not as expected counts (from 1), a missing line or
/// a leftover included; 8 competes by its line number. Room (6) is tested last.'
pub fn reading(faults: &Faults, random: &mut Random) -> Reading {
    let (survey, tags, levels) = parts_of_text(random);
    let made = Read {
        style: survey.style,
        stations: tags.len(),
        levels: levels.len(),
    };
    let mut sheet = rendered(&survey, &tags, &levels);
    let first = put_faults(random, faults.lines, &mut sheet, tags.len());
    let (bytes, ends) = lengthened(random, faults.length, &sheet);
    let seven = |line: usize| Refused {
        number: 7,
        at: line as u32,
    };
    let expected = match (ends, first) {
        (Ends::TooLate, _) => Err(seven(0)),
        (Ends::At(end), Some(fault)) if (fault.at as usize) < end => Err(fault),
        (Ends::At(end), _) => Err(seven(end)),
        (Ends::Well, Some(fault)) => Err(fault),
        (Ends::Well, None) if faults.short => Err(Refused { number: 6, at: 0 }),
        (Ends::Well, None) => Ok(made),
    };
    Reading {
        bytes,
        rooms: Rooms::chosen(random, faults.short),
        made,
        expected,
    }
}

/// Puts the faults into the lines and answers the first of them.
fn put_faults(random: &mut Random, lines: Lines, sheet: &mut Sheet, n: usize) -> Option<Refused> {
    let fault = |number: u32, line: usize| {
        Some(Refused {
            number,
            at: line as u32 + 1,
        })
    };
    let tag_line = |station: usize| 3 + 4 * station;
    let (earlier, later) = pair_below(random, n);
    let used = tag_line(later);
    let before = random.pick(&[(0, tag_line(earlier)), (tag_line(earlier) + 1, used)]);
    let use_again = |sheet: &mut Sheet| sheet[used] = sheet[tag_line(earlier)].clone();
    let mut spoil = |sheet: &mut Sheet, from: usize, to: usize| {
        let line = random.within(from as i64, to as i64 - 1) as usize;
        spoil_line(random, &mut sheet[line]);
        line
    };
    let end = sheet.len();
    match lines {
        Right => None,
        Wrong => fault(7, spoil(sheet, 0, end)),
        Used => {
            use_again(sheet);
            fault(8, used)
        }
        WrongThenUsed => {
            use_again(sheet);
            fault(7, spoil(sheet, before.0, before.1))
        }
        UsedThenWrong => {
            use_again(sheet);
            spoil(sheet, used + 1, end);
            fault(8, used)
        }
        WrongTwice => {
            let middle = tag_line(later);
            spoil(sheet, middle, end);
            fault(7, spoil(sheet, 0, middle))
        }
        UsedTwice => {
            use_again(sheet);
            if later + 1 < n {
                sheet[tag_line(n - 1)] = sheet[used].clone();
            }
            fault(8, used)
        }
    }
}

/// Where a text that is of another length than its lines goes wrong for that reason.
enum Ends {
    Well,
    /// At a line that is missing, not ended or left over, counted from 1.
    At(usize),
    TooLate,
}

fn lengthened(random: &mut Random, length: Length, sheet: &Sheet) -> (Vec<u8>, Ends) {
    let mut bytes = ended(sheet);
    let filling = random.pick(b"\nA0=");
    match length {
        Length::Own => (bytes, Ends::Well),
        Length::CutOff => {
            let line = random.below(sheet.len());
            let line = random.pick(&[line, sheet.len() - 1]);
            let kept = ended(&sheet[..line].to_vec()).len();
            bytes.truncate(kept + random.below(sheet[line].len() + 1));
            (bytes, Ends::At(line + 1))
        }
        Length::Most => {
            bytes.resize(MOST_BYTES, filling);
            (bytes, Ends::At(sheet.len() + 1))
        }
        Length::OverMost => {
            bytes.resize(MOST_BYTES + random.pick(&[1, 1, 2, 5000]), filling);
            (bytes, Ends::TooLate)
        }
    }
}
