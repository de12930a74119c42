//! Survey text and the programs: those who read and write it, and the facts that hold of what they read and write.

use crate::agree::{agreed, holds, names, proved, refuses_short_rooms, Program};
use crate::filed::Filed;
use crate::filed_faults::Writing;
use crate::lent::Lent;
use crate::run::{compared, Cases, Family, Part};
use crate::surveys::Survey;
use crate::text_faults::Reading;
use crate::texts::{Text, MOST_BYTES};
use second::{Read, Refused, FATTER, SWEPT};
use std::collections::BTreeSet;
use std::ffi::OsStr;
use std::fs;
use std::io::{ErrorKind, Write};
use std::path::Path;
use std::process::{Command, Stdio};

pub type Reader =
    fn(&[u8], &mut [u32], &mut [u32], &mut [i32], &mut [u8], &mut [i32]) -> Result<Read, Refused>;
pub type Writer =
    fn(u32, &[u8], &[u32], &[u32], &[i32], &[i32], &mut [u8]) -> Result<usize, Refused>;
/// What a program makes of survey text: contour text, or a report of served ground.
pub type Answer = fn(&[u8]) -> Result<Vec<u8>, String>;

pub const READERS: &[Program<Reader>] = &[
    ("second", second::read),
    ("thawpebble", |text, x, y, z, tags, levels| {
        let answer = thawpebble::read(text, x, y, z, tags, levels).map(|read| Read {
            style: read.style,
            stations: read.stations,
            levels: read.levels,
        });
        proved(answer)
    }),
];

pub const WRITERS: &[Program<Writer>] = &[
    ("second", second::write),
    ("thawpebble", |style, tags, x, y, z, levels, text| {
        proved(thawpebble::write(style, tags, x, y, z, levels, text))
    }),
];

/// The programs that draw over the mesh of kind 0. The built one is handed its text in one piece, and in pieces that leave it
/// short reads.
pub const PROGRAMS: &[Program<Answer>] = &[
    ("second", |text| Ok(second::program(text, SWEPT))),
    ("contour", |text| built(CONTOUR, text, text.len())),
    ("contour in pieces", |text| {
        built(CONTOUR, text, 1 + text.len() / 9)
    }),
];

/// The programs that draw over the mesh of kind 1.
pub const FATTER_PROGRAMS: &[Program<Answer>] = &[
    ("second", |text| Ok(second::program(text, FATTER))),
    ("fatter", |text| built(FATTER_MAIN, text, text.len())),
    ("fatter in pieces", |text| {
        built(FATTER_MAIN, text, 1 + text.len() / 9)
    }),
];

/// The programs that report served ground over the mesh of kind 0, and over that of kind 1.
pub const REPORTERS: &[Program<Answer>] = &[
    ("second", |text| Ok(second::report(text, SWEPT))),
    ("served", |text| built(SERVED, text, text.len())),
    ("served in pieces", |text| {
        built(SERVED, text, 1 + text.len() / 9)
    }),
];

pub const FATTER_REPORTERS: &[Program<Answer>] = &[
    ("second", |text| Ok(second::report(text, FATTER))),
    ("served-fatter", |text| {
        built(SERVED_FATTER, text, text.len())
    }),
    ("served-fatter in pieces", |text| {
        built(SERVED_FATTER, text, 1 + text.len() / 9)
    }),
];

/// The built programs.
const CONTOUR: &str = concat!(
    env!("CARGO_MANIFEST_DIR"),
    "/../../target/native/contour_main"
);
const FATTER_MAIN: &str = concat!(
    env!("CARGO_MANIFEST_DIR"),
    "/../../target/native/fatter_main"
);
const SERVED: &str = concat!(
    env!("CARGO_MANIFEST_DIR"),
    "/../../target/native/served_main"
);
const SERVED_FATTER: &str = concat!(
    env!("CARGO_MANIFEST_DIR"),
    "/../../target/native/served_fatter_main"
);

/// What a built program writes for a text handed in pieces of so many bytes. It ends with status 0 whatever it is handed, and
/// says nothing beside its text. It may end before it has taken a text that is too long.
fn built(program: &str, text: &[u8], piece: usize) -> Result<Vec<u8>, String> {
    let ran = || {
        let mut program = Command::new(program)
            .stdin(Stdio::piped())
            .stdout(Stdio::piped())
            .stderr(Stdio::piped())
            .spawn()?;
        let mut input = program.stdin.take().expect("its standard input is piped");
        let taken = text
            .chunks(piece.max(1))
            .try_for_each(|piece| input.write_all(piece));
        drop(input);
        let output = program.wait_with_output()?;
        match taken {
            Err(fault) if fault.kind() != ErrorKind::BrokenPipe => Err(fault),
            _ => Ok(output),
        }
    };
    let output = ran().map_err(|fault| format!("{program}: {fault}"))?;
    holds(output.status.success(), "the program does not end well")?;
    holds(
        output.stderr.is_empty(),
        "the program says something beside its text",
    )?;
    Ok(output.stdout)
}

/// The rooms of the largest survey and a few entries more: x, y, z, tags, levels.
const LARGEST: [usize; 5] = [1029, 1029, 1029, 8 * 1029, 69];

/// A text as a reader gives it.
#[derive(Debug, PartialEq)]
struct Held {
    answer: Result<Read, Refused>,
    x: Vec<u32>,
    y: Vec<u32>,
    z: Vec<i32>,
    tags: Vec<u8>,
    levels: Vec<i32>,
}

pub fn read(text: &Text) -> Result<(), String> {
    let held = agreed(READERS, |read| {
        let held = read_in(read, &text.bytes, LARGEST)?;
        if let Ok(read_as) = held.answer {
            let needed = reader_rooms(read_as);
            refuses_short_rooms(
                needed,
                |rooms| Ok(read_in(read, &text.bytes, rooms)?.answer),
            )?;
            holds(
                read_in(read, &text.bytes, needed)? == held,
                "not read alike into just as much room",
            )?;
        }
        Ok(held)
    })?;
    let accepted = held.answer.is_ok();
    holds(
        text.accepted.is_none_or(|made| made == accepted),
        "all answer alike, but not what the text as made gives",
    )?;
    match held.answer {
        Ok(read_as) => written_back(text, held_as(&held, read_as.style)),
        Err(refused) => refused_in_text(text, refused),
    }
}

/// A reading in which faults meet.
pub fn read_called(reading: &Reading) -> Result<(), String> {
    let rooms = reading.rooms.lengths(reader_rooms(reading.made));
    let held = agreed(READERS, |read| read_in(read, &reading.bytes, rooms))?;
    let (answer, expected) = (held.answer, reading.expected);
    holds(
        answer == expected,
        &format!("answered with {answer:?} by all, where the faults give {expected:?}"),
    )
}

/// A writing in which faults meet.
pub fn write_called(writing: &Writing) -> Result<(), String> {
    let written = agreed(WRITERS, |write| {
        write_in(write, &writing.filed, writing.room)
    })?;
    let (answer, expected) = (written.answer, &writing.expected);
    holds(
        answer == expected.as_ref().map(Vec::len).map_err(|&refused| refused),
        &format!("answered with {answer:?} by all, where the faults give {expected:?}"),
    )?;
    holds(
        expected.as_ref().is_ok_and(|text| *text == written.bytes) || answer.is_err(),
        "not the text that the lists as made have",
    )
}

/// 'The reader needs n each for x, y, z, 8n bytes of tags (the unused end of each zero) and one entry per level'.
fn reader_rooms(read: Read) -> [usize; 5] {
    let n = read.stations;
    [n, n, n, 8 * n, read.levels]
}

/// The text read into rooms of the given lengths. A refusal writes to none of them.
fn read_in(read: Reader, bytes: &[u8], lengths: [usize; 5]) -> Result<Held, String> {
    let mut x = Lent::new(lengths[0]);
    let mut y = Lent::new(lengths[1]);
    let mut z = Lent::new(lengths[2]);
    let mut tags = Lent::new(lengths[3]);
    let mut levels = Lent::new(lengths[4]);
    let answer = read(
        bytes,
        x.slice(),
        y.slice(),
        z.slice(),
        tags.slice(),
        levels.slice(),
    );
    let written = answer.map_or([0; 5], reader_rooms);
    let kept = x.is_kept_from(written[0])
        && y.is_kept_from(written[1])
        && z.is_kept_from(written[2])
        && tags.is_kept_from(written[3])
        && levels.is_kept_from(written[4]);
    holds(kept, "the rooms are not left as promised")?;
    Ok(Held {
        answer,
        x: x.first(written[0]).to_vec(),
        y: y.first(written[1]).to_vec(),
        z: z.first(written[2]).to_vec(),
        tags: tags.first(written[3]).to_vec(),
        levels: levels.first(written[4]).to_vec(),
    })
}

/// What was read, as the writer takes it.
fn held_as(held: &Held, style: u32) -> Filed {
    Filed {
        survey: Survey {
            x: held.x.clone(),
            y: held.y.clone(),
            z: held.z.clone(),
            level: 0,
            style,
            number: None,
        },
        tags: held.tags.clone(),
        levels: held.levels.clone(),
        number: Some(0),
    }
}

/// Accepted text is written back byte for byte, in just as much room.
fn written_back(text: &Text, filed: Filed) -> Result<(), String> {
    let written = agreed(WRITERS, |write| write_in(write, &filed, text.bytes.len()))?;
    holds(
        written.answer == Ok(text.bytes.len()) && written.bytes == text.bytes,
        "the text is not written back as it was",
    )
}

/// A survey's text as a writer gives it.
#[derive(Debug, PartialEq)]
struct Written {
    answer: Result<usize, Refused>,
    bytes: Vec<u8>,
}

/// The bytes of the longest text: 1,024 stations with 8-byte tags, 4-digit places and heights of 6 bytes, and 64 such levels.
const MOST_WRITTEN: usize = 37742;

pub fn write(filed: &Filed) -> Result<(), String> {
    let written = agreed(WRITERS, |write| {
        let written = write_in(write, filed, MOST_WRITTEN + 5)?;
        if let Ok(bytes) = written.answer {
            refuses_short_rooms([bytes], |[room]| Ok(write_in(write, filed, room)?.answer))?;
            holds(
                write_in(write, filed, bytes)? == written,
                "not written alike into just as much room",
            )?;
        }
        Ok(written)
    })?;
    let number = written.answer.map_or_else(|refused| refused.number, |_| 0);
    holds(
        filed.number.is_none_or(|made| made == number),
        &format!("answered with {number} by all, which the lists as made do not give"),
    )?;
    match written.answer {
        Ok(_) => read_back(filed, written.bytes),
        Err(_) => Ok(()),
    }
}

/// The text written into a room of the given length. A refusal writes nothing.
fn write_in(write: Writer, filed: &Filed, length: usize) -> Result<Written, String> {
    let Filed {
        survey,
        tags,
        levels,
        ..
    } = filed;
    let Survey { x, y, z, style, .. } = survey;
    let mut room = Lent::new(length);
    let answer = write(*style, tags, x, y, z, levels, room.slice());
    let written = answer.unwrap_or(0);
    holds(
        room.is_kept_from(written),
        "the room is not left as promised",
    )?;
    Ok(Written {
        answer,
        bytes: room.first(written).to_vec(),
    })
}

/// What is written is read back as it was.
fn read_back(filed: &Filed, bytes: Vec<u8>) -> Result<(), String> {
    let text = Text {
        bytes,
        accepted: Some(true),
    };
    let held = agreed(READERS, |read| read_in(read, &text.bytes, LARGEST))?;
    let style = held.answer.map_or(u32::MAX, |read| read.style);
    let Filed {
        survey,
        tags,
        levels,
        ..
    } = held_as(&held, style);
    let same = survey.style == filed.survey.style
        && survey.x == filed.survey.x
        && survey.y == filed.survey.y
        && survey.z == filed.survey.z
        && tags == filed.tags
        && levels == filed.levels;
    holds(same, "not read back as it was")
}

/// A text over its limit is 7 with line 0; any other fault is 7 or 8 at a line of the text or at the one after it.
fn refused_in_text(text: &Text, refused: Refused) -> Result<(), String> {
    let Refused { number, at } = refused;
    let fits = if text.bytes.len() > MOST_BYTES {
        (number, at) == (7, 0)
    } else {
        let ends = text.bytes.iter().filter(|&&byte| byte == b'\n').count();
        (number == 7 || number == 8) && (1..=ends + 1).contains(&(at as usize))
    };
    holds(
        fits,
        &format!("{number} at {at} is no refusal of this text"),
    )
}

pub fn program(text: &Text) -> Result<(), String> {
    answered(PROGRAMS, text).and_then(draws)
}

pub fn fatter_program(text: &Text) -> Result<(), String> {
    answered(FATTER_PROGRAMS, text).and_then(draws)
}

pub fn reporter(text: &Text) -> Result<(), String> {
    answered(REPORTERS, text).and_then(reports)
}

pub fn fatter_reporter(text: &Text) -> Result<(), String> {
    answered(FATTER_REPORTERS, text).and_then(reports)
}

/// What a program writes for a text that is read and for a survey that the jobs accept, and the text's levels; none for others. It says
/// what the reader refuses, and refusals 3 and 4.
fn answered(programs: &[Program<Answer>], text: &Text) -> Result<Option<Answered>, String> {
    let held = agreed(READERS, |read| read_in(read, &text.bytes, LARGEST))?;
    let output = agreed(programs, |program| program(&text.bytes))?;
    let said = |number: u32, at: u32| output == format!("refused={number}\nat={at}\n").as_bytes();
    let refused = match held.answer {
        Err(Refused { number, at }) => said(number, at),
        Ok(read) => said(4, 0) || (1..read.stations).any(|station| said(3, station as u32)),
    };
    holds(
        refused || held.answer.is_ok(),
        &format!("the program writes \"{}\"", output.escape_ascii()),
    )?;
    let levels = held.levels;
    Ok((!refused).then_some(Answered { output, levels }))
}

/// An accepted text, as a program answers it.
struct Answered {
    output: Vec<u8>,
    levels: Vec<i32>,
}

fn draws(answered: Option<Answered>) -> Result<(), String> {
    answered.map_or(Ok(()), |Answered { output, .. }| {
        holds(
            output.starts_with(b"contours=1\n"),
            &format!("the program writes \"{}\"", output.escape_ascii()),
        )
    })
}

/// 'The report is key=value lines: served=1, style, then level, served and unserved for each level.' Both figures make one sum at every
/// level, and the first does not rise.
fn reports(answered: Option<Answered>) -> Result<(), String> {
    let Some(Answered { output, levels }) = answered else {
        return Ok(());
    };
    let figure = |line: Option<&str>, key: &str| {
        let value = line?.strip_prefix(key)?.strip_prefix('=')?;
        value.parse::<u64>().ok()
    };
    let in_form = || {
        let mut lines = std::str::from_utf8(&output).ok()?.split_terminator('\n');
        let heading = lines.next() == Some("served=1");
        let style = matches!(lines.next(), Some("style=straight" | "style=smooth"));
        let mut figures = Vec::new();
        for level in &levels {
            let at_level = lines.next()? == format!("level={level}");
            let served = figure(lines.next().filter(|_| at_level), "served")?;
            figures.push((served, figure(lines.next(), "unserved")?));
        }
        (heading && style && lines.next().is_none()).then_some(figures)
    };
    let figures = in_form().ok_or_else(|| format!("no report: \"{}\"", output.escape_ascii()))?;
    let fits = figures.windows(2).all(|pair| {
        let [(before, unserved_before), (served, unserved)] = [pair[0], pair[1]];
        served <= before && served + unserved == before + unserved_before
    });
    holds(fits, "the figures of two levels do not fit")
}

/// The folder of the stored surveys, NAME.survey, and of what each must give: contour text over the mesh of kind 0, NAME.contours, and
/// over that of kind 1, NAME.fatter, and the reports of served ground, NAME.served and NAME.served-fatter.
const VECTORS: &str = concat!(env!("CARGO_MANIFEST_DIR"), "/../vectors");

/// What is stored of each survey, and the programs that must write it.
const STORED: [(&[Program<Answer>], &str); 4] = [
    (PROGRAMS, "contours"),
    (FATTER_PROGRAMS, "fatter"),
    (REPORTERS, "served"),
    (FATTER_REPORTERS, "served-fatter"),
];

/// The stored surveys: each is a family with one case.
pub fn vectors() -> Part {
    let family = |name: String| Family {
        name: name.clone(),
        case: Box::new(move |_| compared(&name, |name| stored(name))),
    };
    Part {
        name: "vectors".to_string(),
        between: STORED.map(|(programs, _)| names(programs)).join("; "),
        cases: Cases::Once,
        families: stored_names().into_iter().map(family).collect(),
    }
}

/// The names of the stored surveys and of what is stored of them, in order. One that has not all of it fails.
fn stored_names() -> BTreeSet<String> {
    let entries = fs::read_dir(VECTORS).expect("tests/vectors can be listed");
    let name = |file: &OsStr| {
        let (name, end) = file.to_str()?.rsplit_once('.')?;
        let known = end == "survey" || STORED.iter().any(|&(_, stored)| stored == end);
        known.then(|| name.to_string())
    };
    entries
        .filter_map(|entry| name(&entry.expect("an entry of tests/vectors").file_name()))
        .collect()
}

fn stored(name: &str) -> Result<(), String> {
    let bytes = |end: &str| {
        let file = format!("{name}.{end}");
        fs::read(Path::new(VECTORS).join(&file)).map_err(|fault| format!("{file}: {fault}"))
    };
    let survey = bytes("survey")?;
    for (programs, end) in STORED {
        let output = agreed(programs, |program| program(&survey))?;
        holds(
            output == bytes(end)?,
            &format!("not {name}.{end}, but \"{}\"", output.escape_ascii()),
        )?;
    }
    Ok(())
}
