//! Contour text, and the programs as functions from bytes to bytes and as processes.

use crate::lines::{Joined, Line};
use crate::mesh::triangles_of;
use crate::refusal::{tag_room, Refused, MOST_LEVELS, MOST_STATIONS};
use crate::survey::check;
use crate::text::{put, read, style_word};
use std::io::{Read, Write};

/// The program: 'a program that reads a survey on standard input and writes contour text.' 'The program
/// stays with 0'; a second one draws over the mesh of kind 1.
pub fn program(text: &[u8], kind: u32) -> Vec<u8> {
    told(contours(text, kind))
}

/// What a program writes: 'A refused survey gives only refused=N / at=M.' Both the text and the survey are
/// judged before any line is put.
pub fn told(answer: Result<Vec<u8>, Refused>) -> Vec<u8> {
    match answer {
        Ok(output) => output,
        Err(Refused { number, at }) => {
            let mut output = Vec::new();
            put(&mut output, "refused", number);
            put(&mut output, "at", at);
            output
        }
    }
}

/// A program as a process: survey text on standard input, its own text on standard output. All of standard
/// input is taken before it is judged, so a text over its limit is seen to be one. A failed read ends the
/// text; a failed write has nowhere to be told.
pub fn run(program: fn(&[u8], u32) -> Vec<u8>, kind: u32) {
    let mut text = Vec::new();
    let _ = std::io::stdin().read_to_end(&mut text);
    let _ = std::io::stdout().write_all(&program(&text, kind));
}

/// The survey of a text, joined in the mesh of a kind, and what else the text says.
pub struct Asked {
    pub style: u32,
    pub levels: Vec<i32>,
    pub joined: Joined,
}

/// What a text asks for. The rooms lent to the reader are those of the largest survey, so 6 never applies;
/// the reader leaves 3 and 4 to `check`.
pub fn asked_in(text: &[u8], kind: u32) -> Result<Asked, Refused> {
    let mut x = vec![0; MOST_STATIONS];
    let mut y = vec![0; MOST_STATIONS];
    let mut z = vec![0; MOST_STATIONS];
    let mut tags = vec![0; tag_room(MOST_STATIONS)];
    let mut levels = vec![0; MOST_LEVELS];
    let survey = read(text, &mut x, &mut y, &mut z, &mut tags, &mut levels)?;
    let n = survey.stations;
    let (x, y, z) = (&x[..n], &y[..n], &z[..n]);
    check(x, y, z)?;
    levels.truncate(survey.levels);
    Ok(Asked {
        style: survey.style,
        levels,
        joined: Joined::of(x, y, z, triangles_of(x, y, kind), survey.style),
    })
}

/// The contour text of a survey text.
fn contours(text: &[u8], kind: u32) -> Result<Vec<u8>, Refused> {
    let survey = asked_in(text, kind)?;
    let (joined, levels) = (&survey.joined, &survey.levels);
    let mut output = Vec::new();
    put(&mut output, "contours", 1);
    put(&mut output, "style", style_word(survey.style));
    for &level in levels {
        put_level(&mut output, level, &joined.lines(level));
    }
    Ok(output)
}

/// The contour text of one level.
pub fn block(level: i32, lines: &[Line]) -> Vec<u8> {
    let mut output = Vec::new();
    put_level(&mut output, level, lines);
    output
}

/// One level of contour text: 'level=5 / lines=1 / kind=open / vertices=2 / x=504 / y=0 / x=0 / y=504';
/// 'Further levels repeat from the level line.'
fn put_level(output: &mut Vec<u8>, level: i32, lines: &[Line]) {
    put(output, "level", level);
    put(output, "lines", lines.len());
    for line in lines {
        put(output, "kind", if line.closed { "closed" } else { "open" });
        put(output, "vertices", line.vertices.len());
        for (x, y) in &line.vertices {
            put(output, "x", x);
            put(output, "y", y);
        }
    }
}
