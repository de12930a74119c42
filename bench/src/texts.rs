//! Reading and writing text, by instructions. A run of this program does a job many times, and a run that only makes what it is done on is
//! taken off. The rooms of the reader and of the survey's writer are made at each call, and contour text is compared with the right one.

use crate::count::instructions;
use crate::{input_of, line_rooms, uniform, Size, MIDDLE, ROWS, SEED};
use compare::parts::proved_block;
use compare::surveys::Survey;
use second::{Drawn, Line, SWEPT};
use std::cell::RefCell;
use std::env::current_exe;
use std::hint::black_box;
use std::process::Stdio;

/// The jobs: their names in the table and on the command line. Those of `ROWS` are done as there.
const JOBS: [(&str, &str); 3] = [
    ("read survey text", "read"),
    ("write survey text", "write"),
    ("write the contour text of a level", "block"),
];

const CALLS: usize = 16;

/// The room that the programs lend for the contour text of a level. It is made once, as they make it.
const ROOM: usize = 153_360;

pub fn print(size: &Size) {
    println!("| Text | Stations | Ours, instructions | Second, instructions | Ours/second |");
    println!("|---|---:|---:|---:|---:|");
    for (name, job) in JOBS {
        for &n in size.stations {
            let [ours, second] = each(size, job, n);
            let ratio = ours / second;
            println!("| {name} | {n} | {ours:.0} | {second:.0} | {ratio:.2} |");
        }
    }
    println!("\nUniform surveys of seed {SEED}, tags of 8 bytes and 64 levels; contour text of the straight lines of level {MIDDLE}.\n");
}

/// The instructions of one call, by ours and by the second program.
fn each(size: &Size, job: &str, n: usize) -> [f64; 2] {
    let run = |program| {
        if size.counted {
            let this = current_exe().expect("this program has a path");
            instructions(
                &this,
                &["--texts", program, job, &n.to_string()],
                Stdio::null(),
            )
        } else {
            work_out(program, job, n);
            f64::NAN
        }
    };
    let made = run("none");
    ["ours", "second"].map(|program| (run(program) - made) / CALLS as f64)
}

/// Makes what a job is done on, and does it by ours, by the second program or by none.
pub fn work_out(program: &str, job: &str, n: usize) {
    let input = input_of("texts", uniform, n);
    let drawn = Block::of(&input.survey);
    let room = RefCell::new(vec![0; ROOM]);
    let row = ROWS.iter().find(|row| row.job == job);
    let call: &dyn Fn() -> bool = match (program, row) {
        ("none", _) => return,
        ("ours", Some(row)) => &|| (row.ours)(&input),
        ("second", Some(row)) => &|| (row.second)(&input),
        ("ours", None) => &|| {
            let mut room = room.borrow_mut();
            let bytes = proved_block(MIDDLE, &drawn.records, &drawn.x, &drawn.y, &mut room);
            room[..bytes] == drawn.text
        },
        ("second", None) => &|| second::block(MIDDLE, &drawn.lines) == drawn.text,
        _ => panic!("ours, second or none, and not {program}"),
    };
    for _ in 0..CALLS {
        assert!(black_box(call)());
    }
}

/// The lines of one level, as records and vertices and as the second program has them, and their text.
struct Block {
    records: Vec<u16>,
    x: Vec<u32>,
    y: Vec<u32>,
    lines: Vec<Line>,
    text: Vec<u8>,
}

impl Block {
    fn of(survey: &Survey) -> Block {
        let (mut x, mut y, mut records, mut slopes, mut work) = line_rooms(survey);
        let Drawn { lines, vertices } = second::lines(
            &survey.x,
            &survey.y,
            &survey.z,
            SWEPT,
            MIDDLE,
            0,
            &mut x,
            &mut y,
            &mut records,
            &mut slopes,
            &mut work,
        )
        .expect("a sound survey has lines");
        x.truncate(vertices);
        y.truncate(vertices);
        records.truncate(lines);
        let mut places = x.iter().copied().zip(y.iter().copied());
        let lines: Vec<Line> = records
            .iter()
            .map(|&record| Line {
                closed: record % 2 == 1,
                vertices: places.by_ref().take(usize::from(record / 2)).collect(),
            })
            .collect();
        let text = second::block(MIDDLE, &lines);
        Block {
            records,
            x,
            y,
            lines,
            text,
        }
    }
}
