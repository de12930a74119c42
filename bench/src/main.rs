//! Measures each job of the proved library, the acceptance of a mesh, text, the bracket of one side, the whole command, and the report beside
//! the contour text, against the second program, on the same input in one run, and prints Markdown tables.

mod accepting;
mod bracket;
mod command;
mod count;
mod ground;
mod report;
mod texts;

use compare::random::Random;
use compare::surveys::{measured, uniform_of, Survey};
use compare::swaps::{columns, parabola};
use second::{FATTER, SWEPT};
use std::env;
use std::hint::black_box;
use std::path::{Path, PathBuf};
use std::process::exit;
use std::time::Instant;

/// What the jobs are done on: a survey, and its text with tags of 8 bytes and 64 levels.
struct Input {
    survey: Survey,
    tags: Vec<u8>,
    levels: Vec<i32>,
    text: Vec<u8>,
}

/// Does a job and answers whether it was done.
type Job = fn(&Input) -> bool;

/// A job as both programs do it.
struct Row {
    job: &'static str,
    places: Places,
    /// What of the lent rooms was cleared between the calls.
    cleared: &'static str,
    ours: Job,
    second: Job,
}

const ROWS: &[Row] = &[
    Row {
        job: "check",
        places: uniform,
        cleared: "none lent",
        ours: |Input { survey, .. }| thawpebble::check(&survey.x, &survey.y, &survey.z).is_ok(),
        second: |Input { survey, .. }| second::check(&survey.x, &survey.y, &survey.z).is_ok(),
    },
    Row {
        job: "mesh, kind 0",
        places: uniform,
        cleared: "all, by both",
        ours: |input| thawpebble_mesh(input, SWEPT),
        second: |input| second_mesh(input, SWEPT),
    },
    Row {
        job: "mesh, kind 1",
        places: uniform,
        cleared: "all, by both",
        ours: |input| thawpebble_mesh(input, FATTER),
        second: |input| second_mesh(input, FATTER),
    },
    Row {
        job: "mesh, kind 1, near a parabola",
        places: near_parabola,
        cleared: "all, by both",
        ours: |input| thawpebble_mesh(input, FATTER),
        second: |input| second_mesh(input, FATTER),
    },
    Row {
        job: "mesh, kind 1, two columns",
        places: two_columns,
        cleared: "all, by both",
        ours: |input| thawpebble_mesh(input, FATTER),
        second: |input| second_mesh(input, FATTER),
    },
    Row {
        job: "slopes",
        places: uniform,
        cleared: "all, by both",
        ours: |Input { survey, .. }| {
            let mut room = vec![0; 5 * survey.x.len()];
            thawpebble::slopes(&survey.x, &survey.y, &survey.z, &mut room).is_ok()
        },
        second: |Input { survey, .. }| {
            let mut room = vec![0; 5 * survey.x.len()];
            second::slopes(&survey.x, &survey.y, &survey.z, &mut room).is_ok()
        },
    },
    Row {
        job: "lines, straight",
        places: uniform,
        cleared: "all, by both",
        ours: |input| thawpebble_lines(input, SWEPT, 0, MIDDLE),
        second: |input| second_lines(input, SWEPT, 0, MIDDLE),
    },
    Row {
        job: "lines, straight, none crossed",
        places: uniform,
        cleared: "all, by both",
        ours: |input| thawpebble_lines(input, SWEPT, 0, LOWEST),
        second: |input| second_lines(input, SWEPT, 0, LOWEST),
    },
    Row {
        job: "lines, smooth",
        places: uniform,
        cleared: "all, by both",
        ours: |input| thawpebble_lines(input, SWEPT, 1, MIDDLE),
        second: |input| second_lines(input, SWEPT, 1, MIDDLE),
    },
    Row {
        job: "lines, smooth, none crossed",
        places: uniform,
        cleared: "all, by both",
        ours: |input| thawpebble_lines(input, SWEPT, 1, LOWEST),
        second: |input| second_lines(input, SWEPT, 1, LOWEST),
    },
    Row {
        job: "lines, kind 1, straight",
        places: uniform,
        cleared: "all, by both",
        ours: |input| thawpebble_lines(input, FATTER, 0, MIDDLE),
        second: |input| second_lines(input, FATTER, 0, MIDDLE),
    },
    Row {
        job: "lines, kind 1, smooth",
        places: uniform,
        cleared: "all, by both",
        ours: |input| thawpebble_lines(input, FATTER, 1, MIDDLE),
        second: |input| second_lines(input, FATTER, 1, MIDDLE),
    },
    Row {
        job: "served, straight",
        places: uniform,
        cleared: "all, by both",
        ours: |input| thawpebble_served(input, SWEPT, 0, MIDDLE),
        second: |input| second_served(input, SWEPT, 0, MIDDLE),
    },
    Row {
        job: "served, straight, none crossed",
        places: uniform,
        cleared: "all, by both",
        ours: |input| thawpebble_served(input, SWEPT, 0, LOWEST),
        second: |input| second_served(input, SWEPT, 0, LOWEST),
    },
    Row {
        job: "served, smooth",
        places: uniform,
        cleared: "all, by both",
        ours: |input| thawpebble_served(input, SWEPT, 1, MIDDLE),
        second: |input| second_served(input, SWEPT, 1, MIDDLE),
    },
    Row {
        job: "served, smooth, none crossed",
        places: uniform,
        cleared: "all, by both",
        ours: |input| thawpebble_served(input, SWEPT, 1, LOWEST),
        second: |input| second_served(input, SWEPT, 1, LOWEST),
    },
    Row {
        job: "served, kind 1, straight",
        places: uniform,
        cleared: "all, by both",
        ours: |input| thawpebble_served(input, FATTER, 0, MIDDLE),
        second: |input| second_served(input, FATTER, 0, MIDDLE),
    },
    Row {
        job: "served, kind 1, smooth",
        places: uniform,
        cleared: "all, by both",
        ours: |input| thawpebble_served(input, FATTER, 1, MIDDLE),
        second: |input| second_served(input, FATTER, 1, MIDDLE),
    },
    Row {
        job: "height",
        places: uniform,
        cleared: "all, by both",
        ours: |input| thawpebble_height(input, SWEPT),
        second: |input| second_height(input, SWEPT),
    },
    Row {
        job: "height, kind 1",
        places: uniform,
        cleared: "all, by both",
        ours: |input| thawpebble_height(input, FATTER),
        second: |input| second_height(input, FATTER),
    },
    Row {
        job: "read",
        places: uniform,
        cleared: "all, by both",
        ours: |input| {
            let (mut x, mut y, mut z, mut tags, mut levels) = reader_rooms(input);
            let text = &input.text;
            thawpebble::read(text, &mut x, &mut y, &mut z, &mut tags, &mut levels).is_ok()
        },
        second: |input| {
            let (mut x, mut y, mut z, mut tags, mut levels) = reader_rooms(input);
            let text = &input.text;
            second::read(text, &mut x, &mut y, &mut z, &mut tags, &mut levels).is_ok()
        },
    },
    Row {
        job: "write",
        places: uniform,
        cleared: "all, by both",
        ours: |input| {
            let (Survey { x, y, z, .. }, mut text) = (&input.survey, vec![0; input.text.len()]);
            thawpebble::write(0, &input.tags, x, y, z, &input.levels, &mut text).is_ok()
        },
        second: |input| {
            let (Survey { x, y, z, .. }, mut text) = (&input.survey, vec![0; input.text.len()]);
            second::write(0, &input.tags, x, y, z, &input.levels, &mut text).is_ok()
        },
    },
];

/// A level that many sides cross, and one that none does: its lines cost the preparation and a look at every side.
const MIDDLE: i32 = 0;
const LOWEST: i32 = -32767;

/// The mesh of a kind, by ours and by the second program.
fn thawpebble_mesh(Input { survey, .. }: &Input, kind: u32) -> bool {
    let n = survey.x.len();
    let (mut triangles, mut work) = (vec![0; 3 * (2 * n - 5)], vec![0; 16 * n]);
    let (x, y, z) = (&survey.x, &survey.y, &survey.z);
    thawpebble::mesh(x, y, z, kind, &mut triangles, &mut work).is_ok()
}

fn second_mesh(Input { survey, .. }: &Input, kind: u32) -> bool {
    let n = survey.x.len();
    let (mut triangles, mut work) = (vec![0; 3 * (2 * n - 5)], vec![0; 16 * n]);
    let (x, y, z) = (&survey.x, &survey.y, &survey.z);
    second::mesh(x, y, z, kind, &mut triangles, &mut work).is_ok()
}

/// The height at a place, by ours and by the second program.
fn thawpebble_height(Input { survey, .. }: &Input, kind: u32) -> bool {
    let n = survey.x.len();
    let (mut slopes, mut work) = (vec![0; 5 * n], vec![0; 16 * n]);
    let (x, y, z) = (&survey.x, &survey.y, &survey.z);
    thawpebble::height(x, y, z, kind, 4000, 4001, &mut slopes, &mut work).is_ok()
}

fn second_height(Input { survey, .. }: &Input, kind: u32) -> bool {
    let n = survey.x.len();
    let (mut slopes, mut work) = (vec![0; 5 * n], vec![0; 16 * n]);
    let (x, y, z) = (&survey.x, &survey.y, &survey.z);
    second::height(x, y, z, kind, 4000, 4001, &mut slopes, &mut work).is_ok()
}

/// The lines of a level over the mesh of a kind, by ours and by the second program.
fn thawpebble_lines(Input { survey, .. }: &Input, kind: u32, style: u32, level: i32) -> bool {
    let (mut vertex_x, mut vertex_y, mut records, mut slopes, mut work) = line_rooms(survey);
    let (x, y, z) = (&survey.x, &survey.y, &survey.z);
    thawpebble::lines(
        x,
        y,
        z,
        kind,
        level,
        style,
        &mut vertex_x,
        &mut vertex_y,
        &mut records,
        &mut slopes,
        &mut work,
    )
    .is_ok()
}

fn second_lines(Input { survey, .. }: &Input, kind: u32, style: u32, level: i32) -> bool {
    let (mut vertex_x, mut vertex_y, mut records, mut slopes, mut work) = line_rooms(survey);
    let (x, y, z) = (&survey.x, &survey.y, &survey.z);
    second::lines(
        x,
        y,
        z,
        kind,
        level,
        style,
        &mut vertex_x,
        &mut vertex_y,
        &mut records,
        &mut slopes,
        &mut work,
    )
    .is_ok()
}

/// The ground served at a level over the mesh of a kind, by ours and by the second program.
fn thawpebble_served(Input { survey, .. }: &Input, kind: u32, style: u32, level: i32) -> bool {
    let n = survey.x.len();
    let (mut slopes, mut work) = (vec![0; 5 * n], vec![0; 16 * n]);
    let (x, y, z) = (&survey.x, &survey.y, &survey.z);
    thawpebble::served(x, y, z, kind, level, style, &mut slopes, &mut work).is_ok()
}

fn second_served(Input { survey, .. }: &Input, kind: u32, style: u32, level: i32) -> bool {
    let n = survey.x.len();
    let (mut slopes, mut work) = (vec![0; 5 * n], vec![0; 16 * n]);
    let (x, y, z) = (&survey.x, &survey.y, &survey.z);
    second::served(x, y, z, kind, level, style, &mut slopes, &mut work).is_ok()
}

/// Rooms for vertices, records, slopes and work.
type LineRooms = (Vec<u32>, Vec<u32>, Vec<u16>, Vec<i32>, Vec<u16>);

fn line_rooms(survey: &Survey) -> LineRooms {
    let n = survey.x.len();
    let vertices = 3 * n - 6;
    (
        vec![0; vertices],
        vec![0; vertices],
        vec![0; vertices / 2],
        vec![0; 5 * n],
        vec![0; 16 * n],
    )
}

/// Rooms for x, y, z, the tags and the levels.
type ReaderRooms = (Vec<u32>, Vec<u32>, Vec<i32>, Vec<u8>, Vec<i32>);

fn reader_rooms(input: &Input) -> ReaderRooms {
    let n = input.survey.x.len();
    let (x, y, z) = (vec![0; n], vec![0; n], vec![0; n]);
    (x, y, z, vec![0; 8 * n], vec![0; input.levels.len()])
}

const SEED: u64 = 1;

/// How much is measured.
struct Size {
    /// The surveys' counts of stations, and the command's counts of levels.
    stations: &'static [usize],
    levels: &'static [usize],
    /// An odd number, so that one sample is the median.
    samples: usize,
    /// A sample covers so many stations in all, so that the clock's own step does not count.
    stations_in_sample: usize,
    /// Are instructions counted?
    counted: bool,
}

const WHOLE: Size = Size {
    stations: &[16, 128, 1024],
    levels: &[1, 16, 64],
    samples: 31,
    stations_in_sample: 1 << 15,
    counted: true,
};

/// Everything is run, and nothing long enough to be measured.
const ONCE: Size = Size {
    stations: &[16],
    levels: &[1],
    samples: 1,
    stations_in_sample: 16,
    counted: false,
};

/// The folder for what is built and written.
fn target() -> PathBuf {
    Path::new(env!("CARGO_MANIFEST_DIR")).join("../target")
}

fn main() {
    let words: Vec<String> = env::args().skip(1).collect();
    match words.iter().map(String::as_str).collect::<Vec<_>>()[..] {
        [] => print(&WHOLE),
        ["--once"] => print(&ONCE),
        ["--brackets", program, kind] => bracket::work_out(program, kind),
        ["--texts", program, job, n] => {
            texts::work_out(program, job, n.parse().expect("a count of stations"))
        }
        _ => {
            eprintln!("usage: bench/run [--once]");
            exit(2);
        }
    }
}

fn print(size: &Size) {
    println!(
        "| Job | Stations | Ours, µs a call | Second, µs a call | Ours/second | Buffers cleared |"
    );
    println!("|---|---:|---:|---:|---:|---|");
    for row in ROWS {
        for &n in size.stations {
            print_row(row, n, size);
        }
    }
    println!();
    accepting::print(size);
    texts::print(size);
    bracket::print(size);
    command::print(size);
    report::print(size);
    let samples = size.samples;
    println!("Median of {samples} samples, the two programs in turn, both release builds; uniform places and hills of seed {SEED};\ntexts have tags of 8 bytes and {LEVELS} levels.");
}

/// 64 levels from end to end of their range.
const LEVELS: i32 = 64;
const LEVEL_STEP: i32 = 1040;

/// A survey of so many stations.
type Places = fn(&mut Random, usize) -> Survey;

fn uniform(random: &mut Random, n: usize) -> Survey {
    uniform_of(random, n)
}

/// Numbered along it, 104,113 swaps for 1,024 stations.
fn near_parabola(random: &mut Random, n: usize) -> Survey {
    measured(random, &parabola(n as i64 / 2, || 0), Some(0))
}

/// Numbered upward, 130,305 swaps for 1,024 stations.
fn two_columns(random: &mut Random, n: usize) -> Survey {
    measured(random, &columns(n as u32, 7, 8000), Some(0))
}

/// A survey of so many stations, and its text as the second program writes it.
fn input_of(job: &str, places: Places, n: usize) -> Input {
    let survey = places(&mut Random::of_case(SEED, job, n as u64), n);
    let n = survey.x.len();
    let tags: Vec<u8> = (0..n)
        .flat_map(|station| format!("S-{station:06}").into_bytes())
        .collect();
    let levels: Vec<i32> = (0..LEVELS)
        .map(|level| LEVEL_STEP * level - 32767)
        .collect();
    let mut text = vec![0; 65535];
    let written = second::write(
        0, &tags, &survey.x, &survey.y, &survey.z, &levels, &mut text,
    );
    text.truncate(written.expect("a sound survey can be written"));
    Input {
        survey,
        tags,
        levels,
        text,
    }
}

fn print_row(row: &Row, n: usize, size: &Size) {
    // Both kinds, styles and levels of a job are measured on one survey.
    let job = row.job.split(',').next().unwrap_or(row.job);
    let input = input_of(job, row.places, n);
    let start = Instant::now();
    let done = (row.ours)(&input) && (row.second)(&input);
    assert!(done, "{} is done by both programs", row.job);
    let calls = calls_in_sample(size, n, start);
    let mut ours = Vec::new();
    let mut second = Vec::new();
    for _ in 0..size.samples {
        ours.push(microseconds(|| (row.ours)(black_box(&input)), calls));
        second.push(microseconds(|| (row.second)(black_box(&input)), calls));
    }
    let (ours, second) = (median(ours), median(second));
    let Row { job, cleared, .. } = row;
    let ratio = ours / second;
    println!("| {job} | {n} | {ours:.2} | {second:.2} | {ratio:.2} | {cleared} |");
}

/// How many calls a sample has for so many stations, of a job that every program has done once since the start.
fn calls_in_sample(size: &Size, n: usize, start: Instant) -> usize {
    let in_longest = (LONGEST / start.elapsed().as_secs_f64()) as usize;
    (size.stations_in_sample / n).min(in_longest).max(1)
}

/// About how many seconds the samples of a slow job may take together.
const LONGEST: f64 = 0.5;

/// The time of one call, as the mean of so many.
fn microseconds(job: impl Fn() -> bool, calls: usize) -> f64 {
    let start = Instant::now();
    for _ in 0..calls {
        black_box(job());
    }
    start.elapsed().as_secs_f64() * 1e6 / calls as f64
}

fn median(mut samples: Vec<f64>) -> f64 {
    samples.sort_by(f64::total_cmp);
    samples[samples.len() / 2]
}
