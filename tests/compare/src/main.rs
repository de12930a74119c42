//! compare [--first] [COUNT [SEED]] runs every part, or until one case differs; compare --replay SEED CASE PART makes one case
//! again.

use compare::run::{replay, run, Extent};
use std::env;
use std::process::ExitCode;

/// The count and the seed of a run that names none.
const COUNT: u64 = 120_000;
const SEED: u64 = 1;

fn main() -> ExitCode {
    let words: Vec<String> = env::args().skip(1).collect();
    let words: Vec<&str> = words.iter().map(String::as_str).collect();
    match words[..] {
        ["--replay", seed, case, part] => match (number(seed), number(case)) {
            (Some(seed), Some(case)) => replayed(seed, case, part),
            _ => usage(),
        },
        ["--first", ref rest @ ..] => counted(rest, Extent::ToFirst),
        ref rest => counted(rest, Extent::Whole),
    }
}

fn counted(words: &[&str], extent: Extent) -> ExitCode {
    let (count, seed) = match words {
        [] => (Some(COUNT), Some(SEED)),
        [count] => (number(count), Some(SEED)),
        [count, seed] => (number(count), number(seed)),
        _ => (None, None),
    };
    match (count, seed) {
        (Some(count), Some(seed)) => compared(count, seed, extent),
        _ => usage(),
    }
}

fn number(word: &str) -> Option<u64> {
    word.parse().ok()
}

fn compared(count: u64, seed: u64, extent: Extent) -> ExitCode {
    println!("compare: count {count}, seed {seed}");
    let tally = run(&compare::all(), count, seed, extent);
    println!("{} passed, {} failed", tally.passed, tally.failed);
    if tally.failed == 0 {
        ExitCode::SUCCESS
    } else {
        ExitCode::FAILURE
    }
}

fn replayed(seed: u64, case: u64, part: &str) -> ExitCode {
    match replay(&compare::all(), seed, case, part) {
        Some(true) => ExitCode::SUCCESS,
        Some(false) => ExitCode::FAILURE,
        None => {
            eprintln!("compare: no part is named {part}");
            usage()
        }
    }
}

fn usage() -> ExitCode {
    eprintln!(
        "usage: tests/compare/run [--first] [COUNT [SEED]], or tests/compare/run --replay SEED CASE PART"
    );
    ExitCode::from(2)
}
