//! The report of served ground beside the contour text of the same survey, over the mesh of either kind, by ours and by the second program:
//! the largest survey, with a middling count of levels.

use crate::command::{millions, milliseconds, write_survey, COMMANDS, STYLES};
use crate::ground::GROUNDS;
use crate::{input_of, median, target, uniform, Size};
use std::path::Path;

/// The commands that report, of both kinds, ours and the second program's.
const REPORTERS: [(&str, &str); 2] = [
    ("native/served_main", "cargo/release/second_served"),
    (
        "native/served_fatter_main",
        "cargo/release/second_served_fatter",
    ),
];

pub fn print(size: &Size) {
    let survey = target().join("bench.survey");
    let stations = size.stations[size.stations.len() - 1];
    let levels = size.levels[size.levels.len() / 2];
    let input = input_of("command", uniform, stations);
    println!("| Kind | Survey | Style | Program | Contours, ms | Report, ms | Report/contours | Contours, million instructions | Report, million instructions | Report/contours |");
    println!("|---:|---|---|---|---:|---:|---:|---:|---:|---:|");
    for kind in 0..COMMANDS.len() {
        let (ours, second) = (COMMANDS[kind].0, COMMANDS[kind].1);
        let (our_report, second_report) = (REPORTERS[kind].0, REPORTERS[kind].1);
        for (name, ground_of) in GROUNDS {
            let ground = ground_of(&input.survey);
            for (style, word) in STYLES.into_iter().enumerate() {
                write_survey(&survey, &input, &ground, style as u32, levels);
                for (program, commands) in [
                    ("ours", [ours, our_report]),
                    ("second", [second, second_report]),
                ] {
                    let row = format!("{kind} | {name} | {word} | {program}");
                    print_row(&row, commands, &survey, size);
                }
            }
        }
    }
    println!("\n{stations} stations and {levels} levels; the survey is read, checked and joined for either text.\n");
}

/// Measures the contour text and the report of one program in turn and prints what they took behind the first cells of the row.
fn print_row(row: &str, commands: [&str; 2], survey: &Path, size: &Size) {
    let programs = commands.map(|command| target().join(command));
    let mut taken = [Vec::new(), Vec::new()];
    for _ in 0..size.samples {
        for (program, taken) in programs.iter().zip(&mut taken) {
            taken.push(milliseconds(program, survey));
        }
    }
    let [contours, report] = taken.map(median);
    let [drawn, counted] = programs.map(|program| millions(&program, survey, size));
    let (ratio, counted_ratio) = (report / contours, counted / drawn);
    println!("| {row} | {contours:.2} | {report:.2} | {ratio:.2} | {drawn:.2} | {counted:.2} | {counted_ratio:.2} |");
}
