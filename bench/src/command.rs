//! The whole command of either kind, from survey text on standard input to contour text on standard output: the built program
//! against the second one, by wall time and by instructions.

use crate::count::instructions;
use crate::ground::{Ground, GROUNDS};
use crate::{input_of, median, target, uniform, Input, Size};
use std::fs::File;
use std::path::{Path, PathBuf};
use std::process::{Command, Stdio};
use std::time::Instant;

pub const STYLES: [&str; 2] = ["straight", "smooth"];

/// The commands of both kinds, ours and the second program's.
pub const COMMANDS: [(&str, &str); 2] = [
    ("native/contour_main", "cargo/release/second"),
    ("native/fatter_main", "cargo/release/second_fatter"),
];

/// The two programs of a kind, and a file for the text that they read.
struct Commands {
    ours: PathBuf,
    second: PathBuf,
    survey: PathBuf,
}

pub fn print(size: &Size) {
    let target = target();
    println!("| Kind | Survey | Style | Stations | Levels | Ours, ms | Second, ms | Ours/second | Ours, million instructions | Second, million instructions | Ours/second |");
    println!("|---:|---|---|---:|---:|---:|---:|---:|---:|---:|---:|");
    for (kind, (ours, second)) in COMMANDS.into_iter().enumerate() {
        let commands = Commands {
            ours: target.join(ours),
            second: target.join(second),
            survey: target.join("bench.survey"),
        };
        commands.print_rows(kind, size);
    }
    println!();
}

/// The survey's places with the heights of the ground, and so many of its levels.
pub fn write_survey(file: &Path, input: &Input, ground: &Ground, style: u32, levels: usize) {
    let (x, y, tags) = (&input.survey.x, &input.survey.y, &input.tags);
    let levels = ground.levels(levels);
    let mut text = vec![0; 65535];
    let written = second::write(style, tags, x, y, &ground.z, &levels, &mut text);
    text.truncate(written.expect("a sound survey can be written"));
    std::fs::write(file, text).expect("target/bench.survey can be written");
}

impl Commands {
    fn print_rows(&self, kind: usize, size: &Size) {
        for (survey, ground_of) in GROUNDS {
            for (style, name) in STYLES.into_iter().enumerate() {
                for &n in size.stations {
                    let input = input_of("command", uniform, n);
                    let ground = ground_of(&input.survey);
                    for &levels in size.levels {
                        write_survey(&self.survey, &input, &ground, style as u32, levels);
                        let row = format!("{kind} | {survey} | {name} | {n} | {levels}");
                        self.print_row(&row, size);
                    }
                }
            }
        }
    }

    /// Measures both programs over the survey and prints what they took behind the first cells of the row.
    fn print_row(&self, row: &str, size: &Size) {
        let mut ours = Vec::new();
        let mut second = Vec::new();
        for _ in 0..size.samples {
            ours.push(milliseconds(&self.ours, &self.survey));
            second.push(milliseconds(&self.second, &self.survey));
        }
        let (ours, second) = (median(ours), median(second));
        let ratio = ours / second;
        let counted = millions(&self.ours, &self.survey, size);
        let second_counted = millions(&self.second, &self.survey, size);
        let counted_ratio = counted / second_counted;
        println!("| {row} | {ours:.2} | {second:.2} | {ratio:.2} | {counted:.2} | {second_counted:.2} | {counted_ratio:.2} |");
    }
}

/// The wall time of one run over a survey, from its start to its end.
pub fn milliseconds(program: &Path, survey: &Path) -> f64 {
    let mut command = Command::new(program);
    let command = command.stdin(text(survey)).stdout(Stdio::null());
    let start = Instant::now();
    let ended = command.status();
    let taken = start.elapsed().as_secs_f64() * 1e3;
    let well = ended.is_ok_and(|status| status.success());
    assert!(well, "{} ends well", program.display());
    taken
}

/// The instructions of one run over a survey, where they are counted.
pub fn millions(program: &Path, survey: &Path, size: &Size) -> f64 {
    if size.counted {
        instructions(program, &[], text(survey)) / 1e6
    } else {
        f64::NAN
    }
}

/// The survey as a program reads it.
fn text(survey: &Path) -> Stdio {
    File::open(survey).expect("the survey is written").into()
}
