//! Instructions, as valgrind counts them.

use crate::target;
use std::path::Path;
use std::process::{Command, Stdio};

/// The instructions of one run of a program; not a number where valgrind does not count them.
pub fn instructions(program: &Path, words: &[&str], input: Stdio) -> f64 {
    let counts = target().join("bench.counts");
    let run = Command::new("valgrind")
        .args(["--tool=callgrind", "--quiet"])
        .arg(format!("--callgrind-out-file={}", counts.display()))
        .arg(program)
        .args(words)
        .stdin(input)
        .stdout(Stdio::null())
        .status();
    if !run.is_ok_and(|status| status.success()) {
        return f64::NAN;
    }
    let counts = std::fs::read_to_string(counts).unwrap_or_default();
    let total = counts
        .lines()
        .find_map(|line| line.strip_prefix("summary: "));
    total
        .and_then(|total| total.trim().parse().ok())
        .unwrap_or(f64::NAN)
}
