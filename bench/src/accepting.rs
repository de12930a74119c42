//! Accepting a mesh that is handed in, beside making a mesh of the same survey and beside the second program's check.

use crate::{calls_in_sample, input_of, median, microseconds, uniform, Size, SEED};
use compare::random::Random;
use compare::supplied::rungs_of;
use compare::surveys::Survey;
use second::{FATTER, SWEPT};
use std::hint::black_box;
use std::time::Instant;

pub fn print(size: &Size) {
    println!("| Mesh | Stations | Accepting, µs a call | Making, µs a call | Accepting/making | Second's accepting, µs a call | Ours/second |");
    println!("|---|---:|---:|---:|---:|---:|---:|");
    for (name, kind, order) in [
        ("kind 0", SWEPT, AS_MADE),
        ("kind 0, its triangles in no order", SWEPT, SHUFFLED),
        ("kind 1", FATTER, AS_MADE),
    ] {
        for &n in size.stations {
            let survey = input_of("mesh", uniform, n).survey;
            let mut triangles = made(&survey, kind);
            order(&mut triangles);
            print_row(name, &survey, kind, &triangles.concat(), size);
        }
    }
    let most = size.stations.iter().copied().fold(MANY, usize::max);
    let rungs = rungs_of(&mut Random::of_case(SEED, "accepting", most as u64), most);
    print_row(
        "rungs of one key",
        &rungs.survey,
        SWEPT,
        &rungs.triangles,
        size,
    );
    println!();
}

/// So many stations at least have rungs of one key.
const MANY: usize = 300;

/// How the triangles are handed in.
type Order = fn(&mut [[u16; 3]]);

const AS_MADE: Order = |_| ();
const SHUFFLED: Order = |triangles| Random::of_case(SEED, "accepting", 0).shuffle(triangles);

/// The triangles of a survey.
fn made(survey: &Survey, kind: u32) -> Vec<[u16; 3]> {
    let n = survey.x.len();
    let mut room = vec![0; 3 * (2 * n - 5)];
    let count = mesh(survey, kind, &mut room);
    let whole = room.chunks_exact(3).take(count);
    whole.map(|t| [t[0], t[1], t[2]]).collect()
}

/// Makes them, and answers how many there are.
fn mesh(survey: &Survey, kind: u32, room: &mut [u16]) -> usize {
    let Survey { x, y, z, .. } = survey;
    let made = thawpebble::mesh(x, y, z, kind, room, &mut vec![0; 16 * x.len()]);
    made.expect("a sound survey has a mesh")
}

/// The three take turns on one survey.
fn print_row(name: &str, survey: &Survey, kind: u32, triangles: &[u16], size: &Size) {
    let Survey { x, y, z, .. } = survey;
    let n = x.len();
    let count = made(survey, kind).len();
    let making = || mesh(survey, kind, &mut vec![0; 3 * (2 * n - 5)]) == count;
    let accepting = || thawpebble::check_mesh(x, y, z, black_box(triangles)).is_ok();
    let second = || second::check_mesh(x, y, z, black_box(triangles)).is_ok();
    let start = Instant::now();
    assert!(
        accepting() && making() && second(),
        "a right mesh is accepted by both programs"
    );
    let calls = calls_in_sample(size, n, start);
    let mut samples = [Vec::new(), Vec::new(), Vec::new()];
    for _ in 0..size.samples {
        samples[0].push(microseconds(accepting, calls));
        samples[1].push(microseconds(making, calls));
        samples[2].push(microseconds(second, calls));
    }
    let [accepting, making, second] = samples.map(median);
    let (to_making, to_second) = (accepting / making, accepting / second);
    println!("| {name} | {n} | {accepting:.2} | {making:.2} | {to_making:.2} | {second:.2} | {to_second:.4} |");
}
