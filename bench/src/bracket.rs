//! The bracket of one side with its spot, by instructions. A run of this program asks for the brackets of many sides, and a run that only
//! makes the sides is taken off. Where no level passes between its stations, a side's numbers are handed over and looked at and no bracket
//! is worked out: that is the call, and the bracket is what a crossed side takes beyond it.

use crate::count::instructions;
use crate::{Size, SEED};
use compare::parts::{proved_bracket, second_bracket};
use compare::random::Random;
use compare::sides::{End, Side, MOST_HEIGHT, MOST_PLACE};
use std::env::current_exe;
use std::hint::black_box;
use std::process::Stdio;

/// A kind of side: its name, its style, and whether its level passes between its stations.
const KINDS: [(&str, u32, bool); 3] = [
    ("not crossed", 0, false),
    ("straight", 0, true),
    ("smooth", 1, true),
];

const SIDES: usize = 4096;

pub fn print(size: &Size) {
    println!("| Of one side | Ours, instructions | Second, instructions | Ours/second |");
    println!("|---|---:|---:|---:|");
    let [call, straight, smooth] = KINDS.map(|(kind, ..)| each(size, kind));
    let beyond = |side: [f64; 2]| [side[0] - call[0], side[1] - call[1]];
    for (name, [ours, second]) in [
        ("the call", call),
        ("straight bracket and spot", beyond(straight)),
        ("smooth bracket and spot", beyond(smooth)),
    ] {
        let ratio = ours / second;
        println!("| {name} | {ours:.0} | {second:.0} | {ratio:.2} |");
    }
    println!("\n{SIDES} sides of seed {SEED} for each row.\n");
}

/// The instructions for one side of a kind, by ours and by the second program.
fn each(size: &Size, kind: &str) -> [f64; 2] {
    let run = |program| {
        if size.counted {
            let this = current_exe().expect("this program has a path");
            instructions(&this, &["--brackets", program, kind], Stdio::null())
        } else {
            work_out(program, kind);
            f64::NAN
        }
    };
    let made = run("none");
    ["ours", "second"].map(|program| (run(program) - made) / SIDES as f64)
}

/// Makes the sides of a kind, and works out their brackets by ours, by the second program or by none.
pub fn work_out(program: &str, kind: &str) {
    let (_, style, crossed) = KINDS
        .into_iter()
        .find(|(name, ..)| *name == kind)
        .expect("a kind of side");
    let mut random = Random::of_case(SEED, "bracket", 0);
    let sides: Vec<Side> = (0..SIDES)
        .map(|_| side(&mut random, style, crossed))
        .collect();
    for side in black_box(&sides) {
        match program {
            "ours" => assert_eq!(black_box(proved_bracket(side)).0 == 1, crossed),
            "second" => assert_eq!(black_box(second_bracket(side)).is_some(), crossed),
            "none" => (),
            _ => panic!("ours, second or none, and not {program}"),
        }
    }
}

/// A side anywhere, with slopes like those of a survey, and a level between its stations or at the lower of them.
fn side(random: &mut Random, style: u32, crossed: bool) -> Side {
    const SLOPE: i32 = 1 << 16;
    loop {
        let mut end = || End {
            x: random.natural(0, MOST_PLACE),
            y: random.natural(0, MOST_PLACE),
            z: random.whole(-MOST_HEIGHT, MOST_HEIGHT),
            slopes: std::array::from_fn(|_| random.whole(-SLOPE, SLOPE)),
        };
        let (low, high) = (end(), end());
        let (lower, upper) = (low.z.min(high.z), low.z.max(high.z));
        if lower < upper {
            let level = if crossed {
                random.whole(lower + 1, upper)
            } else {
                lower
            };
            return Side {
                low,
                high,
                level,
                style,
            };
        }
    }
}
