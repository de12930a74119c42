//! Several programs on one input.

use second::Refused;
use std::fmt::Debug;

/// A program that does a job, and the name it goes by when it differs.
pub type Program<J> = (&'static str, J);

/// The names of the programs that do a job.
pub fn names<J>(programs: &[Program<J>]) -> String {
    let names: Vec<&str> = programs.iter().map(|&(name, _)| name).collect();
    match names[..] {
        [one] => format!("{one} alone"),
        _ => names.join(", "),
    }
}

/// A refusal of the proved library, as the second program has it.
pub fn proved<T>(answer: Result<T, thawpebble::Refused>) -> Result<T, Refused> {
    answer.map_err(|thawpebble::Refused { number, at }| Refused { number, at })
}

/// What every program comes to, if it is one thing. `outcome` runs one program; its fault is that program's own.
pub fn agreed<J: Copy, O: Debug + PartialEq>(
    programs: &[Program<J>],
    outcome: impl Fn(J) -> Result<O, String>,
) -> Result<O, String> {
    let mut agreed: Option<(&str, O)> = None;
    for &(name, job) in programs {
        let this = outcome(job).map_err(|fault| format!("{name}: {fault}"))?;
        match &agreed {
            Some((first, that)) if *that != this => {
                return Err(format!("{name} comes to {this:?}, {first} to {that:?}"));
            }
            Some(_) => (),
            None => agreed = Some((name, this)),
        }
    }
    agreed
        .map(|(_, outcome)| outcome)
        .ok_or_else(|| "no program does this".to_string())
}

/// A fact, or what is wrong where it does not hold.
pub fn holds(fact: bool, wrong: &str) -> Result<(), String> {
    if fact {
        Ok(())
    } else {
        Err(wrong.to_string())
    }
}

/// The refusal that every job gives for a room one entry too short, whichever room it is. `lent` runs the job with rooms
/// of the given lengths.
pub fn refuses_short_rooms<const ROOMS: usize, T>(
    needed: [usize; ROOMS],
    lent: impl Fn([usize; ROOMS]) -> Result<Result<T, Refused>, String>,
) -> Result<(), String> {
    for room in (0..ROOMS).filter(|&room| needed[room] > 0) {
        let mut lengths = needed;
        lengths[room] -= 1;
        let answer = lent(lengths)?;
        let refused = matches!(answer, Err(Refused { number: 6, at: 0 }));
        holds(
            refused,
            &format!("room {room} one short is not refused with 6"),
        )?;
    }
    Ok(())
}
