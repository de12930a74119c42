//! Parts, their families of inputs, and the run over them.

use crate::agree::holds;
use crate::random::Random;
use std::any::Any;
use std::fmt::Debug;
use std::fs;
use std::hint::black_box;
use std::panic::{catch_unwind, set_hook, AssertUnwindSafe};
use std::path::PathBuf;
use std::sync::atomic::{AtomicBool, AtomicU64, Ordering::Relaxed};
use std::sync::Mutex;
use std::thread;

/// A rule or a job that is compared, and the families of inputs that it meets. One family of one part is one check.
pub struct Part {
    pub name: String,
    /// The programs that must agree; one alone is held to facts.
    pub between: String,
    pub cases: Cases,
    pub families: Vec<Family>,
}

/// How many cases a part runs.
pub enum Cases {
    /// The count of the run divided by what a case costs, but each family once at least.
    Costing(u64),
    /// Each family once: its input is always the same.
    Once,
}

/// A family of inputs: what makes and compares one case of it.
pub struct Family {
    pub name: String,
    pub case: Box<dyn Fn(&mut Random) -> Outcome + Send + Sync>,
}

/// What comes of a case.
pub type Outcome = Result<(), Difference>;

/// A case in which the programs differ, or in which a fact does not hold.
pub struct Difference {
    pub input: String,
    pub said: String,
}

/// What a case hands to the programs: it can be kept, held to what was kept, and shown.
pub trait Input: Clone + Debug + PartialEq {}

impl<I: Clone + Debug + PartialEq> Input for I {}

/// A family as its generator has it: a name, and what makes an input.
pub type Maker<I> = (&'static str, fn(&mut Random) -> I);

/// A kind of input: its name, and what it is.
pub type Kind<K> = (String, K);

impl Part {
    /// A part whose cases are made at random; `compare` says what differs.
    pub fn over<I: Input + 'static>(
        name: &str,
        between: String,
        cost: u64,
        makers: &[Maker<I>],
        compare: fn(&I) -> Result<(), String>,
    ) -> Part {
        let kinds = makers
            .iter()
            .map(|&(name, make)| (name.to_string(), make))
            .collect();
        Part::of_kinds(
            name,
            between,
            cost,
            kinds,
            |make, random| make(random),
            compare,
        )
    }

    /// The same, where one function makes the inputs of every kind.
    pub fn of_kinds<K: Send + Sync + 'static, I: Input + 'static>(
        name: &str,
        between: String,
        cost: u64,
        kinds: Vec<Kind<K>>,
        make: fn(&K, &mut Random) -> I,
        compare: fn(&I) -> Result<(), String>,
    ) -> Part {
        let family = |(name, kind): Kind<K>| Family {
            name,
            case: Box::new(move |random| compared(&make(&kind, random), compare)),
        };
        Part {
            name: name.to_string(),
            between,
            cases: Cases::Costing(cost),
            families: kinds.into_iter().map(family).collect(),
        }
    }

    /// A part each of whose families is one case: all that there is of a kind.
    pub fn once<K: Copy + Send + Sync + 'static>(
        name: &str,
        between: String,
        kinds: &[(&str, K)],
        tried: fn(K) -> Outcome,
    ) -> Part {
        let family = |&(name, kind): &(&str, K)| Family {
            name: name.to_string(),
            case: Box::new(move |_| tried(kind)),
        };
        Part {
            name: name.to_string(),
            between,
            cases: Cases::Once,
            families: kinds.iter().map(family).collect(),
        }
    }

    fn count(&self, count: u64) -> u64 {
        let families = self.families.len() as u64;
        match self.cases {
            Cases::Costing(cost) => families.max(count / cost),
            Cases::Once => families,
        }
    }

    /// The families take turns, so a case's number tells its family.
    fn family_of(&self, case: u64) -> usize {
        (case % self.families.len() as u64) as usize
    }

    /// Makes and compares one case.
    fn try_case(&self, seed: u64, case: u64) -> Outcome {
        let mut random = Random::of_case(seed, &self.name, case);
        (self.families[self.family_of(case)].case)(&mut random)
    }
}

/// Compares one input, which no program may change. One that panics differs from one that answers.
pub fn compared<I: Input>(input: &I, compare: impl Fn(&I) -> Result<(), String>) -> Outcome {
    let lent = input.clone();
    let said = catch_unwind(AssertUnwindSafe(|| compare(input)));
    let said =
        said.unwrap_or_else(|panic| Err(format!("a program panicked: {}", message(&*panic))));
    let kept = holds(*black_box(input) == lent, "what was only read is changed");
    said.and(kept).map_err(|said| Difference {
        input: format!("{lent:?}"),
        said,
    })
}

/// What a panic says.
fn message(panic: &(dyn Any + Send)) -> &str {
    let owned = panic.downcast_ref::<String>().map(String::as_str);
    owned
        .or(panic.downcast_ref::<&str>().copied())
        .unwrap_or("no message")
}

/// Keeps a panic from being printed where it happens: a report has what it says, once for each family.
fn hush_panics() {
    set_hook(Box::new(|_| ()));
}

/// How many checks agreed in all their cases, and how many did not.
#[derive(Default)]
pub struct Tally {
    pub passed: usize,
    pub failed: usize,
}

/// How far a run goes.
#[derive(Clone, Copy, PartialEq)]
pub enum Extent {
    Whole,
    /// To the first case that differs.
    ToFirst,
}

/// Of a run to the first difference, all parts run this share of their cases first, so that it is often short.
const FIRST_SHARE: u64 = 50;

/// Runs every part and prints a line for each.
pub fn run(parts: &[Part], count: u64, seed: u64, extent: Extent) -> Tally {
    hush_panics();
    if extent == Extent::ToFirst {
        let tally = run_parts(parts, count / FIRST_SHARE, seed, extent);
        if tally.failed > 0 {
            return tally;
        }
    }
    run_parts(parts, count, seed, extent)
}

/// A part without a family compares nothing, which is a failure.
fn run_parts(parts: &[Part], count: u64, seed: u64, extent: Extent) -> Tally {
    let mut tally = Tally::default();
    for part in parts {
        if part.families.is_empty() {
            println!("{}: there is nothing to compare", part.name);
            tally.failed += 1;
            continue;
        }
        let failed = run_part(part, count, seed, extent);
        tally.failed += failed;
        tally.passed += part.families.len() - failed;
        if failed > 0 && extent == Extent::ToFirst {
            break;
        }
    }
    tally
}

/// How many cases a thread takes at a time.
const TAKEN: u64 = 16;

/// What differs in a family: in how many cases, and in the first of them.
#[derive(Default)]
struct Differing {
    cases: u64,
    first: Option<(u64, Difference)>,
}

/// Runs the cases of one part and answers in how many of its families a case differs. The first of each is reported. A case
/// depends on its number alone, so the number of threads changes nothing.
fn run_part(part: &Part, count: u64, seed: u64, extent: Extent) -> usize {
    let cases = part.count(count);
    let next = AtomicU64::new(0);
    let ended = AtomicBool::new(false);
    let differing: Mutex<Vec<Differing>> =
        Mutex::new(part.families.iter().map(|_| Differing::default()).collect());
    let take = || loop {
        let from = next.fetch_add(TAKEN, Relaxed);
        if from >= cases || ended.load(Relaxed) {
            return;
        }
        for case in from..cases.min(from + TAKEN) {
            if let Err(difference) = part.try_case(seed, case) {
                let mut differing = differing.lock().expect("no thread panics here");
                let family = &mut differing[part.family_of(case)];
                family.cases += 1;
                if family.first.as_ref().is_none_or(|&(first, _)| case < first) {
                    family.first = Some((case, difference));
                }
                ended.store(extent == Extent::ToFirst, Relaxed);
            }
        }
    };
    thread::scope(|scope| {
        let threads = thread::available_parallelism().map_or(1, usize::from);
        for _ in 0..threads {
            scope.spawn(take);
        }
    });
    let differing = differing.into_inner().expect("no thread panics here");
    for (case, difference) in differing.iter().filter_map(|family| family.first.as_ref()) {
        report(part, seed, *case, difference);
    }
    let (name, between) = (&part.name, &part.between);
    match differing.iter().map(|family| family.cases).sum::<u64>() {
        0 => println!("{name}: {cases} cases agree ({between})"),
        some => println!("{name}: {some} of {cases} cases differ ({between})"),
    }
    differing.iter().filter(|family| family.cases > 0).count()
}

/// How much of an input is printed; its file has it whole.
const PRINTED: usize = 600;

/// Writes a differing case to its file, whole, and prints it.
fn report(part: &Part, seed: u64, case: u64, difference: &Difference) {
    let name = &part.name;
    let family = &part.families[part.family_of(case)].name;
    let Difference { input, said } = difference;
    let folder = PathBuf::from(concat!(env!("CARGO_MANIFEST_DIR"), "/../../target/compare"));
    let file = format!("{name}-{seed}-{case}.txt");
    let text = format!(
        "part: {name}\nfamily: {family}\nseed: {seed}\ncase: {case}\nreplay: tests/compare/run --replay {seed} {case} {name}\n\
         differs: {said}\ninput: {input}\n"
    );
    let written = fs::create_dir_all(&folder).and_then(|()| fs::write(folder.join(&file), text));
    let shown: String = input.chars().take(PRINTED).collect();
    println!("{name}: case {case} of seed {seed} ({family}) differs: {said}\n  input: {shown}");
    match written {
        Ok(()) => println!("  whole in target/compare/{file}"),
        Err(fault) => println!("  target/compare/{file} could not be written: {fault}"),
    }
}

/// Makes and compares one case again and reports it. Answers whether it agrees; None if there is no such part.
pub fn replay(parts: &[Part], seed: u64, case: u64, name: &str) -> Option<bool> {
    let part = parts.iter().find(|part| part.name == name)?;
    hush_panics();
    let outcome = part.try_case(seed, case);
    match &outcome {
        Ok(()) => println!("{name}: case {case} of seed {seed} agrees"),
        Err(difference) => report(part, seed, case, difference),
    }
    Some(outcome.is_ok())
}
