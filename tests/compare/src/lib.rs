//! The comparison of the proved library with the second program, over random and stored inputs.
//!
//! | File | Subject |
//! |---|---|
//! | random.rs | random numbers that a seed fixes |
//! | surveys.rs, swaps.rs, spoiled.rs | families of surveys, accepted, accepted with many sides to swap, and refused |
//! | texts.rs, damage.rs | families of survey text, right and damaged |
//! | supplied.rs, every_list.rs | families of meshes that are handed in, right and damaged; all lists of few triangles |
//! | faults.rs, supplied_faults.rs, text_faults.rs, filed_faults.rs | calls in which faults meet, and what their order gives |
//! | filed.rs | families of surveys with tags and levels, for the writer |
//! | numbers.rs, sides.rs, every.rs, halves.rs | families of numbers and of sides for the rules below the jobs, and surveys at a half |
//! | lent.rs | lent memory that shows where it was written to |
//! | agree.rs | several programs on one input |
//! | jobs.rs, over.rs, text.rs, parts.rs | what is compared: the jobs over a survey, and over a mesh that is handed in; the text; the rules below |
//! | served.rs | the ground served and unserved, its families and its facts |
//! | ground.rs | what a reader of the map may rely on: the ground is covered, no drawn segments cross, no reading is on the wrong side of one |
//! | run.rs | parts, families, cases, the run and its report |

pub mod parts;
pub mod random;
pub mod run;
pub mod sides;
pub mod supplied;
pub mod surveys;
pub mod swaps;

mod agree;
mod damage;
mod every;
mod every_list;
mod faults;
mod filed;
mod filed_faults;
mod ground;
mod halves;
mod jobs;
mod lent;
mod numbers;
mod over;
mod served;
mod spoiled;
mod supplied_faults;
mod text;
mod text_faults;
mod texts;

use agree::names;
use run::{Kind, Maker, Part};
use supplied::Supplied;
use supplied_faults::Handing;
use surveys::Survey;
use swaps::SWAPS;

/// All that is compared. A program that joins a job adds its name to the job's list of programs; a job that joins adds
/// a line here.
pub fn all() -> Vec<Part> {
    let rules = || "second, parts".to_string();
    let surveys: Vec<Maker<Survey>> = [surveys::SOUND, spoiled::SPOILED].concat();
    vec![
        text::vectors(),
        Part::over("rounded", rules(), 1, numbers::QUOTIENTS, parts::rounded),
        Part::over("cut", rules(), 1, numbers::CUTS, parts::cut),
        Part::over("turn", rules(), 1, numbers::CORNERS, parts::turn),
        Part::over("bracket", rules(), 1, sides::SIDES, parts::bracket),
        every::brackets(rules()),
        halves::sides(rules()),
        halves::slopes(names(jobs::SLOPES)),
        Part::over("check", names(jobs::CHECKS), 1, &surveys, jobs::check),
        Part::over("mesh", names(jobs::MESHES), 20, &surveys, jobs::mesh),
        Part::over("slopes", names(jobs::SLOPES), 5, &surveys, jobs::slopes),
        Part::over("height", names(jobs::HEIGHTS), 10, &surveys, jobs::height),
        Part::over("lines", names(jobs::LINES), 20, &surveys, jobs::lines),
        Part::over("mesh-swaps", names(jobs::MESHES), 20, SWAPS, jobs::mesh),
        Part::over(
            "height-swaps",
            names(jobs::HEIGHTS),
            60,
            SWAPS,
            jobs::height,
        ),
        Part::over("lines-swaps", names(jobs::LINES), 40, SWAPS, jobs::lines),
        served::spoiled(),
        served::every(names(served::COUNTS)),
        Part::over(
            "served",
            names(served::COUNTS),
            20,
            &[surveys.as_slice(), served::NEEDLES].concat(),
            served::served,
        ),
        Part::over(
            "served-swaps",
            names(served::COUNTS),
            60,
            SWAPS,
            served::served,
        ),
        Part::over(
            "negated",
            names(jobs::HEIGHTS),
            80,
            surveys::SOUND,
            jobs::negated,
        ),
        calls(
            "check",
            names(jobs::CHECKS),
            faults::CHECK,
            jobs::check_called,
        ),
        calls("mesh", names(jobs::MESHES), faults::MESH, jobs::mesh_called),
        calls(
            "slopes",
            names(jobs::SLOPES),
            faults::BARE,
            jobs::slopes_called,
        ),
        calls(
            "height",
            names(jobs::HEIGHTS),
            faults::WHOLE,
            jobs::height_called,
        ),
        calls(
            "lines",
            names(jobs::LINES),
            faults::WHOLE,
            jobs::lines_called,
        ),
        calls(
            "served",
            names(served::COUNTS),
            faults::WHOLE,
            served::served_called,
        ),
        handed_in(
            "quick",
            "parts".to_string(),
            (5, supplied::right_kinds()),
            parts::quick,
        ),
        handed_in(
            "crowded",
            "parts".to_string(),
            (20, supplied::crowded_kinds()),
            parts::crowded,
        ),
        handed_in(
            "mixed",
            "parts".to_string(),
            (20, supplied::mixed_kinds()),
            parts::mixed,
        ),
        every_list::meshes(names(over::MESH_CHECKS)),
        handed_in(
            "check-mesh",
            names(over::MESH_CHECKS),
            (5, supplied::kinds()),
            over::check_mesh,
        ),
        handed_in(
            "height-over",
            names(over::HEIGHTS_OVER),
            (60, supplied::few_kinds()),
            over::height_over,
        ),
        handed_in(
            "lines-over",
            names(over::LINES_OVER),
            (40, supplied::few_kinds()),
            over::lines_over,
        ),
        ground::faults(names(jobs::LINES)),
        ground::every(names(jobs::LINES)),
        Part::of_kinds(
            "ground",
            names(jobs::LINES),
            60,
            ground::kinds(),
            ground::few,
            ground::ground,
        ),
        Part::of_kinds(
            "ground-over",
            names(over::LINES_OVER),
            100,
            supplied::right_kinds(),
            ground::few_over,
            ground::ground_over,
        ),
        calls_over(
            "check-mesh",
            names(over::MESH_CHECKS),
            faults::CHECK,
            over::check_mesh_called,
        ),
        calls_over(
            "height-over",
            names(over::HEIGHTS_OVER),
            supplied_faults::WHOLE,
            over::height_over_called,
        ),
        calls_over(
            "lines-over",
            names(over::LINES_OVER),
            supplied_faults::WHOLE,
            over::lines_over_called,
        ),
        Part::over("read", names(text::READERS), 5, texts::TEXTS, text::read),
        Part::over("write", names(text::WRITERS), 5, filed::FILED, text::write),
        Part::of_kinds(
            "read-faults",
            names(text::READERS),
            4,
            text_faults::kinds(),
            text_faults::reading,
            text::read_called,
        ),
        Part::of_kinds(
            "write-faults",
            names(text::WRITERS),
            4,
            faults::subsets(filed_faults::WRITER),
            filed_faults::writing,
            text::write_called,
        ),
        Part::over(
            "program",
            names(text::PROGRAMS),
            40,
            texts::TEXTS,
            text::program,
        ),
        Part::over(
            "fatter-program",
            names(text::FATTER_PROGRAMS),
            80,
            &[texts::TEXTS, texts::FATTER_TEXTS].concat(),
            text::fatter_program,
        ),
        Part::over(
            "served-program",
            names(text::REPORTERS),
            80,
            texts::TEXTS,
            text::reporter,
        ),
        Part::over(
            "served-fatter-program",
            names(text::FATTER_REPORTERS),
            160,
            &[texts::TEXTS, texts::FATTER_TEXTS].concat(),
            text::fatter_reporter,
        ),
    ]
}

/// A job called with faults that meet: each subset of its faults is a family.
fn calls(
    job: &str,
    between: String,
    faults: &[faults::Fault],
    compare: fn(&faults::Call) -> Result<(), String>,
) -> Part {
    let name = format!("{job}-faults");
    Part::of_kinds(
        &name,
        between,
        4,
        faults::subsets(faults),
        faults::call,
        compare,
    )
}

/// A job over meshes that are handed in.
fn handed_in(
    job: &str,
    between: String,
    (cost, kinds): (u64, Vec<Kind<supplied::Made>>),
    compare: fn(&Supplied) -> Result<(), String>,
) -> Part {
    Part::of_kinds(job, between, cost, kinds, supplied::supplied, compare)
}

/// `calls` of a job over a mesh that is handed in, which is right or wrong with each subset.
fn calls_over(
    job: &str,
    between: String,
    faults: &[faults::Fault],
    compare: fn(&Handing) -> Result<(), String>,
) -> Part {
    let name = format!("{job}-faults");
    Part::of_kinds(
        &name,
        between,
        8,
        supplied_faults::kinds(faults),
        supplied_faults::handing,
        compare,
    )
}
