//! The ground served and unserved: the programs that count it, and the facts that hold of it. Document 02, L12.

use crate::agree::{agreed, holds, proved, refuses_short_rooms, Program};
use crate::faults::Call;
use crate::jobs::{
    answered, asked, checked, height_lent, height_rooms, is_one_in, line_rooms, lines_in, longest,
    over, FEW, LINES, SLACK,
};
use crate::random::Random;
use crate::run::{compared, Difference, Maker, Outcome, Part};
use crate::surveys::{listed, sound, Survey, MOST_COORDINATE, MOST_HEIGHT};
use second::{Refused, Served, FATTER, SWEPT};
use std::cell::RefCell;
use std::collections::HashSet;

pub type Count =
    fn(&[u32], &[u32], &[i32], u32, i32, u32, &mut [i32], &mut [u16]) -> Result<Served, Refused>;

pub const COUNTS: &[Program<Count>] = &[
    ("second", second::served),
    ("thawpebble", |x, y, z, kind, level, style, slopes, work| {
        let answer = thawpebble::served(x, y, z, kind, level, style, slopes, work);
        proved(answer).map(|thawpebble::Served { served, unserved }| Served { served, unserved })
    }),
];

/// Further surveys, of which figures are counted.
pub const NEEDLES: &[Maker<Survey>] = &[("needles", needles)];

/// Stations beside a line through the whole range, at the ends of their own one: triangles of the least area that there is, and next to
/// them long ones.
fn needles(random: &mut Random) -> Survey {
    const HEIGHTS: [i32; 5] = [
        -MOST_HEIGHT,
        1 - MOST_HEIGHT,
        0,
        MOST_HEIGHT - 1,
        MOST_HEIGHT,
    ];
    let most = MOST_COORDINATE;
    let (across, up) = random.pick(&[
        (most, most - 1),
        (most - 1, most),
        (most, 1),
        (1, most),
        (most, 0),
    ]);
    let n = random.within(3, 9) as usize;
    let places = listed(n, || {
        let anywhere = random.natural(0, most);
        let along = random.pick(&[0, 1, most - 1, most, anywhere]);
        let (off_x, off_y) = (random.natural(0, 1), random.natural(0, 1));
        let place = (along * across / most + off_x, along * up / most + off_y);
        (place.0.min(most), place.1.min(most))
    });
    let mut survey = sound(random, places);
    survey.z.fill_with(|| random.pick(&HEIGHTS));
    survey.level = random.pick(&HEIGHTS);
    survey
}

/// The ground at levels of a survey, over the mesh of either kind; where stations are many, kind 1 of some surveys.
pub fn served(survey: &Survey) -> Result<(), String> {
    served_over(survey, SWEPT).map_err(over(SWEPT))?;
    if FEW < survey.x.len() && !is_one_in(8, survey) {
        return Ok(());
    }
    served_over(survey, FATTER).map_err(over(FATTER))
}

/// The ground at some levels in either style; where stations are many, in the survey's own one.
fn served_over(survey: &Survey, kind: u32) -> Result<(), String> {
    let expected = checked(survey).and_then(|()| asked(survey));
    let counted = counted(survey, kind)?;
    holds(
        counted.map(|_| ()) == expected,
        "not refused as the survey, the level and the style are",
    )?;
    if counted.is_err() {
        return Ok(());
    }
    let styles = if survey.x.len() <= FEW {
        0..=1
    } else {
        survey.style..=survey.style
    };
    for style in styles {
        let mut figures = Vec::new();
        for level in levels(survey, kind) {
            let asked = Survey {
                level,
                style,
                ..survey.clone()
            };
            let at = |fault: String| format!("level {level}, style {style}: {fault}");
            let answer = counted_alike(&asked, kind).map_err(at)?;
            let figure = answer.map_err(|refused| at(format!("refused with {refused:?}")))?;
            figures.push((level, figure));
        }
        served_facts(survey, &figures).map_err(|fault| format!("style {style}: {fault}"))?;
    }
    Ok(())
}

/// Levels that the survey's numbers fix, rising: its own one, some of its heights, those next to them, its greatest height and what is
/// above all, and the ends of the range. Where stations are many, fewer; of kind 1 its own one.
fn levels(survey: &Survey, kind: u32) -> Vec<i32> {
    let n = survey.x.len();
    let own = [survey.level];
    let highest = survey
        .z
        .iter()
        .copied()
        .max()
        .expect("a survey has stations");
    let mut levels: Vec<i32> = if n <= FEW {
        let lowest = survey
            .z
            .iter()
            .copied()
            .min()
            .expect("a survey has stations");
        let near = [survey.level, survey.z[0], survey.z[n / 2], lowest, highest];
        let ends = [-MOST_HEIGHT, MOST_HEIGHT];
        near.into_iter()
            .flat_map(|level| [level - 1, level, level + 1])
            .chain(ends)
            .collect()
    } else if kind == SWEPT {
        own.into_iter().chain([survey.z[0], highest]).collect()
    } else {
        own.to_vec()
    };
    levels.retain(|level| level.abs() <= MOST_HEIGHT);
    levels.sort_unstable();
    levels.dedup();
    levels
}

/// 'together they must equal 16,384 times twice the hull area. Raising the level mustn't raise the served figure.' All is served exactly
/// where no station is below, and nothing exactly where all are: a spot is never at a station.
fn served_facts(survey: &Survey, figures: &[(i32, Served)]) -> Result<(), String> {
    let hull = 16_384 * second::twice_hull_area(&survey.x, &survey.y) as u64;
    for &(level, Served { served, unserved }) in figures {
        let below = survey.z.iter().filter(|&&z| z < level).count();
        let fits = served.checked_add(unserved) == Some(hull)
            && (unserved == 0) == (below == 0)
            && (served == 0) == (below == survey.z.len());
        holds(
            fits,
            &format!("{served} and {unserved} at level {level} over a hull of {hull}"),
        )?;
    }
    let falling = figures
        .windows(2)
        .all(|pair| pair[0].1.served >= pair[1].1.served);
    holds(falling, "a higher level serves more")
}

/// Figures of square Q with heights 0, 10, 10, 0, straight, at rising levels.
type Figures = [(i32, Served); 4];

/// What is wrong with figures: none are right.
type Spoil = fn(&mut Figures);

const SPOILS: [(&str, Option<Spoil>); 7] = [
    ("right", None),
    (
        "one square too many",
        Some(|figures| figures[1].1.served += 1),
    ),
    (
        "one square too few",
        Some(|figures| figures[2].1.unserved -= 1),
    ),
    (
        "a square on the wrong side at the ends",
        Some(|figures| shift(&mut figures[0].1, 1)),
    ),
    (
        "all served where a station is below",
        Some(|figures| figures[1].1 = figures[0].1),
    ),
    (
        "nothing served where a station is not below",
        Some(|figures| figures[2].1 = figures[3].1),
    ),
    (
        "a higher level serves more",
        Some(|figures| shift(&mut figures[1].1, 1_589_120 - 32_639)),
    ),
];

/// Takes squares from the served ground to the unserved.
fn shift(figures: &mut Served, squares: u64) {
    figures.served -= squares;
    figures.unserved += squares;
}

/// Figures made wrong by hand, each of which the facts have to find.
pub fn spoiled() -> Part {
    Part::once("served-facts", "facts alone".to_string(), &SPOILS, found)
}

fn found(spoil: Option<Spoil>) -> Outcome {
    let survey = Survey {
        x: vec![0, 8, 0, 8],
        y: vec![0, 0, 8, 8],
        z: vec![0, 10, 10, 0],
        level: 5,
        style: 0,
        number: Some(0),
    };
    let served = [2_097_152, 1_589_120, 32_640, 0];
    let of = |served: u64| Served {
        served,
        unserved: 2_097_152 - served,
    };
    let mut figures = [0, 1, 2, 3].map(|i| ([0, 5, 10, 11][i], of(served[i])));
    if let Some(spoil) = spoil {
        spoil(&mut figures);
    }
    let said = served_facts(&survey, &figures);
    holds(said.is_ok() == spoil.is_none(), "not judged as it is made").map_err(|fault| Difference {
        input: format!("{figures:?}"),
        said: fault,
    })
}

/// The figures of a survey's own level and style. Rooms that are too short are refused.
fn counted(survey: &Survey, kind: u32) -> Result<Result<Served, Refused>, String> {
    let needed = height_rooms(survey.x.len());
    agreed(COUNTS, |count| {
        let longer = needed.map(|length| length + SLACK);
        let answer = counted_in(count, survey, kind, longer)?;
        if answer.is_ok() {
            refuses_short_rooms(needed, |rooms| counted_in(count, survey, kind, rooms))?;
        }
        Ok(answer)
    })
}

/// The same in just as much room.
fn counted_alike(survey: &Survey, kind: u32) -> Result<Result<Served, Refused>, String> {
    let needed = height_rooms(survey.x.len());
    agreed(COUNTS, |count| counted_in(count, survey, kind, needed))
}

/// The count over the mesh of a kind in rooms of the given lengths, which are those of a height.
fn counted_in(
    count: Count,
    survey: &Survey,
    kind: u32,
    lengths: [usize; 2],
) -> Result<Result<Served, Refused>, String> {
    let Survey {
        x,
        y,
        z,
        level,
        style,
        ..
    } = survey;
    height_lent(x.len(), lengths, |slopes, work| {
        count(x, y, z, kind, *level, *style, slopes, work)
    })
}

pub fn served_called(call: &Call) -> Result<(), String> {
    let rooms = call.rooms.lengths(height_rooms(longest(&call.survey)));
    let answer = agreed(COUNTS, |count| {
        counted_in(count, &call.survey, call.kind, rooms)
    })?;
    answered(call, answer.map(|_| ()))
}

/// The numbers of the corner that is alone on its side of the level and of the two others.
type Numbers = [usize; 3];

const NUMBERINGS: [(&str, Numbers); 6] = [
    ("the alone corner lowest", [0, 1, 2]),
    ("the alone corner lowest, clockwise", [0, 2, 1]),
    ("the alone corner in the middle", [1, 2, 0]),
    ("the alone corner in the middle, clockwise", [1, 0, 2]),
    ("the alone corner highest", [2, 0, 1]),
    ("the alone corner highest, clockwise", [2, 1, 0]),
];

/// One triangle, cut at every pair of brackets, with the corner that is cut off below the level and not below it.
pub fn every(between: String) -> Part {
    Part::once("every-served", between, &NUMBERINGS, tried)
}

const BRACKETS: i32 = 64;

/// How far the level is from the height of the corner that is cut off: far enough for 64 different brackets.
const APART: i32 = 400;

fn tried(numbers: Numbers) -> Outcome {
    for sign in [1, -1] {
        let spots = RefCell::new(HashSet::new());
        for (one, other) in (0..BRACKETS * BRACKETS).map(|i| (i / BRACKETS, i % BRACKETS)) {
            compared(&cut(numbers, sign, one, other), |survey| {
                spots.borrow_mut().insert(cut_off(survey, numbers[0])?);
                Ok(())
            })?;
        }
        let all = spots.borrow().len() == (BRACKETS * BRACKETS) as usize;
        holds(all, "not every pair of brackets").map_err(|said| Difference {
            input: format!("{numbers:?}, {sign}"),
            said,
        })?;
    }
    Ok(())
}

/// A triangle whose first corner has height 0, and the others heights that the level passes in the given brackets: above it, or below it
/// where the sign is negative. A corner at the level itself is not below it.
fn cut(numbers: Numbers, sign: i32, one: i32, other: i32) -> Survey {
    const PLACES: [(u32, u32); 3] = [(0, 3), (8191, 0), (7, 8190)];
    let far = |bracket: i32| {
        let exact = BRACKETS * APART;
        sign * ((exact + bracket) / (bracket + 1))
    };
    let heights = [0, far(one), far(other)];
    let (mut x, mut y, mut z) = (vec![0; 3], vec![0; 3], vec![0; 3]);
    for (corner, &number) in numbers.iter().enumerate() {
        (x[number], y[number]) = PLACES[corner];
        z[number] = heights[corner];
    }
    Survey {
        x,
        y,
        z,
        level: if sign > 0 { APART } else { 1 - APART },
        style: 0,
        number: Some(0),
    }
}

/// The figures held against the vertices of the one line, which both are answers of the library: the corner that is alone makes a triangle
/// with them, and the other part is the rest. Answers the vertices.
fn cut_off(survey: &Survey, alone: usize) -> Result<Vec<(u32, u32)>, String> {
    let figures = counted_alike(survey, SWEPT)?.map_err(|refused| format!("{refused:?}"))?;
    let lined = agreed(LINES, |lines| lines_in(lines, survey, SWEPT, line_rooms(3)))?;
    let vertices: Vec<(u32, u32)> = lined
        .x
        .iter()
        .copied()
        .zip(lined.y.iter().copied())
        .collect();
    holds(vertices.len() == 2, "not one line of two vertices")?;
    let step = |to: (u32, u32)| {
        let from = (
            128 * i64::from(survey.x[alone]),
            128 * i64::from(survey.y[alone]),
        );
        (i64::from(to.0) - from.0, i64::from(to.1) - from.1)
    };
    let (one, other) = (step(vertices[0]), step(vertices[1]));
    let corner = (one.0 * other.1 - one.1 * other.0).unsigned_abs();
    let hull = 16_384 * second::twice_hull_area(&survey.x, &survey.y) as u64;
    let expected = if survey.z[alone] < survey.level {
        (hull - corner, corner)
    } else {
        (corner, hull - corner)
    };
    holds(
        (figures.served, figures.unserved) == expected,
        &format!("{figures:?}, where the vertices give {expected:?}"),
    )?;
    Ok(vertices)
}
