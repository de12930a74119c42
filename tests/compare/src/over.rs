//! The jobs over a mesh that is handed in: the programs that do each, and the facts that hold of it.

use crate::agree::{agreed, holds, proved, refuses_short_rooms, Program};
use crate::jobs::{
    answered, as_second, asked, checked, height_facts, height_lent, height_rooms, hull_of,
    line_facts, line_rooms, lines_lent, longest, places, sides_of, Found, Lined, FEW, SLACK,
};
use crate::supplied::Supplied;
use crate::supplied_faults::Handing;
use crate::surveys::{Place, Survey, MOST_COORDINATE};
use second::{Drawn, Refused};

pub type CheckMesh = fn(&[u32], &[u32], &[i32], &[u16]) -> Result<(), Refused>;
pub type HeightOver =
    fn(&[u32], &[u32], &[i32], &[u16], u32, u32, &mut [i32], &mut [u16]) -> Result<Found, Refused>;
pub type LinesOver = fn(
    &[u32],
    &[u32],
    &[i32],
    &[u16],
    i32,
    u32,
    &mut [u32],
    &mut [u32],
    &mut [u16],
    &mut [i32],
    &mut [u16],
) -> Result<Drawn, Refused>;

pub const MESH_CHECKS: &[Program<CheckMesh>] = &[
    ("second", second::check_mesh),
    ("thawpebble", |x, y, z, triangles| {
        proved(thawpebble::check_mesh(x, y, z, triangles))
    }),
];

pub const HEIGHTS_OVER: &[Program<HeightOver>] = &[
    ("second", |x, y, z, triangles, px, py, slopes, work| {
        second::height_over(x, y, z, triangles, px, py, slopes, work).map(Found::from)
    }),
    ("thawpebble", |x, y, z, triangles, px, py, slopes, work| {
        let answer = thawpebble::height_over(x, y, z, triangles, px, py, slopes, work);
        proved(answer).map(Found::from)
    }),
];

pub const LINES_OVER: &[Program<LinesOver>] = &[
    ("second", second::lines_over),
    (
        "thawpebble",
        |x, y, z, triangles, level, style, vertex_x, vertex_y, records, slopes, work| {
            let answer = thawpebble::lines_over(
                x, y, z, triangles, level, style, vertex_x, vertex_y, records, slopes, work,
            );
            proved(answer).map(as_second)
        },
    ),
];

pub fn check_mesh(supplied: &Supplied) -> Result<(), String> {
    judged(supplied).map(|_| ())
}

/// What the programs say of a mesh: it is accepted where it was made right, and refused where it was made wrong.
fn judged(supplied: &Supplied) -> Result<Result<(), Refused>, String> {
    let Supplied {
        survey,
        triangles,
        right,
    } = supplied;
    let Survey { x, y, z, .. } = survey;
    let answer = agreed(MESH_CHECKS, |check| Ok(check(x, y, z, triangles)))?;
    holds(
        right.is_none_or(|right| right == answer.is_ok()),
        &format!("answered with {answer:?} by all, which the mesh as made does not give"),
    )?;
    match answer {
        Ok(()) => accepted_facts(x.len(), triangles)?,
        Err(Refused { number: 9, at }) => holds(
            checked(survey).is_ok() && at as usize <= triangles.len() / 3,
            "9 before a refusal of the survey, or beyond the triangles",
        )?,
        refused => holds(refused == checked(survey), "not refused as the survey is")?,
    }
    Ok(answer)
}

/// No two triangles of an accepted mesh have a side running the same way, and with b hull sides there are 2n-b-2.
fn accepted_facts(n: usize, triangles: &[u16]) -> Result<(), String> {
    let sides = sides_of(triangles);
    holds(
        sides.len() == triangles.len(),
        "two triangles on one side of a side",
    )?;
    holds(
        triangles.len() / 3 + hull_of(&sides).len() + 2 == 2 * n,
        "not 2n-b-2 triangles",
    )
}

/// The height at some of the survey's places: on stations, on sides and near them, within, and out of range; where stations are many, at
/// two on sides.
pub fn height_over(supplied: &Supplied) -> Result<(), String> {
    let judged = judged(supplied)?;
    let survey = &supplied.survey;
    let n = survey.x.len();
    let (first, step) = if n <= FEW { (1, 3) } else { (10, 1) };
    let places = places(survey).into_iter().skip(first).step_by(step);
    for (number, place) in places.enumerate() {
        let rooms = height_rooms(n);
        let answer = agreed(HEIGHTS_OVER, |height| {
            let longer = rooms.map(|length| length + SLACK);
            let answer = height_in(height, supplied, place, longer)?;
            if answer.is_ok() && number == 0 {
                refuses_short_rooms(rooms, |rooms| height_in(height, supplied, place, rooms))?;
            }
            Ok(answer)
        })
        .map_err(|fault| format!("at {place:?}: {fault}"))?;
        let in_range = place.0 <= MOST_COORDINATE && place.1 <= MOST_COORDINATE;
        let beyond = Refused { number: 5, at: 0 };
        let expected = judged.and(if in_range { Ok(()) } else { Err(beyond) });
        holds(
            answer.map(|_| ()) == expected,
            "not refused as the mesh and the place are",
        )?;
        if let Ok(found) = answer {
            height_facts(survey, place, found)?;
        }
    }
    Ok(())
}

fn height_in(
    height: HeightOver,
    supplied: &Supplied,
    place: Place,
    lengths: [usize; 2],
) -> Result<Result<Found, Refused>, String> {
    let Survey { x, y, z, .. } = &supplied.survey;
    let triangles = &supplied.triangles;
    height_lent(x.len(), lengths, |slopes, work| {
        height(x, y, z, triangles, place.0, place.1, slopes, work)
    })
}

pub fn lines_over(supplied: &Supplied) -> Result<(), String> {
    let judged = judged(supplied)?;
    let Supplied {
        survey, triangles, ..
    } = supplied;
    let needed = line_rooms(survey.x.len());
    let drawn = agreed(LINES_OVER, |lines| {
        let drawn = lines_in(lines, supplied, needed.map(|length| length + SLACK))?;
        if drawn.answer.is_ok() {
            let short = |rooms| Ok(lines_in(lines, supplied, rooms)?.answer);
            refuses_short_rooms(needed, short)?;
        }
        Ok(drawn)
    })?;
    holds(
        drawn.answer.map(|_| ()) == judged.and_then(|()| asked(survey)),
        "not refused as the mesh, the level and the style are",
    )?;
    line_facts(survey, triangles, &drawn)
}

pub fn lines_in(
    lines: LinesOver,
    supplied: &Supplied,
    lengths: [usize; 5],
) -> Result<Lined, String> {
    let Survey {
        x,
        y,
        z,
        level,
        style,
        ..
    } = &supplied.survey;
    let triangles = &supplied.triangles;
    lines_lent(
        x.len(),
        lengths,
        |vertex_x, vertex_y, records, slopes, work| {
            lines(
                x, y, z, triangles, *level, *style, vertex_x, vertex_y, records, slopes, work,
            )
        },
    )
}

pub fn check_mesh_called(Handing { call, supplied }: &Handing) -> Result<(), String> {
    let Survey { x, y, z, .. } = &supplied.survey;
    let triangles = &supplied.triangles;
    answered(
        call,
        agreed(MESH_CHECKS, |check| Ok(check(x, y, z, triangles)))?,
    )
}

pub fn height_over_called(Handing { call, supplied }: &Handing) -> Result<(), String> {
    let rooms = call.rooms.lengths(height_rooms(longest(&call.survey)));
    let answer = agreed(HEIGHTS_OVER, |height| {
        height_in(height, supplied, call.place, rooms)
    })?;
    answered(call, answer.map(|_| ()))
}

pub fn lines_over_called(Handing { call, supplied }: &Handing) -> Result<(), String> {
    let rooms = call.rooms.lengths(line_rooms(longest(&call.survey)));
    let drawn = agreed(LINES_OVER, |lines| lines_in(lines, supplied, rooms))?;
    answered(call, drawn.answer.map(|_| ()))
}
