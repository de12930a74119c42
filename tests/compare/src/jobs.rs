//! The jobs over a survey: the programs that do each, and the facts that hold of it.

use crate::agree::{agreed, holds, proved, refuses_short_rooms, Program};
use crate::faults::Call;
use crate::lent::Lent;
use crate::random::Random;
use crate::surveys::{Place, Survey, MOST_COORDINATE, MOST_HEIGHT};
use second::{Drawn, Refused, FATTER, SWEPT};
use std::collections::{HashMap, HashSet};

pub type Check = fn(&[u32], &[u32], &[i32]) -> Result<(), Refused>;
pub type Mesh = fn(&[u32], &[u32], &[i32], u32, &mut [u16], &mut [u16]) -> Result<usize, Refused>;
pub type Slopes = fn(&[u32], &[u32], &[i32], &mut [i32]) -> Result<(), Refused>;
pub type Lines = fn(
    &[u32],
    &[u32],
    &[i32],
    u32,
    i32,
    u32,
    &mut [u32],
    &mut [u32],
    &mut [u16],
    &mut [i32],
    &mut [u16],
) -> Result<Drawn, Refused>;

pub type Height =
    fn(&[u32], &[u32], &[i32], u32, u32, u32, &mut [i32], &mut [u16]) -> Result<Found, Refused>;

/// What stands at a place, an interpolated height by its bits.
#[derive(Clone, Copy, Debug, PartialEq)]
pub enum Found {
    Own(i32),
    Between(u64),
    Outside,
}

impl From<second::Height> for Found {
    fn from(height: second::Height) -> Found {
        match height {
            second::Height::Own(z) => Found::Own(z),
            second::Height::Between(z) => Found::Between(z.to_bits()),
            second::Height::Outside => Found::Outside,
        }
    }
}

impl From<thawpebble::Height> for Found {
    fn from(height: thawpebble::Height) -> Found {
        match height {
            thawpebble::Height::Own(z) => Found::Own(z),
            thawpebble::Height::Between(z) => Found::Between(z.to_bits()),
            thawpebble::Height::Outside => Found::Outside,
        }
    }
}

/// What the proved library drew, as the second program has it.
pub fn as_second(thawpebble::Drawn { lines, vertices }: thawpebble::Drawn) -> Drawn {
    Drawn { lines, vertices }
}

pub const CHECKS: &[Program<Check>] = &[
    ("second", second::check),
    ("thawpebble", |x, y, z| proved(thawpebble::check(x, y, z))),
];

pub const MESHES: &[Program<Mesh>] = &[
    ("second", second::mesh),
    ("thawpebble", |x, y, z, kind, triangles, work| {
        proved(thawpebble::mesh(x, y, z, kind, triangles, work))
    }),
];

pub const SLOPES: &[Program<Slopes>] = &[
    ("second", second::slopes),
    ("thawpebble", |x, y, z, room| {
        proved(thawpebble::slopes(x, y, z, room))
    }),
];

pub const LINES: &[Program<Lines>] = &[
    ("second", second::lines),
    (
        "thawpebble",
        |x, y, z, kind, level, style, vertex_x, vertex_y, records, slopes, work| {
            proved(thawpebble::lines(
                x, y, z, kind, level, style, vertex_x, vertex_y, records, slopes, work,
            ))
            .map(as_second)
        },
    ),
];

pub const HEIGHTS: &[Program<Height>] = &[
    ("second", |x, y, z, kind, px, py, slopes, work| {
        second::height(x, y, z, kind, px, py, slopes, work).map(Found::from)
    }),
    ("thawpebble", |x, y, z, kind, px, py, slopes, work| {
        proved(thawpebble::height(x, y, z, kind, px, py, slopes, work)).map(Found::from)
    }),
];

/// How much longer than needed the rooms are lent.
pub const SLACK: usize = 5;

pub fn check(survey: &Survey) -> Result<(), String> {
    let Survey { x, y, z, .. } = survey;
    let answer = agreed(CHECKS, |check| Ok(check(x, y, z)))?;
    let number = answer.map_or_else(|refused| refused.number, |()| 0);
    holds(
        survey.number.is_none_or(|made| made == number),
        &format!("answered with {number} by all, which the lists as made do not give"),
    )
}

/// The mesh of either kind; where stations are many, kind 1 of some surveys.
pub fn mesh(survey: &Survey) -> Result<(), String> {
    let swept = mesh_of(survey, SWEPT).map_err(over(SWEPT))?;
    if FEW < survey.x.len() && !is_one_in(4, survey) {
        return Ok(());
    }
    let fatter = mesh_of(survey, FATTER).map_err(over(FATTER))?;
    fatter_facts(survey, &swept, &fatter)
}

/// A fault, with the kind of mesh that it comes over.
pub fn over(kind: u32) -> impl Fn(String) -> String {
    move |fault| format!("kind {kind}: {fault}")
}

/// The triangles of the mesh of one kind, which are none if the survey is refused.
pub fn mesh_of(survey: &Survey, kind: u32) -> Result<Vec<u16>, String> {
    let needed = mesh_rooms(survey.x.len());
    let meshed = agreed(MESHES, |mesh| {
        let meshed = mesh_in(mesh, survey, kind, needed.map(|length| length + SLACK))?;
        if meshed.answer.is_ok() {
            let short = |rooms| Ok(mesh_in(mesh, survey, kind, rooms)?.answer);
            refuses_short_rooms(needed, short)?;
        }
        Ok(meshed)
    })?;
    holds(
        meshed.answer.map(|_| ()) == checked(survey),
        "not refused as the survey is",
    )?;
    if meshed.answer.is_ok() {
        mesh_facts(survey, &meshed.triangles)?;
    }
    Ok(meshed.triangles)
}

/// The second program's refusals 1 to 4.
pub fn checked(survey: &Survey) -> Result<(), Refused> {
    second::check(&survey.x, &survey.y, &survey.z)
}

/// The mesh as a job gives it.
#[derive(Debug, PartialEq)]
struct Meshed {
    answer: Result<usize, Refused>,
    triangles: Vec<u16>,
}

/// 'triangles 3(2n-5) numbers', 'work room 16n'.
fn mesh_rooms(n: usize) -> [usize; 2] {
    [3 * (2 * n).saturating_sub(5), 16 * n]
}

/// The mesh in rooms of the given lengths.
fn mesh_in(mesh: Mesh, survey: &Survey, kind: u32, lengths: [usize; 2]) -> Result<Meshed, String> {
    let Survey { x, y, z, .. } = survey;
    let mut triangles = Lent::new(lengths[0]);
    let mut work = Lent::new(lengths[1]);
    let answer = mesh(x, y, z, kind, triangles.slice(), work.slice());
    let written = 3 * answer.unwrap_or(0);
    let worked = match answer {
        Ok(_) => work.is_zeroed_to(16 * x.len()),
        Err(_) => work.is_kept(),
    };
    holds(
        worked && triangles.is_kept_from(written),
        "the rooms are not left as promised",
    )?;
    Ok(Meshed {
        answer,
        triangles: triangles.first(written).to_vec(),
    })
}

/// Each triangle has its lowest station first and goes counterclockwise; no two have a side running the same way; and
/// with b hull sides there are 2n-b-2 triangles.
fn mesh_facts(survey: &Survey, triangles: &[u16]) -> Result<(), String> {
    let sides = sides_of(triangles);
    for corners in triangles.chunks(3) {
        let [a, b, c] = [corners[0], corners[1], corners[2]];
        holds(
            a < b && a < c,
            "a triangle without its lowest station first",
        )?;
        let [a, b, c] = [a, b, c].map(|station| place_of(survey, station));
        let twice = (b.0 - a.0) * (c.1 - a.1) - (b.1 - a.1) * (c.0 - a.0);
        holds(twice > 0, "a triangle that is not counterclockwise")?;
    }
    holds(
        sides.len() == triangles.len(),
        "two triangles on one side of a side",
    )?;
    let hull = hull_of(&sides).len();
    let count = triangles.len() / 3;
    holds(
        count + hull + 2 == 2 * survey.x.len(),
        "not 2n-b-2 triangles",
    )
}

fn place_of(survey: &Survey, station: u16) -> (i64, i64) {
    let station = usize::from(station);
    (i64::from(survey.x[station]), i64::from(survey.y[station]))
}

/// The sides that one triangle alone has.
pub fn hull_of(sides: &HashSet<(u16, u16)>) -> HashSet<(u16, u16)> {
    let alone = |&&(a, b): &&(u16, u16)| !sides.contains(&(b, a));
    sides.iter().filter(alone).copied().collect()
}

/// Kind 1 has the hull of kind 0, and with it the count of triangles and the area. Its triangles are listed by their three
/// numbers, and no far corner of one lies strictly inside the circle of the next.
fn fatter_facts(survey: &Survey, swept: &[u16], fatter: &[u16]) -> Result<(), String> {
    holds(
        hull_of(&sides_of(fatter)) == hull_of(&sides_of(swept)),
        "the kinds of mesh have different hulls",
    )?;
    let listed: Vec<&[u16]> = fatter.chunks(3).collect();
    holds(
        listed.windows(2).all(|pair| pair[0] < pair[1]),
        "the triangles of kind 1 are not listed by their numbers",
    )?;
    let around = |t: &[u16]| {
        [
            ((t[0], t[1]), t[2]),
            ((t[1], t[2]), t[0]),
            ((t[2], t[0]), t[1]),
        ]
    };
    let far: HashMap<(u16, u16), u16> = listed.into_iter().flat_map(around).collect();
    for (&(a, b), &left) in &far {
        if let Some(&right) = far.get(&(b, a)) {
            let corners = [a, b, left, right].map(|station| place_of(survey, station));
            holds(
                !fourth_inside(corners),
                "a far corner inside the circle of the next triangle",
            )?;
        }
    }
    Ok(())
}

/// Does the last of four places lie strictly inside the circle through the first three, which go counterclockwise and lie on
/// the other side of the line from the first to the second? It does exactly if the angles at the third and at the last, which
/// look at that line, are more than two right angles together: the sine of their sum is negative.
fn fourth_inside([a, b, c, d]: [(i64, i64); 4]) -> bool {
    let step = |from: (i64, i64), to: (i64, i64)| {
        let (dx, dy) = (to.0 - from.0, to.1 - from.1);
        (i128::from(dx), i128::from(dy))
    };
    let angle = |at: (i64, i64), one: (i64, i64), other: (i64, i64)| {
        let ((x1, y1), (x2, y2)) = (step(at, one), step(at, other));
        (x1 * y2 - y1 * x2, x1 * x2 + y1 * y2)
    };
    let ((sine_c, cosine_c), (sine_d, cosine_d)) = (angle(c, a, b), angle(d, b, a));
    sine_c * cosine_d + cosine_c * sine_d < 0
}

/// The sides of the triangles, each as it runs with its triangle on the left.
pub fn sides_of(triangles: &[u16]) -> HashSet<(u16, u16)> {
    let around = |t: &[u16]| [(t[0], t[1]), (t[1], t[2]), (t[2], t[0])];
    triangles.chunks(3).flat_map(around).collect()
}

pub fn slopes(survey: &Survey) -> Result<(), String> {
    let needed = [5 * survey.x.len()];
    let sloped = agreed(SLOPES, |slopes| {
        let sloped = slopes_in(slopes, survey, needed.map(|length| length + SLACK))?;
        if sloped.answer.is_ok() {
            refuses_short_rooms(needed, |rooms| Ok(slopes_in(slopes, survey, rooms)?.answer))?;
        }
        Ok(sloped)
    })?;
    holds(
        sloped.answer == checked(survey),
        "not refused as the survey is",
    )?;
    let in_cut = |slope: &i32| slope.unsigned_abs() <= MOST_SLOPE;
    holds(sloped.slopes.iter().all(in_cut), "a slope beyond the cut")
}

/// 'cut to within ±268,435,456'.
const MOST_SLOPE: u32 = 268_435_456;

/// The slopes as a job gives them.
#[derive(Debug, PartialEq)]
struct Sloped {
    answer: Result<(), Refused>,
    slopes: Vec<i32>,
}

/// The slopes in a room of the given length.
fn slopes_in(slopes: Slopes, survey: &Survey, [length]: [usize; 1]) -> Result<Sloped, String> {
    let Survey { x, y, z, .. } = survey;
    let mut room = Lent::new(length);
    let answer = slopes(x, y, z, room.slice());
    let written = if answer.is_ok() { 5 * x.len() } else { 0 };
    holds(
        room.is_kept_from(written),
        "the room is not left as promised",
    )?;
    Ok(Sloped {
        answer,
        slopes: room.first(written).to_vec(),
    })
}

/// The lines over the mesh of either kind; where stations are many, kind 1 of some surveys.
pub fn lines(survey: &Survey) -> Result<(), String> {
    lines_over(survey, SWEPT).map_err(over(SWEPT))?;
    if FEW < survey.x.len() && !is_one_in(8, survey) {
        return Ok(());
    }
    lines_over(survey, FATTER).map_err(over(FATTER))
}

fn lines_over(survey: &Survey, kind: u32) -> Result<(), String> {
    let needed = line_rooms(survey.x.len());
    let drawn = agreed(LINES, |lines| {
        let drawn = lines_in(lines, survey, kind, needed.map(|length| length + SLACK))?;
        if drawn.answer.is_ok() {
            let short = |rooms| Ok(lines_in(lines, survey, kind, rooms)?.answer);
            refuses_short_rooms(needed, short)?;
        }
        Ok(drawn)
    })?;
    let expected = checked(survey).and_then(|()| asked(survey));
    holds(
        drawn.answer.map(|_| ()) == expected,
        "not refused as the survey, the level and the style are",
    )?;
    if drawn.answer.is_err() {
        return Ok(());
    }
    let rooms = mesh_rooms(survey.x.len());
    let triangles = mesh_in(second::mesh, survey, kind, rooms)?.triangles;
    line_facts(survey, &triangles, &drawn)
}

/// 5: 'level, place, level list or style out of range'.
pub fn asked(survey: &Survey) -> Result<(), Refused> {
    if survey.level.unsigned_abs() > MOST_HEIGHT.unsigned_abs() || survey.style > 1 {
        return Err(Refused { number: 5, at: 0 });
    }
    Ok(())
}

/// 'line vertices 3n-6 each for x and y; line records (3n-6)/2 rounded down'; 'slope room 5n', 'work room 16n'.
pub fn line_rooms(n: usize) -> [usize; 5] {
    let vertices = (3 * n).saturating_sub(6);
    [vertices, vertices, vertices / 2, 5 * n, 16 * n]
}

/// The lines as a job gives them.
#[derive(Debug, PartialEq)]
pub struct Lined {
    pub answer: Result<Drawn, Refused>,
    pub x: Vec<u32>,
    pub y: Vec<u32>,
    pub records: Vec<u16>,
}

/// The lines over the mesh of a kind in rooms of the given lengths.
pub fn lines_in(
    lines: Lines,
    survey: &Survey,
    kind: u32,
    lengths: [usize; 5],
) -> Result<Lined, String> {
    let Survey {
        x,
        y,
        z,
        level,
        style,
        ..
    } = survey;
    lines_lent(
        x.len(),
        lengths,
        |vertex_x, vertex_y, records, slopes, work| {
            lines(
                x, y, z, kind, *level, *style, vertex_x, vertex_y, records, slopes, work,
            )
        },
    )
}

/// The lines of n stations in rooms of the given lengths, which have to be left as promised.
pub fn lines_lent(
    n: usize,
    lengths: [usize; 5],
    lines: impl FnOnce(
        &mut [u32],
        &mut [u32],
        &mut [u16],
        &mut [i32],
        &mut [u16],
    ) -> Result<Drawn, Refused>,
) -> Result<Lined, String> {
    let mut vertex_x = Lent::new(lengths[0]);
    let mut vertex_y = Lent::new(lengths[1]);
    let mut records = Lent::new(lengths[2]);
    let mut slopes = Lent::new(lengths[3]);
    let mut work = Lent::new(lengths[4]);
    let answer = lines(
        vertex_x.slice(),
        vertex_y.slice(),
        records.slice(),
        slopes.slice(),
        work.slice(),
    );
    let drawn = answer.unwrap_or(Drawn {
        lines: 0,
        vertices: 0,
    });
    let worked = match answer {
        Ok(_) => slopes.is_zeroed_to(5 * n) && work.is_zeroed_to(16 * n),
        Err(_) => slopes.is_kept() && work.is_kept(),
    };
    let kept = vertex_x.is_kept_from(drawn.vertices)
        && vertex_y.is_kept_from(drawn.vertices)
        && records.is_kept_from(drawn.lines);
    holds(worked && kept, "the rooms are not left as promised")?;
    Ok(Lined {
        answer,
        x: vertex_x.first(drawn.vertices).to_vec(),
        y: vertex_y.first(drawn.vertices).to_vec(),
        records: records.first(drawn.lines).to_vec(),
    })
}

/// Each crossed side gives one vertex; an open line has two at least, a closed one three; the open ones come first.
pub fn line_facts(survey: &Survey, triangles: &[u16], lined: &Lined) -> Result<(), String> {
    let Ok(drawn) = lined.answer else {
        return Ok(());
    };
    let long_enough = |&record: &u16| record / 2 >= 2 + record % 2;
    holds(
        lined.records.iter().all(long_enough),
        "a line with too few vertices",
    )?;
    let open_first = lined.records.is_sorted_by_key(|record| record % 2);
    holds(open_first, "an open line after a closed one")?;
    let recorded: usize = lined
        .records
        .iter()
        .map(|record| usize::from(record / 2))
        .sum();
    holds(
        recorded == drawn.vertices,
        "the records do not add up to the vertices",
    )?;
    holds(
        crossed_sides(survey, triangles) == drawn.vertices,
        "not one vertex for each crossed side",
    )
}

/// How many sides of the triangles have one end below the level and the other not.
fn crossed_sides(survey: &Survey, triangles: &[u16]) -> usize {
    let below = |station: u16| survey.z[usize::from(station)] < survey.level;
    let sides: HashSet<(u16, u16)> = sides_of(triangles)
        .into_iter()
        .map(|(a, b)| (a.min(b), a.max(b)))
        .collect();
    sides.iter().filter(|&&(a, b)| below(a) != below(b)).count()
}

/// How many places of a survey are looked at: fewer where stations are many, as each place is a job of its own.
fn place_count(n: usize) -> usize {
    if n <= FEW {
        32
    } else {
        12
    }
}

pub const FEW: usize = 40;

/// Whether a survey is one of those, one in so many, for which more is asked: its numbers alone decide.
pub fn is_one_in(many: i64, survey: &Survey) -> bool {
    let places: i64 = survey
        .x
        .iter()
        .chain(&survey.y)
        .copied()
        .map(i64::from)
        .sum();
    let heights: i64 = survey.z.iter().copied().map(i64::from).sum();
    (places + heights) % many == 0
}

/// The height at places of a survey: on stations, on sides, near them, in the corners of the range, anywhere, and out of
/// range in x alone and in y alone. Kind 1 is another list of triangles for the same steps: it has some of the places within, and
/// where stations are many one place of some surveys, since each place is a mesh of its own.
pub fn height(survey: &Survey) -> Result<(), String> {
    let places = places(survey);
    heights_over(survey, SWEPT, &places).map_err(over(SWEPT))?;
    let (one_in, most) = match survey.x.len() {
        n if n <= FEW => (3, usize::MAX),
        _ if is_one_in(16, survey) => (4, 1),
        _ => return Ok(()),
    };
    let some: Vec<Place> = places
        .into_iter()
        .skip(6)
        .step_by(one_in)
        .take(most)
        .collect();
    heights_over(survey, FATTER, &some).map_err(over(FATTER))
}

fn heights_over(survey: &Survey, kind: u32, places: &[Place]) -> Result<(), String> {
    let rooms = height_rooms(survey.x.len());
    for (number, &place) in places.iter().enumerate() {
        let answer = agreed(HEIGHTS, |height| {
            let longer = rooms.map(|length| length + SLACK);
            let answer = height_in(height, survey, kind, place, longer)?;
            if answer.is_ok() && number == 0 {
                let short = |rooms| height_in(height, survey, kind, place, rooms);
                refuses_short_rooms(rooms, short)?;
            }
            Ok(answer)
        })
        .map_err(|fault| format!("at {place:?}: {fault}"))?;
        let in_range = place.0 <= MOST_COORDINATE && place.1 <= MOST_COORDINATE;
        let expected = checked(survey).and(if in_range {
            Ok(())
        } else {
            Err(Refused { number: 5, at: 0 })
        });
        holds(
            answer.map(|_| ()) == expected,
            "not refused as the survey and the place are",
        )?;
        if let Ok(found) = answer {
            height_facts(survey, place, found)?;
        }
    }
    Ok(())
}

/// 'work room 16n', 'slope room 5n also for height and lines'.
pub fn height_rooms(n: usize) -> [usize; 2] {
    [5 * n, 16 * n]
}

/// Places that the survey's own numbers fix.
pub fn places(survey: &Survey) -> Vec<Place> {
    let (x, y) = (&survey.x, &survey.y);
    let mut places = vec![
        (0, 0),
        (MOST_COORDINATE, 0),
        (0, MOST_COORDINATE),
        (MOST_COORDINATE, MOST_COORDINATE),
        (MOST_COORDINATE + 1, 0),
        (0, MOST_COORDINATE + 1),
    ];
    let known = x.len().min(y.len());
    if known == 0 {
        return places;
    }
    let mut random = Random::of_case(u64::from(x[0]), "places", x.len() as u64);
    while places.len() < place_count(known) {
        let [a, b, c] = [(); 3].map(|()| random.below(known));
        let middle = |list: &[u32]| ((u64::from(list[a]) + u64::from(list[b])) / 2) as u32;
        let weights = [(); 3].map(|()| 1 + random.below(100) as u64);
        let within = |list: &[u32]| {
            let corners = [a, b, c].map(|station| u64::from(list[station]));
            let weighted: u64 = (0..3).map(|i| weights[i] * corners[i]).sum();
            (weighted / weights.iter().sum::<u64>()) as u32
        };
        places.push(match places.len() % 8 {
            0 => (x[a], y[a]),
            1 => (x[a] ^ 1, y[a]),
            2 | 3 => (middle(x), middle(y)),
            _ => (within(x), within(y)),
        });
    }
    places
}

/// The height at a place over the mesh of a kind in rooms of the given lengths.
fn height_in(
    height: Height,
    survey: &Survey,
    kind: u32,
    place: Place,
    lengths: [usize; 2],
) -> Result<Result<Found, Refused>, String> {
    let Survey { x, y, z, .. } = survey;
    height_lent(x.len(), lengths, |slopes, work| {
        height(x, y, z, kind, place.0, place.1, slopes, work)
    })
}

/// The height over n stations, or what else takes the same rooms, in rooms of the given lengths, which have to be left as promised.
pub fn height_lent<T>(
    n: usize,
    lengths: [usize; 2],
    height: impl FnOnce(&mut [i32], &mut [u16]) -> Result<T, Refused>,
) -> Result<Result<T, Refused>, String> {
    let mut slopes = Lent::new(lengths[0]);
    let mut work = Lent::new(lengths[1]);
    let answer = height(slopes.slice(), work.slice());
    let worked = match answer {
        Ok(_) => slopes.is_zeroed_to(5 * n) && work.is_zeroed_to(16 * n),
        Err(_) => slopes.is_kept() && work.is_kept(),
    };
    holds(worked, "the rooms are not left as promised")?;
    Ok(answer)
}

/// 'A place on a station gives that z exactly', and no other place does.
pub fn height_facts(survey: &Survey, place: Place, found: Found) -> Result<(), String> {
    let own = (0..survey.x.len()).find(|&k| (survey.x[k], survey.y[k]) == place);
    holds(
        match found {
            Found::Own(z) => own.is_some_and(|k| survey.z[k] == z),
            Found::Between(_) | Found::Outside => own.is_none(),
        },
        "not a station's own height exactly on a station",
    )
}

/// 'Negating all heights must then negate every slope exactly', and with it the height at every place, but for the sign of a zero: an
/// f64 is rounded alike on either side of it.
pub fn negated(survey: &Survey) -> Result<(), String> {
    let negated = &Survey {
        z: survey.z.iter().map(|z| -z).collect(),
        ..survey.clone()
    };
    let n = survey.x.len();
    let slopes_of = |survey| agreed(SLOPES, |slopes| slopes_in(slopes, survey, [5 * n]));
    let (slopes, of_negated) = (slopes_of(survey)?.slopes, slopes_of(negated)?.slopes);
    holds(
        slopes.into_iter().map(|slope| -slope).eq(of_negated),
        "a slope that negated heights do not negate",
    )?;
    for place in places(survey) {
        let found_in = |survey| {
            agreed(HEIGHTS, |height| {
                height_in(height, survey, SWEPT, place, height_rooms(n))
            })
        };
        let opposite = match (found_in(survey)?, found_in(negated)?) {
            (Ok(Found::Own(one)), Ok(Found::Own(other))) => one == -other,
            (Ok(Found::Between(one)), Ok(Found::Between(other))) => {
                f64::from_bits(one) == -f64::from_bits(other)
            }
            (one, other) => one == other,
        };
        holds(
            opposite,
            &format!("at {place:?}: a height that negated heights do not negate"),
        )?;
    }
    Ok(())
}

/// Is a call answered as the order of the refusals has it?
pub fn answered(call: &Call, answer: Result<(), Refused>) -> Result<(), String> {
    let expected = call.expected;
    holds(
        answer == expected,
        &format!("answered with {answer:?} by all, where the faults give {expected:?}"),
    )
}

/// The count of stations for which the rooms of a call are measured. Lists that differ in length have no count: the longest is
/// taken.
pub fn longest(survey: &Survey) -> usize {
    survey.x.len().max(survey.y.len()).max(survey.z.len())
}

pub fn check_called(call: &Call) -> Result<(), String> {
    let Survey { x, y, z, .. } = &call.survey;
    answered(call, agreed(CHECKS, |check| Ok(check(x, y, z)))?)
}

pub fn mesh_called(call: &Call) -> Result<(), String> {
    let rooms = call.rooms.lengths(mesh_rooms(longest(&call.survey)));
    let meshed = agreed(MESHES, |mesh| mesh_in(mesh, &call.survey, call.kind, rooms))?;
    answered(call, meshed.answer.map(|_| ()))
}

pub fn slopes_called(call: &Call) -> Result<(), String> {
    let rooms = call.rooms.lengths([5 * longest(&call.survey)]);
    let sloped = agreed(SLOPES, |slopes| slopes_in(slopes, &call.survey, rooms))?;
    answered(call, sloped.answer)
}

pub fn lines_called(call: &Call) -> Result<(), String> {
    let rooms = call.rooms.lengths(line_rooms(longest(&call.survey)));
    let drawn = agreed(LINES, |lines| {
        lines_in(lines, &call.survey, call.kind, rooms)
    })?;
    answered(call, drawn.answer.map(|_| ()))
}

pub fn height_called(call: &Call) -> Result<(), String> {
    let rooms = call.rooms.lengths(height_rooms(longest(&call.survey)));
    let answer = agreed(HEIGHTS, |height| {
        height_in(height, &call.survey, call.kind, call.place, rooms)
    })?;
    answered(call, answer.map(|_| ()))
}
