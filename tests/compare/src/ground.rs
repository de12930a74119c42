//! What a reader of the map may rely on, in the answers that the programs agree on: the triangles cover the ground, none over another; in
//! one style no drawn segment crosses another, nor do lines that touch change sides; each has its triangle's corners on its two sides, meets
//! no other side of the mesh, and no station is on it. Document 02, L11.

use crate::agree::{agreed, holds};
use crate::jobs::{self, line_rooms, mesh_of, places, Lined, FEW, LINES};
use crate::over::{self, LINES_OVER};
use crate::random::Random;
use crate::run::{compared, Difference, Kind, Outcome, Part};
use crate::supplied::{supplied, Made, Supplied};
use crate::surveys::{on_one_line, Place, Survey, MOST_HEIGHT, SOUND};
use crate::swaps::SWAPS;
use second::{FATTER, SWEPT};
use std::cell::Cell;
use std::collections::HashSet;
use std::ops::RangeInclusive;

/// A place on the map, in 128ths of the survey's unit.
type Point = (i64, i64);

/// What is drawn from one vertex of a line to the next.
type Segment = [Point; 2];

/// What makes a survey.
pub type Make = fn(&mut Random) -> Survey;

/// The families of accepted surveys.
pub fn kinds() -> Vec<Kind<Make>> {
    let named = |&(name, make): &(&str, Make)| (name.to_string(), make);
    SOUND.iter().chain(SWAPS).map(named).collect()
}

/// A survey of few stations, since segments are looked at in pairs: of many, the first ones, and as many more as it takes to leave a line.
pub fn few(make: &Make, random: &mut Random) -> Survey {
    let mut survey = make(random);
    let (x, y) = (survey.x.iter().copied(), survey.y.iter().copied());
    let places: Vec<Place> = x.zip(y).collect();
    let mut kept = places.len().min(FEW);
    while on_one_line(&places[..kept]) {
        kept += 1;
    }
    survey.x.truncate(kept);
    survey.y.truncate(kept);
    survey.z.truncate(kept);
    survey
}

/// A mesh over few stations.
pub fn few_over(made: &Made, random: &mut Random) -> Supplied {
    loop {
        let supplied = supplied(made, random);
        if supplied.survey.x.len() <= FEW {
            return supplied;
        }
    }
}

/// The ground under the mesh of either kind.
pub fn ground(survey: &Survey) -> Result<(), String> {
    seen_over(survey, SWEPT)?;
    seen_over(survey, FATTER).map(|_| ())
}

fn seen_over(survey: &Survey, kind: u32) -> Result<Seen, String> {
    let rooms = line_rooms(survey.x.len());
    let seen = || {
        seen(survey, &mesh_of(survey, kind)?, |asked| {
            agreed(LINES, |lines| jobs::lines_in(lines, asked, kind, rooms))
        })
    };
    seen().map_err(jobs::over(kind))
}

/// The ground under a mesh that is handed in.
pub fn ground_over(supplied: &Supplied) -> Result<(), String> {
    let Supplied {
        survey, triangles, ..
    } = supplied;
    let rooms = line_rooms(survey.x.len());
    let seen = seen(survey, triangles, |asked| {
        let asked = Supplied {
            survey: asked.clone(),
            ..supplied.clone()
        };
        agreed(LINES_OVER, |lines| over::lines_in(lines, &asked, rooms))
    });
    seen.map(|_| ())
}

/// How much was looked at.
#[derive(Clone, Copy, Default)]
struct Seen {
    /// Places in the hull, and others.
    inside: usize,
    outside: usize,
    segments: usize,
    /// Pairs of segments of two levels that have one end in common, and that have both.
    touching: usize,
    equal: usize,
}

impl Seen {
    fn and(self, other: Seen) -> Seen {
        Seen {
            inside: self.inside + other.inside,
            outside: self.outside + other.outside,
            segments: self.segments + other.segments,
            touching: self.touching + other.touching,
            equal: self.equal + other.equal,
        }
    }
}

/// Looks at places of the ground, and at the lines of some levels in either style; `lined` draws those of a survey's level and style.
/// There are places in the hull and outside it, and segments unless all heights are equal.
fn seen(
    survey: &Survey,
    triangles: &[u16],
    lined: impl Fn(&Survey) -> Result<Lined, String>,
) -> Result<Seen, String> {
    let map = Map { survey, triangles };
    let mut seen = map.covered()?;
    for style in [0, 1] {
        let mut drawn: Vec<Vec<Segment>> = Vec::new();
        let mut parted: Vec<(i32, Vec<Option<Segment>>)> = Vec::new();
        for level in levels(survey) {
            let at = |fault: String| format!("level {level}, style {style}: {fault}");
            let asked = Survey {
                level,
                style,
                ..survey.clone()
            };
            let lined = lined(&asked).map_err(at)?;
            holds(lined.answer.is_ok(), "refused").map_err(at)?;
            let segments = segments(&lined);
            parted.push((level, map.parted(level, &segments).map_err(at)?));
            map.apart(&lined, &segments).map_err(at)?;
            drawn.push(segments);
        }
        let crossed = |fault: String| format!("style {style}: {fault}");
        seen = seen.and(uncrossed(&drawn).map_err(crossed)?);
        map.nested(&parted).map_err(crossed)?;
    }
    let level_ground = survey.z.iter().all(|&z| z == survey.z[0]);
    holds(
        seen.inside > 0 && seen.outside > 0 && (seen.segments > 0 || level_ground),
        "there is nothing to look at",
    )?;
    Ok(seen)
}

/// The survey's own level, one of its heights, those next to either, and its greatest height, which all lesser ones are below; rising.
fn levels(survey: &Survey) -> Vec<i32> {
    let near = [survey.level, survey.z[0]].map(|level| [level - 1, level, level + 1]);
    let highest = survey.z.iter().copied().max();
    let mut levels: Vec<i32> = near.into_iter().flatten().chain(highest).collect();
    levels.retain(|level| level.abs() <= MOST_HEIGHT);
    levels.sort_unstable();
    levels.dedup();
    levels
}

/// Each vertex of a line joined to the next, and the last of a closed line to its first.
fn segments(lined: &Lined) -> Vec<Segment> {
    let mut vertices = vertices(lined).into_iter();
    let mut segments = Vec::new();
    for &record in &lined.records {
        let line: Vec<Point> = vertices.by_ref().take(usize::from(record / 2)).collect();
        let next = line.iter().cycle().skip(1);
        let joined = (line.len() + usize::from(record % 2)).saturating_sub(1);
        let pairs = line.iter().zip(next).take(joined);
        segments.extend(pairs.map(|(&from, &to)| [from, to]));
    }
    segments
}

fn vertices(lined: &Lined) -> Vec<Point> {
    let places = lined.x.iter().zip(&lined.y);
    places
        .map(|(&x, &y)| (i64::from(x), i64::from(y)))
        .collect()
}

/// Twice the area of the triangle of three places: positive where the third is left of the way from the first to the second,
/// negative where it is right of it, zero where they are on one line.
fn turn(a: Point, b: Point, c: Point) -> i64 {
    (b.0 - a.0) * (c.1 - a.1) - (b.1 - a.1) * (c.0 - a.0)
}

/// Where a place on one line with two others stands: negative between them, zero at one of them, positive beyond.
fn beyond([a, b]: Segment, place: Point) -> i64 {
    (a.0 - place.0) * (b.0 - place.0) + (a.1 - place.1) * (b.1 - place.1)
}

fn strictly_between(ends: Segment, place: Point) -> bool {
    turn(ends[0], ends[1], place) == 0 && beyond(ends, place) < 0
}

fn on(segment: Segment, place: Point) -> bool {
    turn(segment[0], segment[1], place) == 0 && beyond(segment, place) <= 0
}

/// Does a segment go from strictly between the ends of one side to strictly between those of another?
fn joins([from, to]: Segment, sides: &[Segment]) -> bool {
    let of = |place: Point| sides.iter().position(|&side| strictly_between(side, place));
    of(from).is_some() && of(to).is_some() && of(from) != of(to)
}

/// To cross properly is to have the ends of each strictly on the two sides of the other's line.
fn cross(one: Segment, other: Segment) -> bool {
    let parts =
        |[a, b]: Segment, [c, d]: Segment| turn(a, b, c).signum() * turn(a, b, d).signum() < 0;
    parts(one, other) && parts(other, one)
}

/// Two segments of one line of the plane, of which one goes on inside the other, though they are not one.
fn overlap(one: Segment, other: Segment) -> bool {
    let along = |[a, b]: Segment, [c, d]: Segment| turn(a, b, c) == 0 && turn(a, b, d) == 0;
    let within = |one: Segment, other: Segment| other.iter().any(|&end| strictly_between(one, end));
    along(one, other) && (within(one, other) || within(other, one))
}

/// No two segments of the levels of one style cross, be they of two levels or of one; and those that meet inside both are one.
fn uncrossed(levels: &[Vec<Segment>]) -> Result<Seen, String> {
    let numbered = levels.iter().enumerate();
    let segments: Vec<(usize, Segment)> = numbered
        .flat_map(|(level, segments)| segments.iter().map(move |&segment| (level, segment)))
        .collect();
    let mut seen = Seen {
        segments: segments.len(),
        ..Seen::default()
    };
    for (number, &(level, one)) in segments.iter().enumerate() {
        for &(other_level, other) in &segments[..number] {
            if cross(one, other) || overlap(one, other) {
                return Err(format!("{one:?} and {other:?} cross"));
            }
            if level != other_level {
                match one.iter().filter(|end| other.contains(end)).count() {
                    0 => (),
                    1 => seen.touching += 1,
                    _ => seen.equal += 1,
                }
            }
        }
    }
    Ok(seen)
}

/// The sides of a triangle as its corners go round.
fn around([a, b, c]: [usize; 3]) -> [(usize, usize); 3] {
    [(a, b), (b, c), (c, a)]
}

/// The stations of a survey joined by the triangles of a mesh.
struct Map<'a> {
    survey: &'a Survey,
    triangles: &'a [u16],
}

impl Map<'_> {
    fn at(&self, station: usize) -> Point {
        let whole = |c: u32| 128 * i64::from(c);
        (whole(self.survey.x[station]), whole(self.survey.y[station]))
    }

    fn stations(&self) -> impl Iterator<Item = Point> + '_ {
        (0..self.survey.x.len()).map(|station| self.at(station))
    }

    fn corners(&self) -> impl Iterator<Item = [usize; 3]> + '_ {
        let triangles = self.triangles.chunks(3);
        triangles.map(|corners| [0, 1, 2].map(|corner| usize::from(corners[corner])))
    }

    fn side(&self, (from, to): (usize, usize)) -> Segment {
        [self.at(from), self.at(to)]
    }

    /// A place is in some triangle, edges counted, exactly if it is in the hull, and it is strictly inside one at most.
    fn covered(&self) -> Result<Seen, String> {
        let side = |side| self.side(side);
        let hull = second::hull_sides(&self.survey.x, &self.survey.y);
        let hull: Vec<Segment> = hull.into_iter().map(side).collect();
        let triangles: Vec<[Segment; 3]> = self
            .corners()
            .map(|corners| around(corners).map(side))
            .collect();
        let mut seen = Seen::default();
        for place in self.places() {
            let left_of = |&[from, to]: &Segment| turn(from, to, place);
            let in_hull = hull.iter().all(|side| left_of(side) >= 0);
            let least = |sides: &[Segment; 3]| sides.iter().map(left_of).min();
            let held = triangles.iter().any(|sides| least(sides) >= Some(0));
            let within = triangles.iter().filter(|sides| least(sides) > Some(0));
            holds(
                held == in_hull,
                &format!("{place:?}: in the hull {in_hull}, in some triangle {held}"),
            )?;
            holds(
                within.count() <= 1,
                &format!("{place:?}: strictly inside two triangles"),
            )?;
            seen.inside += usize::from(in_hull);
            seen.outside += usize::from(!in_hull);
        }
        Ok(seen)
    }

    /// All whole-number places from one short of the least x and y to one past the greatest; where these are many, those at which a height
    /// is asked, and those next to them.
    fn places(&self) -> Vec<Point> {
        const MANY: i64 = 600;
        let range = |list: &[u32]| {
            let wide = || list.iter().copied().map(i64::from);
            wide().min().unwrap_or(0) - 1..=wide().max().unwrap_or(0) + 1
        };
        let (x, y) = (range(&self.survey.x), range(&self.survey.y));
        let box_of = |x: RangeInclusive<i64>, y: RangeInclusive<i64>| {
            x.flat_map(move |x| y.clone().map(move |y| (128 * x, 128 * y)))
        };
        let length = |range: &RangeInclusive<i64>| range.end() - range.start() + 1;
        if length(&x) * length(&y) <= MANY {
            return box_of(x, y).collect();
        }
        let next_to = |c: u32| i64::from(c) - 1..=i64::from(c) + 1;
        let asked = places(self.survey).into_iter();
        asked
            .flat_map(|(x, y)| box_of(next_to(x), next_to(y)))
            .collect()
    }

    /// A side is crossed if one of its ends is below the level and the other is not. Each triangle with crossed sides has one segment, which
    /// parts its corners; each other one has none; and each segment is that of one triangle. The segments, triangle by triangle.
    fn parted(&self, level: i32, segments: &[Segment]) -> Result<Vec<Option<Segment>>, String> {
        let below = |station: usize| self.survey.z[station] < level;
        let mut triangles_of = vec![0; segments.len()];
        let mut parted = Vec::new();
        for corners in self.corners() {
            let is_crossed = |&(from, to): &(usize, usize)| below(from) != below(to);
            let sides = around(corners).into_iter().filter(is_crossed);
            let crossed: Vec<Segment> = sides.map(|side| self.side(side)).collect();
            // Of a triangle without crossed sides no segment can be found here: the last test sees one that is of no triangle.
            let numbers = 0..segments.len();
            let own: Vec<usize> = numbers
                .filter(|&number| joins(segments[number], &crossed))
                .collect();
            holds(
                own.len() == usize::from(!crossed.is_empty()),
                &format!("not one segment in {corners:?}, or one too many"),
            )?;
            parted.push(own.first().map(|&number| segments[number]));
            for number in own {
                triangles_of[number] += 1;
                holds(
                    self.parts(segments[number], corners, below),
                    &format!("the corners {corners:?} are not parted"),
                )?;
            }
        }
        holds(
            triangles_of.iter().all(|&count| count == 1),
            "a segment that is not in one triangle",
        )?;
        Ok(parted)
    }

    /// Lines that touch do not change sides: of two levels, in every triangle, no end of the lower one's segment is strictly on the side of a
    /// corner that is not below the higher one; and where only the lower one has a segment, all corners are below the higher.
    fn nested(&self, levels: &[(i32, Vec<Option<Segment>>)]) -> Result<(), String> {
        for (number, (higher, of_higher)) in levels.iter().enumerate() {
            for (lower, of_lower) in &levels[..number] {
                let both = of_lower.iter().zip(of_higher);
                for (corners, (low, high)) in self.corners().zip(both) {
                    let Some(ends) = low else { continue };
                    let mut over = corners
                        .into_iter()
                        .filter(|&corner| self.survey.z[corner] >= *higher);
                    let beyond = |corner: usize| match high {
                        None => true,
                        &Some([from, to]) => {
                            let hand = turn(from, to, self.at(corner)).signum();
                            ends.iter().any(|&end| turn(from, to, end).signum() == hand)
                        }
                    };
                    holds(
                        !over.any(beyond),
                        &format!("in {corners:?} level {lower} is beyond level {higher}"),
                    )?;
                }
            }
        }
        Ok(())
    }

    /// Are the corners that are below strictly on one side of the segment's line, and the others strictly on the other?
    fn parts(
        &self,
        [from, to]: Segment,
        corners: [usize; 3],
        below: impl Fn(usize) -> bool,
    ) -> bool {
        let hand = |corner: usize| {
            let hand = turn(from, to, self.at(corner)).signum();
            if below(corner) {
                hand
            } else {
                -hand
            }
        };
        let [a, b, c] = corners.map(hand);
        a != 0 && a == b && b == c
    }

    /// No two vertices of a level are at one place, no segment goes across a side of the mesh, and no station is on one.
    fn apart(&self, lined: &Lined, segments: &[Segment]) -> Result<(), String> {
        let mut earlier = HashSet::new();
        let mut vertices = vertices(lined).into_iter();
        holds(
            vertices.all(|vertex| earlier.insert(vertex)),
            "two vertices at one place",
        )?;
        let mut sides = self.corners().flat_map(around).map(|side| self.side(side));
        let crossed = |side: Segment| segments.iter().any(|&segment| cross(side, segment));
        holds(!sides.any(crossed), "a segment across a side")?;
        let met = |station: Point| segments.iter().any(|&segment| on(segment, station));
        holds(!self.stations().any(met), "a station on a segment")
    }
}

/// Stations at a few places.
const GROUNDS: [(&str, &[Place]); 4] = [
    ("three", &[(0, 0), (8, 0), (0, 8)]),
    ("a square", &[(0, 0), (8, 0), (0, 8), (8, 8)]),
    (
        "one inside a square",
        &[(0, 0), (8, 0), (0, 8), (8, 8), (4, 4)],
    ),
    (
        "three in line, two beside",
        &[(0, 8), (4, 8), (8, 8), (4, 16), (4, 0)],
    ),
];

pub fn every(between: String) -> Part {
    Part::once("every-ground", between, &GROUNDS, tried)
}

/// All heights of 0, 1 and 65: between 0 and 65 the spots of the straight levels 64 and 65 are one.
fn tried(places: &[Place]) -> Outcome {
    const HEIGHTS: [i32; 3] = [0, 1, 65];
    let all = Cell::new(Seen::default());
    for number in 0..HEIGHTS.len().pow(places.len() as u32) {
        let height =
            |station: usize| HEIGHTS[number / HEIGHTS.len().pow(station as u32) % HEIGHTS.len()];
        let survey = Survey {
            x: places.iter().map(|place| place.0).collect(),
            y: places.iter().map(|place| place.1).collect(),
            z: (0..places.len()).map(height).collect(),
            level: 64,
            style: 0,
            number: Some(0),
        };
        compared(&survey, |survey| {
            let seen = seen_over(survey, SWEPT)?.and(seen_over(survey, FATTER)?);
            all.set(all.get().and(seen));
            Ok(())
        })?;
    }
    let Seen {
        touching, equal, ..
    } = all.get();
    holds(
        touching > 0 && equal > 0,
        "no segments of two levels touch, or none are equal",
    )
    .map_err(|said| Difference {
        input: "all surveys of the family".to_string(),
        said,
    })
}

/// What is looked for, each once as it must not be, so that the looking itself is seen to find it. A fault is what the look says, if it can
/// be made.
type Fault = fn() -> Result<Result<(), String>, String>;

const FAULTS: [(&str, Fault); 9] = [
    ("a gap", || Ok(covered(&[0, 1, 2]))),
    ("an overlap", || Ok(covered(&[0, 1, 2, 1, 3, 2, 0, 1, 3]))),
    ("styles mixed", || {
        let levels = [drawn(1, 0)?.1, drawn(2, 1)?.1];
        Ok(uncrossed(&levels).map(|_| ()))
    }),
    ("a stretch in common", || {
        let levels = [vec![[(0, 0), (4, 4)]], vec![[(2, 2), (6, 6)]]];
        Ok(uncrossed(&levels).map(|_| ()))
    }),
    ("a segment left out", || {
        let (_, mut segments) = drawn(1, 0)?;
        segments.pop();
        Ok(over_square(|map| map.parted(1, &segments).map(|_| ())))
    }),
    ("levels exchanged", || {
        let parted = |level: i32| {
            let (_, segments) = drawn(level, 0)?;
            over_square(|map| map.parted(level, &segments))
        };
        let levels = [(1, parted(2)?), (2, parted(1)?)];
        Ok(over_square(|map| map.nested(&levels)))
    }),
    ("a vertex twice", || {
        let (mut lined, segments) = drawn(1, 0)?;
        lined.x[1] = lined.x[0];
        lined.y[1] = lined.y[0];
        Ok(over_square(|map| map.apart(&lined, &segments)))
    }),
    ("a segment across a side", || {
        let (lined, _) = drawn(1, 0)?;
        let segments = [[(32, 32), (96, 96)]];
        Ok(over_square(|map| map.apart(&lined, &segments)))
    }),
    ("a station on a segment", || {
        let (lined, _) = drawn(1, 0)?;
        let segments = [[(0, 0), (0, 64)]];
        Ok(over_square(|map| map.apart(&lined, &segments)))
    }),
];

pub fn faults(between: String) -> Part {
    Part::once("ground-faults", between, &FAULTS, found)
}

fn found(fault: Fault) -> Outcome {
    let said = match fault() {
        Ok(Err(_)) => return Ok(()),
        Ok(Ok(())) => "not found".to_string(),
        Err(said) => said,
    };
    Err(Difference {
        input: "a fault made on purpose".to_string(),
        said,
    })
}

/// Four stations, over which level 1 drawn straight and level 2 drawn smooth cross.
fn square() -> Survey {
    Survey {
        x: vec![0, 0, 1, 1],
        y: vec![0, 1, 0, 1],
        z: vec![7, 0, 2, 8],
        level: 1,
        style: 0,
        number: Some(0),
    }
}

/// The triangles of its mesh as the page makes them.
const SQUARE: [u16; 6] = [0, 2, 1, 1, 2, 3];

fn over_square<T>(look: impl Fn(&Map) -> T) -> T {
    look(&Map {
        survey: &square(),
        triangles: &SQUARE,
    })
}

/// Its lines of a level in a style, and what they draw.
fn drawn(level: i32, style: u32) -> Result<(Lined, Vec<Segment>), String> {
    let asked = Survey {
        level,
        style,
        ..square()
    };
    let rooms = line_rooms(asked.x.len());
    let lined = agreed(LINES, |lines| jobs::lines_in(lines, &asked, SWEPT, rooms))?;
    let segments = segments(&lined);
    Ok((lined, segments))
}

/// Do triangles cover the ground of four stations, none over another?
fn covered(triangles: &[u16]) -> Result<(), String> {
    let survey = Survey {
        x: vec![0, 8, 0, 8],
        y: vec![0, 0, 8, 8],
        ..square()
    };
    let map = Map {
        survey: &survey,
        triangles,
    };
    map.covered().map(|_| ())
}
