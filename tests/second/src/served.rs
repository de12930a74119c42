//! The ground that is served at a level and the ground that is not, and the report of both. Document 02,
//! "Served ground report".

use crate::contour::{asked_in, told};
use crate::lines::{directed_sides, Joined, Side};
use crate::mesh::triangles_of;
use crate::refusal::{
    height_in_range, kind_in_range, refuse, room, slope_room, style_in_range, work_room, Refused,
};
use crate::survey::check;
use crate::text::{put, style_word};
use crate::whole::turn;
use std::collections::BTreeMap;

/// 'the ground served (not below) and unserved': 'twice the area' of each, 'in squares of a 128th'.
#[derive(Clone, Copy, Debug, PartialEq, Eq)]
pub struct Served {
    pub served: u64,
    pub unserved: u64,
}

/// The ground of one level over the mesh of a kind in one style. It takes what the lines job takes but for
/// the rooms of the lines, and tests 1, 2, 3, 4, 5, 6 in that order as it does.
#[allow(clippy::too_many_arguments)]
pub fn served(
    x: &[u32],
    y: &[u32],
    z: &[i32],
    kind: u32,
    level: i32,
    style: u32,
    slopes: &mut [i32],
    work: &mut [u16],
) -> Result<Served, Refused> {
    check(x, y, z)?;
    if !kind_in_range(kind) || !height_in_range(level) || !style_in_range(style) {
        return refuse(5, 0);
    }
    let n = x.len();
    room(slopes.len(), slope_room(n))?;
    room(work.len(), work_room(n))?;
    let joined = Joined::of(x, y, z, triangles_of(x, y, kind), style);
    let counted = counted(&joined, level);
    slopes[..slope_room(n)].fill(0);
    work[..work_room(n)].fill(0);
    Ok(counted)
}

/// The places of a level's spots, by their sides.
type Spots = BTreeMap<Side, (u32, u32)>;

/// A place in 128ths.
type Place = (i64, i64);

/// 'The not-below parts and the below parts are each counted from their own corners': every triangle is gone
/// round once for either.
fn counted(joined: &Joined, level: i32) -> Served {
    let level = i64::from(level);
    let spots = joined.spots(level);
    let twice = |below: bool| {
        let triangles = joined.triangles.iter();
        let areas =
            triangles.map(|&triangle| twice_area(&part(joined, &spots, triangle, level, below)));
        u64::try_from(areas.sum::<i64>()).expect("parts that go counterclockwise")
    };
    Served {
        served: twice(false),
        unserved: twice(true),
    }
}

/// The part of a triangle that is below the level, or the part that is not: the triangle, counterclockwise,
/// clipped at the straight line through its two drawn spots. The part is on that side of the line on which a
/// corner with such a reading is. A triangle without spots is all of the one part and nothing of the other.
fn part(
    joined: &Joined,
    spots: &Spots,
    triangle: [usize; 3],
    level: i64,
    below: bool,
) -> Vec<Place> {
    let place = |station: usize| {
        let end = joined.ends[station];
        (128 * end.x, 128 * end.y)
    };
    let own = triangle
        .into_iter()
        .find(|&station| (joined.ends[station].z < level) == below);
    let Some(own) = own.map(place) else {
        return Vec::new();
    };
    let drawn = directed_sides(triangle).into_iter();
    let drawn = drawn.filter_map(|(a, b)| spots.get(&(a.min(b), a.max(b))));
    let drawn: Vec<Place> = drawn.map(|&(x, y)| (i64::from(x), i64::from(y))).collect();
    let corners = triangle.map(place);
    match drawn[..] {
        [] => corners.to_vec(),
        [p, q] => clipped(&corners, |at| beyond(p, q, at) * beyond(p, q, own).signum()),
        _ => unreachable!("a level crosses two sides of a triangle or none"),
    }
}

/// How far a place is from the line through p and q, times the length of pq: positive on its left.
fn beyond(p: Place, q: Place, at: Place) -> i128 {
    i128::from(turn(p.0, p.1, q.0, q.1, at.0, at.1))
}

/// What of a convex shape is not on the far side of a line, by how far places are from it.
fn clipped(corners: &[Place], from: impl Fn(Place) -> i128) -> Vec<Place> {
    let mut kept = Vec::new();
    for (i, &a) in corners.iter().enumerate() {
        let b = corners[(i + 1) % corners.len()];
        let (near, far) = (from(a), from(b));
        if near >= 0 {
            kept.push(a);
        }
        if near.signum() * far.signum() < 0 {
            // The line meets the side at near / (near - far) of the way from a to b.
            let part = |a: i64, b: i64| {
                let (above, below) = (i128::from(b - a) * near, near - far);
                assert_eq!(above % below, 0, "a side is cut at a whole 128th");
                a + i64::try_from(above / below).expect("a place of the side")
            };
            kept.push((part(a.0, b.0), part(a.1, b.1)));
        }
    }
    kept
}

/// Twice the area inside corners that go counterclockwise, as a fan: the triangles of the first corner with
/// each two that follow one another. 128 times 8,191 is under 2^20, so no product reaches 2^41.
fn twice_area(corners: &[Place]) -> i64 {
    let fan = |pair: &[Place]| {
        let [a, b, c] = [corners[0], pair[0], pair[1]];
        turn(a.0, a.1, b.0, b.1, c.0, c.1)
    };
    corners.windows(2).map(fan).sum()
}

/// The report of a survey text over the mesh of a kind.
pub fn report(text: &[u8], kind: u32) -> Vec<u8> {
    told(reported(text, kind))
}

/// 'The report is key=value lines: served=1, style, then level, served and unserved for each level.'
fn reported(text: &[u8], kind: u32) -> Result<Vec<u8>, Refused> {
    let survey = asked_in(text, kind)?;
    let mut output = Vec::new();
    put(&mut output, "served", 1);
    put(&mut output, "style", style_word(survey.style));
    for &level in &survey.levels {
        let ground = counted(&survey.joined, level);
        put(&mut output, "level", level);
        put(&mut output, "served", ground.served);
        put(&mut output, "unserved", ground.unserved);
    }
    Ok(output)
}
