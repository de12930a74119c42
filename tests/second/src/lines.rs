//! The lines of one level in one style, over a mesh.

use crate::curve::{bracket, spot, End};
use crate::mesh::triangles_of;
use crate::refusal::{
    height_in_range, kind_in_range, record_room, refuse, room, slope_room, style_in_range,
    vertex_room, work_room, Refused, SMOOTH,
};
use crate::slopes::slopes_of;
use crate::survey::check;
use std::collections::{BTreeMap, BTreeSet};

/// How many lines and vertices the lines job wrote.
#[derive(Clone, Copy, Debug, PartialEq, Eq)]
pub struct Drawn {
    pub lines: usize,
    pub vertices: usize,
}

/// One line: its vertices in 128ths, and whether it is closed.
pub struct Line {
    pub closed: bool,
    pub vertices: Vec<(u32, u32)>,
}

/// The lines job. The vertices of all lines follow one another in the order of the lines.
/// 'A line record is one number: twice its count of vertices, plus 1 if closed.'
#[allow(clippy::too_many_arguments)]
pub fn lines(
    x: &[u32],
    y: &[u32],
    z: &[i32],
    kind: u32,
    level: i32,
    style: u32,
    vertex_x: &mut [u32],
    vertex_y: &mut [u32],
    records: &mut [u16],
    slopes: &mut [i32],
    work: &mut [u16],
) -> Result<Drawn, Refused> {
    check(x, y, z)?;
    if !kind_in_range(kind) {
        return refuse(5, 0);
    }
    let triangles = || triangles_of(x, y, kind);
    lines_in_rooms(
        x, y, z, triangles, level, style, vertex_x, vertex_y, records, slopes, work,
    )
}

/// What the job does once the mesh is known to be there: 5 for the level and the style, 6, and the lines
/// over the triangles, which are made only for that.
#[allow(clippy::too_many_arguments)]
pub fn lines_in_rooms(
    x: &[u32],
    y: &[u32],
    z: &[i32],
    triangles: impl FnOnce() -> Vec<[usize; 3]>,
    level: i32,
    style: u32,
    vertex_x: &mut [u32],
    vertex_y: &mut [u32],
    records: &mut [u16],
    slopes: &mut [i32],
    work: &mut [u16],
) -> Result<Drawn, Refused> {
    if !height_in_range(level) || !style_in_range(style) {
        return refuse(5, 0);
    }
    let n = x.len();
    room(vertex_x.len(), vertex_room(n))?;
    room(vertex_y.len(), vertex_room(n))?;
    room(records.len(), record_room(n))?;
    room(slopes.len(), slope_room(n))?;
    room(work.len(), work_room(n))?;
    let mut drawn = Drawn {
        lines: 0,
        vertices: 0,
    };
    for line in Joined::of(x, y, z, triangles(), style).lines(level) {
        for &(spot_x, spot_y) in &line.vertices {
            vertex_x[drawn.vertices] = spot_x;
            vertex_y[drawn.vertices] = spot_y;
            drawn.vertices += 1;
        }
        records[drawn.lines] = 2 * line.vertices.len() as u16 + u16::from(line.closed);
        drawn.lines += 1;
    }
    slopes[..slope_room(n)].fill(0);
    work[..work_room(n)].fill(0);
    Ok(drawn)
}

/// A side by (lower, higher) station; pairs compare first by the lower, then by the higher:
/// 'Sides are ordered by (lower, higher) station.'
pub type Side = (usize, usize);

/// The triangles on either side of a side as it runs from its lower station to its higher. A hull side has
/// one.
#[derive(Clone, Copy, Default)]
struct Flanks {
    left: Option<usize>,
    right: Option<usize>,
}

impl Flanks {
    fn is_hull_side(self) -> bool {
        self.left.is_none() || self.right.is_none()
    }
}

/// A checked survey with its stations joined in a mesh, ready for lines of any level in one style.
pub struct Joined {
    style: u32,
    pub ends: Vec<End>,
    pub triangles: Vec<[usize; 3]>,
    sides: BTreeMap<Side, Flanks>,
}

impl Joined {
    /// A straight curve needs no slopes; they stand as zeros.
    pub fn of(x: &[u32], y: &[u32], z: &[i32], triangles: Vec<[usize; 3]>, style: u32) -> Joined {
        let n = x.len();
        let slopes = if style == SMOOTH {
            slopes_of(x, y, z)
        } else {
            vec![[0; 5]; n]
        };
        let ends = (0..n)
            .map(|station| End {
                x: i64::from(x[station]),
                y: i64::from(y[station]),
                z: i64::from(z[station]),
                slopes: slopes[station],
            })
            .collect();
        let sides = sides_of(&triangles);
        Joined {
            style,
            ends,
            triangles,
            sides,
        }
    }

    /// The lines of one level: first the open ones, then the closed ones.
    pub fn lines(&self, level: i32) -> Vec<Line> {
        let spots = self.spots(i64::from(level));
        let mut unused: BTreeSet<Side> = spots.keys().copied().collect();
        let mut lines = Vec::new();

        // 'Open lines first: start at the lowest unused crossed hull side and go from triangle to triangle
        // until a hull side.'
        for &start in spots.keys() {
            let flanks = self.sides[&start];
            if flanks.is_hull_side() && unused.contains(&start) {
                let first = flanks.left.or(flanks.right);
                lines.push(self.line(&spots, &mut unused, start, first, false));
            }
        }

        // 'Then closed lines: start at the lowest unused crossed side, first into the triangle left of it
        // as it runs, until the start comes round'
        for &start in spots.keys() {
            if unused.contains(&start) {
                let first = self.sides[&start].left;
                lines.push(self.line(&spots, &mut unused, start, first, true));
            }
        }
        lines
    }

    /// The spot of each crossed side: one end is below the level and the other isn't.
    pub fn spots(&self, level: i64) -> BTreeMap<Side, (u32, u32)> {
        let mut spots = BTreeMap::new();
        for &(lower, higher) in self.sides.keys() {
            let (low, high) = (self.ends[lower], self.ends[higher]);
            if let Some(k) = bracket(low, high, level, self.style) {
                let (spot_x, spot_y) = spot(low, high, k);
                spots.insert((lower, higher), (spot_x as u32, spot_y as u32));
            }
        }
        spots
    }

    /// The line from the start through the triangle `first` and onward. It ends at a hull side, which no
    /// triangle follows, or when the start comes round; 'the start isn't repeated. Each crossed side gives
    /// one vertex.'
    fn line(
        &self,
        spots: &BTreeMap<Side, (u32, u32)>,
        unused: &mut BTreeSet<Side>,
        start: Side,
        first: Option<usize>,
        closed: bool,
    ) -> Line {
        let mut vertices = Vec::new();
        let mut side = start;
        let mut ahead = first;
        loop {
            unused.remove(&side);
            vertices.push(spots[&side]);
            let Some(triangle) = ahead else {
                break;
            };
            side = self.other_crossed(spots, triangle, side);
            if side == start {
                break;
            }
            ahead = self.across(side, triangle);
        }
        Line { closed, vertices }
    }

    /// The other crossed side of a triangle. A triangle with one crossed side has just one more: of its
    /// three corners, one is alone below the level or alone not below it, and both its sides are crossed.
    fn other_crossed(
        &self,
        spots: &BTreeMap<Side, (u32, u32)>,
        triangle: usize,
        side: Side,
    ) -> Side {
        directed_sides(self.triangles[triangle])
            .into_iter()
            .map(|(a, b)| (a.min(b), a.max(b)))
            .find(|other| *other != side && spots.contains_key(other))
            .expect("a second crossed side of the triangle")
    }

    /// The triangle on the far side of a side of this triangle, if there is one.
    fn across(&self, side: Side, triangle: usize) -> Option<usize> {
        let flanks = self.sides[&side];
        if flanks.left == Some(triangle) {
            flanks.right
        } else {
            flanks.left
        }
    }
}

/// The sides of a triangle as its corners go round, counterclockwise; the triangle lies left of each.
pub fn directed_sides(triangle: [usize; 3]) -> [(usize, usize); 3] {
    let [a, b, c] = triangle;
    [(a, b), (b, c), (c, a)]
}

/// Each side of the mesh with its triangles.
fn sides_of(triangles: &[[usize; 3]]) -> BTreeMap<Side, Flanks> {
    let mut sides: BTreeMap<Side, Flanks> = BTreeMap::new();
    for (i, &triangle) in triangles.iter().enumerate() {
        for (a, b) in directed_sides(triangle) {
            let flanks = sides.entry((a.min(b), a.max(b))).or_default();
            if a < b {
                flanks.left = Some(i);
            } else {
                flanks.right = Some(i);
            }
        }
    }
    sides
}
