//! The mesh of a survey.

use crate::refusal::{kind_in_range, refuse, room, triangle_room, work_room, Refused, FATTER};
use crate::survey::{check, station_turn};
use crate::swaps::fatter;

/// The mesh job: writes the triangles of one kind, three numbers each, and answers how many there are. The
/// work room is not used, only zeroed: 'the work room asked for (not what is longer) is all zero after it'.
pub fn mesh(
    x: &[u32],
    y: &[u32],
    z: &[i32],
    kind: u32,
    triangles: &mut [u16],
    work: &mut [u16],
) -> Result<usize, Refused> {
    check(x, y, z)?;
    if !kind_in_range(kind) {
        return refuse(5, 0);
    }
    let n = x.len();
    room(triangles.len(), triangle_room(n))?;
    room(work.len(), work_room(n))?;
    let made = triangles_of(x, y, kind);
    for (i, triangle) in made.iter().enumerate() {
        for corner in 0..3 {
            triangles[3 * i + corner] = triangle[corner] as u16;
        }
    }
    work[..work_room(n)].fill(0);
    Ok(made.len())
}

/// The triangles of a checked survey in the mesh of one kind: 'Kind 0 is the old mesh, 1 this one'.
pub fn triangles_of(x: &[u32], y: &[u32], kind: u32) -> Vec<[usize; 3]> {
    let swept = swept(x, y);
    if kind == FATTER {
        fatter(x, y, &swept)
    } else {
        swept
    }
}

/// The triangles of kind 0, in the order made.
fn swept(x: &[u32], y: &[u32]) -> Vec<[usize; 3]> {
    let order = sweep_order(x, y);
    let length = leading_run(x, y, &order);
    let run = &order[..length];
    let c = order[length];
    let mut triangles = fan(x, y, run, c);
    let mut hull = first_hull(x, y, run, c);
    for &q in &order[length + 1..] {
        join(x, y, q, &mut hull, &mut triangles);
    }
    triangles
}

/// 'Take the stations by rising x, then rising y.'
fn sweep_order(x: &[u32], y: &[u32]) -> Vec<usize> {
    let mut order: Vec<usize> = (0..x.len()).collect();
    order.sort_by_key(|&station| (x[station], y[station]));
    order
}

/// The length of 'The longest leading run on one line'. Two stations always lie on one line; all of them
/// never do.
fn leading_run(x: &[u32], y: &[u32], order: &[usize]) -> usize {
    let mut length = 2;
    while station_turn(x, y, order[0], order[1], order[length]) == 0 {
        length += 1;
    }
    length
}

/// 'The longest leading run on one line, and the first station c off it, give one triangle per neighbouring
/// pair of the run, in run order.' That order is the same whether c lies left or right of the run.
fn fan(x: &[u32], y: &[u32], run: &[usize], c: usize) -> Vec<[usize; 3]> {
    run.windows(2)
        .map(|pair| written(x, y, pair[0], pair[1], c))
        .collect()
}

/// The hull of the run and c, going counterclockwise.
fn first_hull(x: &[u32], y: &[u32], run: &[usize], c: usize) -> Vec<usize> {
    let mut hull = run.to_vec();
    if station_turn(x, y, run[0], run[1], c) < 0 {
        hull.reverse();
    }
    hull.push(c);
    hull
}

/// 'After that each next station q forms a triangle with each side of the present hull that it sees
/// strictly: going counterclockwise, q lies to the right of the side. These come in counterclockwise order
/// along the old hull.' The sides seen follow one another, so the order begins at the seen side whose
/// predecessor isn't seen. The stations inside that chain of sides leave the hull, and q takes their place:
/// 'A hull side in line with q isn't seen, so stations in the middle of a straight hull side stay hull
/// stations.'
fn join(x: &[u32], y: &[u32], q: usize, hull: &mut Vec<usize>, triangles: &mut Vec<[usize; 3]>) {
    let b = hull.len();
    let seen: Vec<bool> = (0..b)
        .map(|i| station_turn(x, y, hull[i], hull[(i + 1) % b], q) < 0)
        .collect();
    let first = (0..b)
        .find(|&i| seen[i] && !seen[(i + b - 1) % b])
        .expect("q sees some side and not every side");
    hull.rotate_left(first);
    let count = (0..b).take_while(|&i| seen[(first + i) % b]).count();
    for i in 0..count {
        triangles.push(written(x, y, hull[i], q, hull[(i + 1) % b]));
    }
    hull.splice(1..count, [q]);
}

/// 'Triangles are written counterclockwise, lowest station first'
fn written(x: &[u32], y: &[u32], a: usize, b: usize, c: usize) -> [usize; 3] {
    let (b, c) = if station_turn(x, y, a, b, c) > 0 {
        (b, c)
    } else {
        (c, b)
    };
    let lowest = a.min(b).min(c);
    if lowest == a {
        [a, b, c]
    } else if lowest == b {
        [b, c, a]
    } else {
        [c, a, b]
    }
}
