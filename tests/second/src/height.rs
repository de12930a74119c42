//! The height at a place.

use crate::mesh::triangles_of;
use crate::refusal::{
    coordinate_in_range, kind_in_range, refuse, room, slope_room, work_room, Refused,
};
use crate::slopes::slopes_of;
use crate::survey::check;
use crate::whole::turn;

/// 'The answer is one of three kinds: a station's own height, an interpolated height, or outside the hull.'
#[derive(Clone, Copy, Debug, PartialEq)]
pub enum Height {
    Own(i32),
    Between(f64),
    Outside,
}

/// The height job, over the mesh of one kind. The slope room and the work room are not used, only zeroed,
/// whichever kind the answer is.
#[allow(clippy::too_many_arguments)]
pub fn height(
    x: &[u32],
    y: &[u32],
    z: &[i32],
    kind: u32,
    px: u32,
    py: u32,
    slopes: &mut [i32],
    work: &mut [u16],
) -> Result<Height, Refused> {
    check(x, y, z)?;
    if !kind_in_range(kind) {
        return refuse(5, 0);
    }
    let triangles = || triangles_of(x, y, kind);
    height_in_rooms(x, y, z, triangles, px, py, slopes, work)
}

/// What the job does once the mesh is known to be there: 5 for the place, 6, and the height over the
/// triangles, which are made only for that.
#[allow(clippy::too_many_arguments)]
pub fn height_in_rooms(
    x: &[u32],
    y: &[u32],
    z: &[i32],
    triangles: impl FnOnce() -> Vec<[usize; 3]>,
    px: u32,
    py: u32,
    slopes: &mut [i32],
    work: &mut [u16],
) -> Result<Height, Refused> {
    if !coordinate_in_range(px) || !coordinate_in_range(py) {
        return refuse(5, 0);
    }
    let n = x.len();
    room(slopes.len(), slope_room(n))?;
    room(work.len(), work_room(n))?;
    let answer = height_at(x, y, z, triangles, px, py);
    slopes[..slope_room(n)].fill(0);
    work[..work_room(n)].fill(0);
    Ok(answer)
}

/// 'A place on a station gives that z exactly. Else the first triangle in the list that holds the place,
/// edges included, is used: corners 1, 2, 3 as written.'
fn height_at(
    x: &[u32],
    y: &[u32],
    z: &[i32],
    triangles: impl FnOnce() -> Vec<[usize; 3]>,
    px: u32,
    py: u32,
) -> Height {
    if let Some(station) = (0..x.len()).find(|&i| (x[i], y[i]) == (px, py)) {
        return Height::Own(z[station]);
    }
    let holding = triangles()
        .into_iter()
        .find(|&triangle| holds(x, y, triangle, px, py));
    match holding {
        None => Height::Outside,
        Some([one, two, three]) => {
            let place = |station: usize| (i64::from(x[station]), i64::from(y[station]));
            let steps = Steps::of(place(one), place(two), place(three));
            let slopes = slopes_of(x, y, z);
            let corner = |station: usize| Corner::of(steps, z[station], slopes[station]);
            let p = coefficients(steps, corner(one), corner(two), corner(three));
            let (u, v) = steps.turned(
                i64::from(px) - i64::from(x[one]),
                i64::from(py) - i64::from(y[one]),
            );
            Height::Between(nested(p, u, v))
        }
    }
}

/// Whether a triangle, its corners counterclockwise, holds a place: the place is left of or on each of its
/// sides.
pub fn holds(x: &[u32], y: &[u32], triangle: [usize; 3], px: u32, py: u32) -> bool {
    let [one, two, three] = triangle;
    let left_or_on = |a: usize, b: usize| {
        let (ax, ay) = (i64::from(x[a]), i64::from(y[a]));
        let (bx, by) = (i64::from(x[b]), i64::from(y[b]));
        turn(ax, ay, bx, by, i64::from(px), i64::from(py)) >= 0
    };
    left_or_on(one, two) && left_or_on(two, three) && left_or_on(three, one)
}

/// The steps from corner 1 to corners 2 and 3: 'a = x2-x1, b = x3-x1, c = y2-y1, d = y3-y1'.
#[derive(Clone, Copy, Debug)]
pub struct Steps {
    pub a: i64,
    pub b: i64,
    pub c: i64,
    pub d: i64,
}

impl Steps {
    pub fn of((x1, y1): (i64, i64), (x2, y2): (i64, i64), (x3, y3): (i64, i64)) -> Steps {
        Steps {
            a: x2 - x1,
            b: x3 - x1,
            c: y2 - y1,
            d: y3 - y1,
        }
    }

    /// 'u = (d·X-b·Y)/(ad-bc), v = (a·Y-c·X)/(ad-bc), X and Y taken from corner 1.'
    pub fn turned(self, big_x: i64, big_y: i64) -> (f64, f64) {
        let Steps { a, b, c, d } = self;
        let u = whole(d * big_x - b * big_y) / whole(a * d - b * c);
        let v = whole(a * big_y - c * big_x) / whole(a * d - b * c);
        (u, v)
    }
}

/// A corner's height and its derivatives turned to the directions u and v.
#[derive(Clone, Copy, Debug)]
pub struct Corner {
    pub z: f64,
    pub zu: f64,
    pub zv: f64,
    pub zuu: f64,
    pub zuv: f64,
    pub zvv: f64,
}

impl Corner {
    /// 'zx, zy, zxx, zxy, zyy are p, q, r, s, t over 65,536. At each corner: zu = a·zx + c·zy; zv = b·zx +
    /// d·zy; zuu = aa·zxx + 2ac·zxy + cc·zyy; zuv = ab·zxx + (ad+bc)·zxy + cd·zyy; zvv = bb·zxx + 2bd·zxy +
    /// dd·zyy.'
    pub fn of(steps: Steps, z: i32, slopes: [i64; 5]) -> Corner {
        let Steps { a, b, c, d } = steps;
        let [zx, zy, zxx, zxy, zyy] = slopes.map(|slope| whole(slope) / 65536.0);
        Corner {
            z: whole(i64::from(z)),
            zu: whole(a) * zx + whole(c) * zy,
            zv: whole(b) * zx + whole(d) * zy,
            zuu: whole(a * a) * zxx + whole(2 * a * c) * zxy + whole(c * c) * zyy,
            zuv: whole(a * b) * zxx + whole(a * d + b * c) * zxy + whole(c * d) * zyy,
            zvv: whole(b * b) * zxx + whole(2 * b * d) * zxy + whole(d * d) * zyy,
        }
    }
}

/// 'whole-number products and their sums are formed exactly, then converted': the conversion, itself exact,
/// since every whole number formed here is smaller than 2^53.
fn whole(n: i64) -> f64 {
    n as f64
}

/// The coefficients p_jk, j + k up to 5, at place [j][k]; the other places stay zero and unread.
/// 'Use f64, each operation rounded once, equal rank from left to right'.
pub fn coefficients(steps: Steps, one: Corner, two: Corner, three: Corner) -> [[f64; 6]; 6] {
    let Steps { a, b, c, d } = steps;

    // 'p00 = z1, p10 = zu1, p01 = zv1, p20 = 0.5·zuu1, p11 = zuv1, p02 = 0.5·zvv1.'
    let p00 = one.z;
    let p10 = one.zu;
    let p01 = one.zv;
    let p20 = 0.5 * one.zuu;
    let p11 = one.zuv;
    let p02 = 0.5 * one.zvv;

    // 'h1 = z2-p00-p10-p20, h2 = zu2-p10-zuu1, h3 = zuu2-zuu1; p30 = 10·h1-4·h2+0.5·h3, p40 =
    // -15·h1+7·h2-h3, p50 = 6·h1-3·h2+0.5·h3.'
    let h1 = two.z - p00 - p10 - p20;
    let h2 = two.zu - p10 - one.zuu;
    let h3 = two.zuu - one.zuu;
    let p30 = 10.0 * h1 - 4.0 * h2 + 0.5 * h3;
    let p40 = -15.0 * h1 + 7.0 * h2 - h3;
    let p50 = 6.0 * h1 - 3.0 * h2 + 0.5 * h3;

    // 'Likewise p03, p04, p05 from corner 3 with v for u.'
    let h1 = three.z - p00 - p01 - p02;
    let h2 = three.zv - p01 - one.zvv;
    let h3 = three.zvv - one.zvv;
    let p03 = 10.0 * h1 - 4.0 * h2 + 0.5 * h3;
    let p04 = -15.0 * h1 + 7.0 * h2 - h3;
    let p05 = 6.0 * h1 - 3.0 * h2 + 0.5 * h3;

    // 'w = ab+cd: p41 = (5w/(aa+cc))·p50, p14 = (5w/(bb+dd))·p05.'
    let w = a * b + c * d;
    let p41 = (whole(5 * w) / whole(a * a + c * c)) * p50;
    let p14 = (whole(5 * w) / whole(b * b + d * d)) * p05;

    // 'h1 = zv2-p01-p11-p41, h2 = zuv2-p11-4·p41; p21 = 3·h1-h2, p31 = -2·h1+h2.'
    let h1 = two.zv - p01 - p11 - p41;
    let h2 = two.zuv - p11 - 4.0 * p41;
    let p21 = 3.0 * h1 - h2;
    let p31 = -2.0 * h1 + h2;

    // 'Likewise p12, p13 from zu3, p10, p14 and zuv3.'
    let h1 = three.zu - p10 - p11 - p14;
    let h2 = three.zuv - p11 - 4.0 * p14;
    let p12 = 3.0 * h1 - h2;
    let p13 = -2.0 * h1 + h2;

    // 'us = a(b-a)+c(d-c), sv = b(b-a)+d(d-c), g1 = -(3sv+2us), g2 = 3us+2sv, m =
    // 5sv·p50-(4sv+us)·p41+(4us+sv)·p14-5us·p05; h2 = 0.5·zvv2-p02-p12, h3 = 0.5·zuu3-p20-p21; p22 =
    // (g1·h2+g2·h3-m)/(us-sv), p32 = h2-p22, p23 = h3-p22.'
    let us = a * (b - a) + c * (d - c);
    let sv = b * (b - a) + d * (d - c);
    let g1 = -(3 * sv + 2 * us);
    let g2 = 3 * us + 2 * sv;
    let m = whole(5 * sv) * p50 - whole(4 * sv + us) * p41 + whole(4 * us + sv) * p14
        - whole(5 * us) * p05;
    let h2 = 0.5 * two.zvv - p02 - p12;
    let h3 = 0.5 * three.zuu - p20 - p21;
    let p22 = (whole(g1) * h2 + whole(g2) * h3 - m) / whole(us - sv);
    let p32 = h2 - p22;
    let p23 = h3 - p22;

    [
        [p00, p01, p02, p03, p04, p05],
        [p10, p11, p12, p13, p14, 0.0],
        [p20, p21, p22, p23, 0.0, 0.0],
        [p30, p31, p32, 0.0, 0.0, 0.0],
        [p40, p41, 0.0, 0.0, 0.0, 0.0],
        [p50, 0.0, 0.0, 0.0, 0.0, 0.0],
    ]
}

/// 'Sum p_jk·u^j·v^k nested in v, then in u.' For each power j of u first the sum over k, nested in v;
/// these are then the coefficients of the sum over j, nested in u.
pub fn nested(p: [[f64; 6]; 6], u: f64, v: f64) -> f64 {
    let in_v = |j: usize| {
        (0..5 - j)
            .rev()
            .fold(p[j][5 - j], |sum, k| sum * v + p[j][k])
    };
    (0..5).rev().fold(in_v(5), |sum, j| sum * u + in_v(j))
}
