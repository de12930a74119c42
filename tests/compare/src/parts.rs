//! The rules below the jobs as the proved archive `parts` gives them, and their comparison.

use crate::agree::holds;
use crate::jobs::{hull_of, sides_of};
use crate::numbers::{Corners, Cut, Quotient, MOST_BOUND, MOST_CORNER, MOST_QUOTIENT};
use crate::sides::Side;
use crate::supplied::Supplied;

extern "C" {
    fn parts_rounded(n: i64, d: u64, r: *mut i64) -> u32;
    fn parts_cut(v: i64, bound: u64, r: *mut i64) -> u32;
    fn parts_turn(ax: u32, ay: u32, bx: u32, by: u32, cx: u32, cy: u32, r: *mut i64) -> u32;
    #[rustfmt::skip]
    fn parts_bracket(
        x1: u32,
        y1: u32,
        z1: i32,
        p1: i32,
        q1: i32,
        r1: i32,
        s1: i32,
        t1: i32,
        x2: u32,
        y2: u32,
        z2: i32,
        p2: i32,
        q2: i32,
        r2: i32,
        s2: i32,
        t2: i32,
        level: i32,
        style: u32,
        k: *mut u32,
        x: *mut u32,
        y: *mut u32,
    ) -> u32;
    fn parts_block(
        level: i32,
        records: *const u16,
        records_length: usize,
        x: *const u32,
        x_length: usize,
        y: *const u32,
        y_length: usize,
        room: *mut u8,
        room_length: usize,
    ) -> usize;
    fn parts_sewn_by_keys(
        triangles: *const u16,
        triangles_length: usize,
        next: *const u16,
        next_length: usize,
    ) -> u32;
    fn parts_sewn_by_chains(
        triangles: *const u16,
        triangles_length: usize,
        n: u32,
        next: *const u16,
        next_length: usize,
    ) -> u32;
    fn parts_is_woven(
        x: *const u32,
        x_length: usize,
        y: *const u32,
        y_length: usize,
        z: *const i32,
        z_length: usize,
        triangles: *const u16,
        triangles_length: usize,
    ) -> u32;
}

/// What the result holds before a call. No rule gives it: it is larger than every result.
const CANARY: i64 = 0x5a5a_5a5a_5a5a_5a5a;

pub fn rounded(quotient: &Quotient) -> Result<(), String> {
    let &Quotient { n, d } = quotient;
    let in_range = n.unsigned_abs() <= MOST_QUOTIENT && (1..=MOST_QUOTIENT).contains(&d);
    // SAFETY: the result is a place of the caller's own.
    let proved = answer(|r| unsafe { parts_rounded(n, d, r) });
    same(proved, in_range, || second::rounded(n.into(), d.into()))
}

pub fn cut(cut: &Cut) -> Result<(), String> {
    let &Cut { v, bound } = cut;
    // SAFETY: as above.
    let proved = answer(|r| unsafe { parts_cut(v, bound, r) });
    same(proved, bound <= MOST_BOUND, || {
        second::cut(v.into(), bound.into())
    })
}

pub fn turn(corners: &Corners) -> Result<(), String> {
    let [ax, ay, bx, by, cx, cy] = corners.0;
    let in_range = corners.0.iter().all(|&number| number <= MOST_CORNER);
    // SAFETY: as above.
    let proved = answer(|r| unsafe { parts_turn(ax, ay, bx, by, cx, cy, r) });
    same(proved, in_range, || {
        let [ax, ay, bx, by, cx, cy] = corners.0.map(i64::from);
        second::turn(ax, ay, bx, by, cx, cy).into()
    })
}

/// The bracket of a side and its spot. Where a number is out of range, or the heights alone say that no line passes, nothing is
/// written.
pub fn bracket(side: &Side) -> Result<(), String> {
    let expected = match second_bracket(side) {
        Some(drawn) => (1, drawn),
        None => (0, UNTOUCHED.map(i64::from)),
    };
    let (returned, left) = proved_bracket(side);
    let proved = (returned, left.map(i64::from));
    if proved == expected {
        return Ok(());
    }
    Err(format!(
        "proved: returned, k, x, y {proved:?}; expected: {expected:?}"
    ))
}

/// What k, x and y hold before a call. No side gives it.
const UNTOUCHED: [u32; 3] = [u32::MAX; 3];

/// What the proved rule returns, and what it leaves in k, x and y.
pub fn proved_bracket(side: &Side) -> (u32, [u32; 3]) {
    let (low, high) = (&side.low, &side.high);
    let ([p1, q1, r1, s1, t1], [p2, q2, r2, s2, t2]) = (low.slopes, high.slopes);
    let [mut k, mut x, mut y] = UNTOUCHED;
    // SAFETY: as above.
    #[rustfmt::skip]
    let returned = unsafe {
        parts_bracket(
            low.x, low.y, low.z, p1, q1, r1, s1, t1,
            high.x, high.y, high.z, p2, q2, r2, s2, t2,
            side.level, side.style, &mut k, &mut x, &mut y,
        )
    };
    (returned, [k, x, y])
}

/// k, x and y by the second program, if a line passes.
pub fn second_bracket(side: &Side) -> Option<[i64; 3]> {
    if !side.in_range() {
        return None;
    }
    let (low, high) = (side.low.second(), side.high.second());
    let k = second::bracket(low, high, side.level.into(), side.style)?;
    let (x, y) = second::spot(low, high, k);
    Some([k.into(), x, y])
}

/// The contour text of a level as the proved writer puts it into a room: its bytes, or 0 where it is refused.
pub fn proved_block(level: i32, records: &[u16], x: &[u32], y: &[u32], room: &mut [u8]) -> usize {
    // SAFETY: every list is handed over with its length.
    unsafe {
        parts_block(
            level,
            records.as_ptr(),
            records.len(),
            x.as_ptr(),
            x.len(),
            y.as_ptr(),
            y.len(),
            room.as_mut_ptr(),
            room.len(),
        )
    }
}

/// The quick test takes a right mesh, however it and the stations are numbered, and so do both ways in which it looks for sides that run
/// each other back. Where it did not, the answers would stay right, but accepting the mesh would take a search through all stations for
/// each triangle.
pub fn quick(supplied: &Supplied) -> Result<(), String> {
    quick_by_keys(supplied, Some(true))
}

/// Of sides that share a key beyond what is searched, it takes them by its other way.
pub fn crowded(supplied: &Supplied) -> Result<(), String> {
    quick_by_keys(supplied, Some(false))
}

/// Of some such sides, by whichever way.
pub fn mixed(supplied: &Supplied) -> Result<(), String> {
    quick_by_keys(supplied, None)
}

/// Whether the keys do is asked where the way the mesh was made decides it.
fn quick_by_keys(supplied: &Supplied, by_keys: Option<bool>) -> Result<(), String> {
    let Supplied {
        survey, triangles, ..
    } = supplied;
    let (x, y, z) = (&survey.x, &survey.y, &survey.z);
    let mut next = vec![u16::MAX; x.len()];
    for (from, to) in hull_of(&sides_of(triangles)) {
        next[usize::from(from)] = to;
    }
    let (list, length) = (triangles.as_ptr(), triangles.len());
    // SAFETY: all lists are the caller's own, of the lengths given.
    let (keys, chains, woven) = unsafe {
        (
            parts_sewn_by_keys(list, length, next.as_ptr(), next.len()),
            parts_sewn_by_chains(list, length, x.len() as u32, next.as_ptr(), next.len()),
            parts_is_woven(
                x.as_ptr(),
                x.len(),
                y.as_ptr(),
                y.len(),
                z.as_ptr(),
                z.len(),
                list,
                length,
            ),
        )
    };
    holds(
        by_keys.map_or(true, |by_keys| keys == u32::from(by_keys)),
        "found to be sewn by keys, or not, against how the mesh was made",
    )?;
    holds(chains == 1, "not found to be sewn station by station")?;
    holds(woven == 1, "not taken by the quick test")
}

/// What a rule returns, and what it leaves in the result.
fn answer(rule: impl FnOnce(*mut i64) -> u32) -> (u32, i64) {
    let mut result = CANARY;
    let returned = rule(&mut result);
    (returned, result)
}

/// Within its range a rule returns 1 and gives the second program's number; beyond it, 0 and the result is untouched.
fn same(proved: (u32, i64), in_range: bool, second: impl FnOnce() -> i128) -> Result<(), String> {
    let expected = if in_range {
        (1, second())
    } else {
        (0, CANARY.into())
    };
    let (returned, result) = proved;
    if (returned, i128::from(result)) == expected {
        return Ok(());
    }
    Err(format!(
        "proved: returned {returned}, result {result}; expected: returned {}, result {}",
        expected.0, expected.1
    ))
}
