//! Lent memory that shows where it was written to.

use std::ops::Range;

/// A lent slice between two guards, all filled with a pattern. A job may write to the slice where its promise says so,
/// and never to the guards.
pub struct Lent<T> {
    cells: Vec<T>,
    length: usize,
}

/// How many cells stand on either side of the slice.
const GUARD: usize = 8;

/// What a cell holds when it is lent: never zero, so that a zeroed cell shows.
pub trait Pattern: Copy + PartialEq {
    const ZERO: Self;
    fn of_cell(cell: usize) -> Self;
}

macro_rules! pattern {
    ($($number:ty)*) => {$(
        impl Pattern for $number {
            const ZERO: $number = 0;
            fn of_cell(cell: usize) -> $number {
                (cell.wrapping_mul(0x9e37_79b9) >> 3 | 1) as $number
            }
        }
    )*};
}

pattern!(u8 u16 u32 i32);

impl<T: Pattern> Lent<T> {
    pub fn new(length: usize) -> Lent<T> {
        Lent {
            cells: (0..length + 2 * GUARD).map(T::of_cell).collect(),
            length,
        }
    }

    fn range(&self) -> Range<usize> {
        GUARD..GUARD + self.length
    }

    /// The slice, to be lent.
    pub fn slice(&mut self) -> &mut [T] {
        let range = self.range();
        &mut self.cells[range]
    }

    /// The first entries of the slice, as a job left them.
    pub fn first(&self, count: usize) -> &[T] {
        &self.cells[self.range()][..count]
    }

    /// Are the guards, and the slice from one entry on, as they were lent?
    pub fn is_kept_from(&self, entry: usize) -> bool {
        let is_kept = |cell: usize| self.cells[cell] == T::of_cell(cell);
        (0..GUARD).all(is_kept) && (GUARD + entry..self.cells.len()).all(is_kept)
    }

    /// Is all as it was lent?
    pub fn is_kept(&self) -> bool {
        self.is_kept_from(0)
    }

    /// Is the room zero as far as it was asked for, and kept beyond?
    pub fn is_zeroed_to(&self, count: usize) -> bool {
        self.first(count).iter().all(|&entry| entry == T::ZERO) && self.is_kept_from(count)
    }
}
