//! Memory to lend, with guards before and after it.

use reference::generate::Random;
use std::ops::Range;

const LEAST_GUARD: usize = 16;

#[derive(Clone)]
pub struct Guarded<T> {
    cells: Vec<T>,
    lent: Range<usize>,
}

impl<T: Copy + PartialEq> Guarded<T> {
    /// Cells at random; the guard's length moves the lent part about.
    pub fn drawn(length: usize, random: &mut Random, cell: fn(&mut Random) -> T) -> Guarded<T> {
        let start = LEAST_GUARD + random.below(LEAST_GUARD);
        let lent = start..start + length;
        let cells = (0..lent.end + LEAST_GUARD).map(|_| cell(random)).collect();
        Guarded { cells, lent }
    }

    /// The given cells, between guards at random.
    pub fn holding(held: &[T], random: &mut Random, cell: fn(&mut Random) -> T) -> Guarded<T> {
        let mut guarded = Guarded::drawn(held.len(), random, cell);
        guarded.lent_mut().copy_from_slice(held);
        guarded
    }

    pub fn lent(&self) -> &[T] {
        &self.cells[self.lent.clone()]
    }

    pub fn lent_mut(&mut self) -> &mut [T] {
        &mut self.cells[self.lent.clone()]
    }

    /// Whether nothing but the first `count` lent cells differs from `before`.
    pub fn kept_but(&self, count: usize, before: &Guarded<T>) -> bool {
        let written = self.lent.start + count;
        self.cells[..self.lent.start] == before.cells[..self.lent.start]
            && self.cells[written..] == before.cells[written..]
    }
}
