//! A lent buffer: the middle stretch of a larger one, with canary cells before and behind it.

use crate::random::Random;
use std::fmt::Debug;

/// What a buffer can be made of.
pub trait Cell: Copy + PartialEq + Debug {
    /// Cells of random contents.
    fn random(random: &mut Random, len: usize) -> Vec<Self>;
}

impl Cell for u8 {
    fn random(random: &mut Random, len: usize) -> Vec<u8> {
        random.u8s(len)
    }
}

impl Cell for u16 {
    fn random(random: &mut Random, len: usize) -> Vec<u16> {
        random.u16s(len)
    }
}

impl Cell for u32 {
    fn random(random: &mut Random, len: usize) -> Vec<u32> {
        random.u32s(len)
    }
}

impl Cell for usize {
    fn random(random: &mut Random, len: usize) -> Vec<usize> {
        random.usizes(len)
    }
}

/// A buffer with its canaries.
#[derive(Clone, Debug, Default)]
pub struct Lent<T> {
    whole: Vec<T>,
    from: usize,
    to: usize,
}

impl<T: Cell> Lent<T> {
    /// Lends these cells, between 2 to 9 random canaries on each side.
    pub fn of(cells: &[T], random: &mut Random) -> Lent<T> {
        let canaries = random.word();
        let before = 2 + (canaries & 7) as usize;
        let behind = 2 + ((canaries >> 3) & 7) as usize;
        let mut whole = Vec::with_capacity(before + cells.len() + behind);
        whole.extend(T::random(random, before));
        whole.extend_from_slice(cells);
        whole.extend(T::random(random, behind));
        Lent {
            whole,
            from: before,
            to: before + cells.len(),
        }
    }

    /// The lent stretch.
    pub fn cells(&self) -> &[T] {
        &self.whole[self.from..self.to]
    }

    /// The lent stretch, to be written.
    pub fn cells_mut(&mut self) -> &mut [T] {
        &mut self.whole[self.from..self.to]
    }

    /// The first cell, counted from the lent stretch, in which two copies of one buffer differ, with the cell of each.
    pub fn difference(&self, right: &Lent<T>) -> Option<(isize, T, T)> {
        if self.whole == right.whole {
            return None;
        }
        let at = self.whole.iter().zip(&right.whole).position(|(mine, theirs)| mine != theirs)?;
        Some((at as isize - self.from as isize, self.whole[at], right.whole[at]))
    }
}
