// Made from crates/qs_ranges/src/lib.rt by rust/erase; not edited by hand.
//! Sets of numbers, kept as the longest runs of their members. One type serves stream offsets and packet numbers: both lie below 2^62, and
//! both mostly come in order.

use crate::shim::Vec;

use crate::proved::qs_ranges::block::Block;
use crate::proved::qs_ranges::blocks::two_above;
use crate::proved::qs_ranges::changes::{copy_runs, insert_many, remove_many};
use crate::proved::qs_ranges::few::{Few, copy_few, few_above, few_above_two, insert_few, remove_few};
use crate::shim::alloc::{AllocError, AllocFailed, Global};

mod bits;
mod block;
mod blocks;
mod changes;
mod few;
mod maybe_number;
mod room;

pub use bits::{lowest_bit, with_bit};
pub use maybe_number::MaybeNumber;
pub use room::reserve;

/// Memory was refused, and nothing changed.
#[derive(Clone, Copy, Debug, PartialEq, Eq)]
pub struct NoMemory;

impl From<AllocError> for NoMemory {
    fn from(_error: AllocError) -> Self {
        NoMemory
    }
}

impl<T> From<AllocFailed<T>> for NoMemory {
    fn from(_error: AllocFailed<T>) -> Self {
        NoMemory
    }
}

/// A set of numbers below 2^62, as its longest runs in rising order: two at most in the value itself, and more in blocks, which only a set
/// with gaps pays for.
pub struct RangeSet {
    few: Few,
    blocks: Vec<Block>,
}

impl RangeSet {
    /// The empty set. It takes no memory, so what has one needs no way to fail.
    #[inline]
    pub fn new(alloc: Global) -> Self {
        Self {
            few: Few::InBlocks(0),
            blocks: Vec::new(alloc),
        }
    }

    /// The set of all numbers below `n`. It takes no memory: it stands for a set whose members aren't worth keeping apart any more.
    #[inline]
    pub fn below(alloc: Global, n: u64) -> Self {
        debug_assert!(n <= 1 << 62);
        let few = if n > 0 {
            Few::One((0, n))
        } else {
            Few::InBlocks(0)
        };
        Self {
            few,
            blocks: Vec::new(alloc),
        }
    }

    /// Adds the numbers from `lo` on and below `hi`; an empty range changes nothing. `NoMemory` leaves the set as it was.
    ///
    /// Constant time at or past the end of the set, where packet numbers and bytes in order go; elsewhere two searches and moves within
    /// blocks.
    #[inline]
    pub fn insert(&mut self, lo: u64, hi: u64) -> Result<(), NoMemory> {
        debug_assert!(lo <= hi);
        debug_assert!(hi <= 1 << 62);
        if lo == hi {
            return Ok(());
        }
        if self.blocks.is_empty() {
            return insert_few(&mut self.few, &mut self.blocks, lo, hi);
        }
        insert_many(&mut self.few, &mut self.blocks, lo, hi)
    }

    /// Takes out the numbers from `lo` on and below `hi`; an empty range changes nothing. `NoMemory` leaves the set as it was.
    #[inline]
    pub fn remove(&mut self, lo: u64, hi: u64) -> Result<(), NoMemory> {
        debug_assert!(lo <= hi);
        debug_assert!(hi <= 1 << 62);
        if lo == hi {
            return Ok(());
        }
        if self.blocks.is_empty() {
            return remove_few(&mut self.few, &mut self.blocks, lo, hi);
        }
        remove_many(&mut self.few, &mut self.blocks, lo, hi)
    }

    /// Takes out the numbers below `n`, without memory. Constant time up to the end of the first run.
    #[inline]
    pub fn drop_below(&mut self, n: u64) {
        let _never = self.remove(0, n.min(1 << 62));
    }

    /// Copies the longest runs of members to the slice's front, each as its first number and the one after its last, and returns how many
    /// there are. Copied, since blocks have no one slice to lend, and one vector would move all runs behind each that comes between.
    #[inline]
    pub fn copy_pairs(&self, into: &mut [(u64, u64)]) -> usize {
        if self.blocks.is_empty() {
            return copy_few(self.few, into);
        }
        copy_runs(&self.blocks, into)
    }

    #[inline]
    pub fn has(&self, n: u64) -> bool {
        if !self.blocks.is_empty() {
            return self.has_in_blocks(n);
        }
        match self.few {
            Few::InBlocks(_) => false,
            Few::One(run) => run.0 <= n && n < run.1,
            Few::Two(_, high) if high.0 <= n => n < high.1,
            Few::Two(low, _) => low.0 <= n && n < low.1,
        }
    }

    /// Whether each number from `lo` on and below `hi` is a member, as it is of an empty range.
    #[inline]
    pub fn covers(&self, lo: u64, hi: u64) -> bool {
        if lo >= hi {
            return true;
        }
        matches!(self.run_above(lo), Some((start, end)) if start <= lo && hi <= end)
    }

    #[inline]
    pub fn first(&self) -> Option<u64> {
        let (start, _) = self.run_from(0)?;
        Some(start)
    }

    /// The lowest run of members at or above `n`: its first number, and the number after its last.
    #[inline]
    pub fn run_from(&self, n: u64) -> Option<(u64, u64)> {
        let (start, end) = self.run_above(n)?;
        Some((start.max(n), end))
    }

    /// The least number at or above `n` that is not a member.
    #[inline]
    pub fn first_missing(&self, n: u64) -> u64 {
        match self.run_above(n) {
            Some((start, end)) if start <= n => end,
            _ => n,
        }
    }

    /// The first gap from `lo` on and below `hi`: its first missing number, and the next member or `hi`. `None` if no number is missing.
    /// One search gives both edges, and bytes are copied gap by gap.
    #[inline]
    pub fn first_gap(&self, lo: u64, hi: u64) -> Option<(u64, u64)> {
        if lo >= hi {
            return None;
        }
        let (first, next) = self.runs_above(lo);
        let Some((start, end)) = first else {
            return Some((lo, hi));
        };
        if lo < start {
            return Some((lo, start.min(hi)));
        }
        if hi <= end {
            return None;
        }
        match next {
            Some((start, _)) if start < hi => Some((end, start)),
            _ => Some((end, hi)),
        }
    }

    /// How many runs there are: members whose predecessor isn't one. Constant time, as it is asked after each frame.
    #[inline]
    pub fn count(&self) -> usize {
        match self.few {
            Few::InBlocks(count) => count,
            Few::One(_) => 1,
            Few::Two(_, _) => 2,
        }
    }

    fn has_in_blocks(&self, n: u64) -> bool {
        matches!(self.run_above(n), Some((start, _)) if start <= n)
    }

    fn run_above(&self, n: u64) -> Option<(u64, u64)> {
        if self.blocks.is_empty() {
            return few_above(self.few, n);
        }
        if n >= 1 << 62 {
            return None;
        }
        let (first, _) = two_above(&self.blocks, n);
        first
    }

    fn runs_above(&self, n: u64) -> (Option<(u64, u64)>, Option<(u64, u64)>) {
        if self.blocks.is_empty() {
            return few_above_two(self.few, n);
        }
        if n >= 1 << 62 {
            return (None, None);
        }
        two_above(&self.blocks, n)
    }
}
