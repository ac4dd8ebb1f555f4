// Made from crates/qs_ranges/src/block.rt by rust/erase; not edited by hand.
//! Some neighbouring runs in one piece of memory.
use crate::shim::Vec;

use crate::proved::qs_ranges::NoMemory;
use crate::shim::alloc::Global;

/// What a run that comes or goes may move is bounded by it, so that no order of arrival makes a set slow. A tree would take more memory and
/// more steps for the few runs that a stream has.
pub(crate) const MOST_RUNS: usize = 128;

/// Never empty: a block goes with its last run.
pub(crate) struct Block {
    runs: Vec<(u64, u64)>,
}

impl Block {
    #[inline]
    pub(crate) fn of(alloc: Global, run: (u64, u64)) -> Result<Self, NoMemory> {
        let mut runs = Vec::new(alloc);
        runs.push(run)?;
        Ok(Block { runs })
    }

    #[inline]
    pub(crate) fn len(&self) -> usize {
        self.runs.len()
    }

    #[inline]
    pub(crate) fn run(&self, at: usize) -> (u64, u64) {
        self.runs[at]
    }

    #[inline]
    pub(crate) fn first(&self) -> (u64, u64) {
        self.runs[0]
    }

    #[inline]
    pub(crate) fn last(&self) -> (u64, u64) {
        self.runs[self.runs.len() - 1]
    }

    #[inline]
    pub(crate) fn end_from(&self, low: u64) -> usize {
        let mut from = 0;
        let mut to = self.runs.len();
        while from < to {
            let middle = from + (to - from) / 2;
            if self.runs[middle].1 < low {
                from = middle + 1;
            } else {
                to = middle;
            }
        }
        from
    }

    #[inline]
    pub(crate) fn start_behind(&self, at: usize, high: u64) -> usize {
        let mut to = self.runs.len();
        let mut from = at + 1;
        while from < to {
            let middle = from + (to - from) / 2;
            if self.runs[middle].0 < high {
                from = middle + 1;
            } else {
                to = middle;
            }
        }
        from
    }

    #[inline]
    pub(crate) fn replace(&mut self, from: usize, to: usize, run: (u64, u64)) {
        debug_assert!(from < to);
        self.runs[from] = run;
        take_out(&mut self.runs, from + 1, to);
    }

    #[inline]
    pub(crate) fn replace_by_two(
        &mut self,
        from: usize,
        to: usize,
        left: (u64, u64),
        right: (u64, u64),
    ) {
        self.replace(to - 1, to, right);
        self.replace(from, to - 1, left);
    }

    #[inline]
    pub(crate) fn split(
        &mut self,
        at: usize,
        left: (u64, u64),
        right: (u64, u64),
    ) -> Result<(), NoMemory> {
        self.runs.insert(at + 1, right)?;
        self.runs[at] = left;
        Ok(())
    }

    #[inline]
    pub(crate) fn take_out(&mut self, from: usize, to: usize) {
        debug_assert!(from <= to);
        take_out(&mut self.runs, from, to);
    }

    #[inline]
    pub(crate) fn insert(&mut self, at: usize, run: (u64, u64)) -> Result<(), NoMemory> {
        self.runs.insert(at, run)?;
        Ok(())
    }

    #[inline]
    pub(crate) fn copy_from(&self, alloc: Global, from: usize) -> Result<Self, NoMemory> {
        let mut runs = Vec::with_capacity(alloc, MOST_RUNS)?;
        runs.extend_from_slice(&self.runs[from..])?;
        Ok(Block { runs })
    }

    #[inline]
    pub(crate) fn copy_to(&self, into: &mut [(u64, u64)]) {
        into.copy_from_slice(&self.runs);
    }
}

// One move of those behind, where one removal for each would move them as often as runs go.
fn take_out(runs: &mut Vec<(u64, u64)>, from: usize, to: usize) {
    debug_assert!(from <= to);
    if from < to {
        let kept = runs.len() - (to - from);
        runs.copy_within(to.., from);
        runs.truncate(kept);
    }
}
