// Made from crates/qs_send/src/live_offsets.rt by rust/erase; not edited by hand.
//! The written offsets of a half of which some are still to be sent or acknowledged.

use crate::proved::qs_send::edits::{add, forget};
use crate::proved::qs_send::kept::Kept;
use crate::proved::qs_ranges::{NoMemory, RangeSet};
use crate::shim::alloc::Global;

pub(crate) struct LiveOffsets {
    written: u64,
    // From the lowest unacknowledged offset on, since a buffer frees only at its front.
    kept: Kept,
    acked: RangeSet,
    // As due; those of them that aren't acknowledged are. So acknowledging need not touch this set, which might want memory.
    noted: RangeSet,
    sent_end: u64,
}

impl LiveOffsets {
    /// All acknowledged, so it takes no memory: a half that has not been written to is so.
    #[inline]
    pub(crate) fn at_rest(alloc: Global, written: u64) -> Self {
        debug_assert!(written <= 0x3fff_ffff_ffff_ffff);
        Self {
            written,
            kept: Kept::new(alloc),
            acked: RangeSet::below(alloc, written),
            noted: RangeSet::new(alloc),
            sent_end: written,
        }
    }

    #[inline(always)]
    pub(crate) fn sent_end(&self) -> u64 {
        self.sent_end
    }

    #[inline]
    pub(crate) fn unacked_from(&self) -> u64 {
        self.acked.first_missing(0)
    }

    #[inline(always)]
    pub(crate) fn kept_len(&self) -> usize {
        self.kept.len()
    }

    #[inline]
    pub(crate) fn held(&self) -> usize {
        self.kept.held()
    }

    #[inline(always)]
    pub(crate) fn part(&self, from: usize, len: usize) -> (&[u8], &[u8]) {
        self.kept.part(from, len)
    }

    #[inline]
    pub(crate) fn write(&mut self, bytes: &[u8], most: usize) -> Result<(), NoMemory> {
        let before = self.kept.len();
        let end = self.written + bytes.len() as u64;
        self.kept.append(bytes, most)?;
        if let Err(fault) = self.noted.insert(self.written, end) {
            self.kept.truncate(before);
            return Err(fault);
        }
        self.written = end;
        Ok(())
    }

    #[inline]
    pub(crate) fn sent(&mut self, end: u64) {
        let before = self.sent_end;
        self.noted.drop_below(end);
        self.sent_end = before.max(end);
    }

    /// Once nothing is left and nothing more comes, the buffer's memory goes. Unchanged if memory was refused.
    #[inline]
    pub(crate) fn acked(&mut self, lo: u64, hi: u64, is_over: bool) -> Result<(), NoMemory> {
        debug_assert!(lo <= hi);
        let from = self.written - self.kept.len() as u64;
        add(&mut self.acked, lo, hi)?;
        // It needn't stay noted, and each run that goes is one fewer to search.
        forget(&mut self.noted, lo, hi);
        let low = self.acked.first_missing(0);
        self.kept.let_go(low.saturating_sub(from) as usize, is_over);
        Ok(())
    }

    /// What isn't acknowledged is due again. Unchanged if memory was refused.
    #[inline]
    pub(crate) fn lost(&mut self, lo: u64, hi: u64) -> Result<(), NoMemory> {
        debug_assert!(lo <= hi);
        let _written = self.written;
        add(&mut self.noted, lo, hi)?;
        Ok(())
    }

    #[inline]
    pub(crate) fn let_all_go(&mut self) {
        let count = self.kept.len();
        self.kept.let_go(count, true);
        self.noted.drop_below(self.written);
    }

    #[inline]
    pub(crate) fn rests(&self) -> bool {
        self.acked.first_missing(0) == self.written
    }

    #[inline]
    pub(crate) fn due_run(&self) -> Option<(u64, u64)> {
        let Some((start, end)) = self.noted.run_from(0) else {
            return None;
        };
        match self.acked.run_from(start) {
            None => Some((start, end)),
            Some((next, _)) if start < next => Some((start, next.min(end))),
            Some((_, after)) => self.due_run_from(after),
        }
    }

    // Apart, since mostly the first run that is noted is due.
    #[inline(never)]
    fn due_run_from(&self, from: u64) -> Option<(u64, u64)> {
        let mut from = from;
        while let Some((start, end)) = self.noted.run_from(from) {
            match self.acked.run_from(start) {
                None => return Some((start, end)),
                Some((next, _)) if start < next => return Some((start, next.min(end))),
                Some((_, after)) => from = after,
            }
        }
        None
    }
}
