// Made from crates/qs_send/src/half/over.rt by rust/erase; not edited by hand.
//! A half that is over, as a few bytes.

use super::SendHalf;
use crate::proved::qs_send::halves::slot::SendSlot;
use crate::proved::qs_ranges::MaybeNumber;

impl SendHalf {
    /// Whether the end is acknowledged.
    #[inline(always)]
    pub fn end_acked(&self) -> bool {
        self.fin_acked
    }

    #[inline]
    pub(crate) fn index(&self) -> u64 {
        self.id.value() / 4
    }

    /// Only if it was neither reset nor stopped: the codes wouldn't fit a slot.
    #[inline]
    pub(crate) fn over(&self, number: u64) -> Option<SendSlot> {
        if self.id.value() != number {
            return None;
        }
        if self.reset_acked {
            return None;
        }
        if self.was_reset() {
            return None;
        }
        if !self.is_whole() {
            return None;
        }
        if self.stop_code().is_some() {
            return None;
        }
        Some(SendSlot {
            written: MaybeNumber::some(self.written()),
            rest: self.limit * 2 + self.blocked_sent as u64,
            buffer: self.buffer,
            widest: self.widest,
        })
    }
}
