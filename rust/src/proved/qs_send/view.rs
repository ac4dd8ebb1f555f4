// Made from crates/qs_send/src/view.rt by rust/erase; not edited by hand.
//! A sending half to be read, over or not. One type for both, so that a caller needn't know how a half is kept.

use crate::proved::qs_send::half::SendHalf;
use crate::proved::qs_send::halves::slot::SendSlot;
use crate::proved::qs_send::offsets::Memory;
use crate::proved::qs_send::parts::{Chunk, SendFault, SendState};

pub struct SendView<'a> {
    half: Viewed<'a>,
}

#[derive(Clone, Copy)]
pub(crate) enum Viewed<'a> {
    Over(Over),
    Full(&'a SendHalf),
}

/// What a slot says, put together again: the numbers of a half that is over.
#[derive(Clone, Copy)]
pub(crate) struct Over {
    number: u64,
    written: u64,
    limit: u64,
    was_blocked: bool,
    buffer: u32,
    widest: u32,
}

impl<'a> SendView<'a> {
    #[inline(always)]
    pub(crate) fn of_over(number: u64, written: u64, slot: SendSlot) -> Self {
        debug_assert!(number <= 0x3fff_ffff_ffff_ffff);
        SendView {
            half: Viewed::Over(Over {
                number,
                written,
                limit: slot.rest / 2,
                was_blocked: slot.rest % 2 == 1,
                buffer: slot.buffer,
                widest: slot.widest,
            }),
        }
    }

    #[inline(always)]
    pub(crate) fn of_full(half: &'a SendHalf) -> Self {
        SendView {
            half: Viewed::Full(half),
        }
    }

    #[inline(always)]
    pub fn not_over(&self) -> Option<&'a SendHalf> {
        match self.half {
            Viewed::Over(_) => None,
            Viewed::Full(half) => Some(half),
        }
    }

    #[inline(always)]
    pub fn stop_code(&self) -> Option<u64> {
        match self.half {
            Viewed::Over(_) => None,
            Viewed::Full(half) => half.stop_code(),
        }
    }

    #[inline(always)]
    pub fn stop_changes(&self) -> bool {
        match self.half {
            Viewed::Over(_) => false,
            Viewed::Full(half) => half.stop_changes(),
        }
    }

    #[inline(always)]
    pub fn asked_changes(&self) -> bool {
        match self.half {
            Viewed::Over(_) => false,
            Viewed::Full(half) => half.asked_changes(),
        }
    }

    #[inline(always)]
    pub fn state(&self) -> SendState {
        match self.half {
            Viewed::Over(_) => SendState::DataRecvd,
            Viewed::Full(half) => half.state(),
        }
    }

    #[inline(always)]
    pub fn final_size(&self) -> Option<u64> {
        match self.half {
            Viewed::Over(over) => Some(over.written),
            Viewed::Full(half) => half.final_size(),
        }
    }

    #[inline(always)]
    pub fn reset_code(&self) -> Option<u64> {
        match self.half {
            Viewed::Over(_) => None,
            Viewed::Full(half) => half.reset_code(),
        }
    }

    #[inline(always)]
    pub fn written(&self) -> u64 {
        match self.half {
            Viewed::Over(over) => over.written,
            Viewed::Full(half) => half.written(),
        }
    }

    #[inline(always)]
    pub fn sent_end(&self) -> u64 {
        match self.half {
            Viewed::Over(over) => over.written,
            Viewed::Full(half) => half.sent_end(),
        }
    }

    #[inline(always)]
    pub fn unacked_from(&self) -> u64 {
        match self.half {
            Viewed::Over(over) => over.written,
            Viewed::Full(half) => half.unacked_from(),
        }
    }

    #[inline(always)]
    pub fn limit(&self) -> u64 {
        match self.half {
            Viewed::Over(over) => over.limit,
            Viewed::Full(half) => half.limit(),
        }
    }

    #[inline(always)]
    pub fn room(&self) -> usize {
        match self.half {
            Viewed::Over(over) => over.buffer as usize,
            Viewed::Full(half) => half.room(),
        }
    }

    #[inline(always)]
    pub fn held(&self) -> Memory<'a> {
        match self.half {
            Viewed::Over(_) => Memory {
                bytes: 0,
                offsets: None,
            },
            Viewed::Full(half) => half.held(),
        }
    }

    #[inline(always)]
    pub fn refusal(&self) -> Option<SendFault> {
        match self.half {
            Viewed::Over(_) => Some(SendFault::Finished),
            Viewed::Full(half) => half.refusal(),
        }
    }

    #[inline(always)]
    pub fn next_chunk(&self, room: usize, fresh: u64) -> Option<Chunk> {
        match self.half {
            Viewed::Over(_) => None,
            Viewed::Full(half) => half.next_chunk(room, fresh),
        }
    }

    #[inline(always)]
    pub fn is_held_by_room(&self, room: usize, fresh: u64) -> bool {
        match self.half {
            Viewed::Over(_) => false,
            Viewed::Full(half) => half.is_held_by_room(room, fresh),
        }
    }

    #[inline(always)]
    pub fn has_unsent(&self) -> bool {
        match self.half {
            Viewed::Over(_) => false,
            Viewed::Full(half) => half.has_unsent(),
        }
    }

    /// The bytes of a chunk that is still in the buffer, in two pieces if they go around the ring's end.
    #[inline(always)]
    pub fn bytes(&self, chunk: Chunk) -> (&'a [u8], &'a [u8]) {
        match self.half {
            Viewed::Over(_) => (&[], &[]),
            Viewed::Full(half) => half.bytes(chunk),
        }
    }
}
