// Made from crates/qs_send/src/halves/slot.rt by rust/erase; not edited by hand.
//! A slot of 24 bytes: in it stands a half that is over, of another its place.

use crate::proved::qs_ranges::MaybeNumber;

/// Most streams that ever were are over, so what they take is what counts.
#[derive(Clone, Copy)]
pub(crate) struct SendSlot {
    // None: the half isn't over.
    pub(crate) written: MaybeNumber,
    // Of a half that is over twice its limit, and one more if a STREAM_DATA_BLOCKED was sent, since a flag of its own would take eight
    // bytes; of another its place.
    pub(crate) rest: u64,
    pub(crate) buffer: u32,
    pub(crate) widest: u32,
}

impl SendSlot {
    #[inline]
    pub(crate) fn full(place: usize) -> Self {
        SendSlot {
            written: MaybeNumber::none(),
            rest: place as u64,
            buffer: 0,
            widest: 0,
        }
    }

    #[inline]
    pub(crate) fn none() -> Self {
        SendSlot {
            written: MaybeNumber::some(0),
            rest: 0,
            buffer: 0,
            widest: 0,
        }
    }

    #[inline(always)]
    pub(crate) fn is_over(&self) -> bool {
        self.written.get().is_some()
    }

    #[inline(always)]
    pub(crate) fn place_or(&self, none: usize) -> usize {
        if self.is_over() {
            none
        } else {
            self.rest as usize
        }
    }
}
