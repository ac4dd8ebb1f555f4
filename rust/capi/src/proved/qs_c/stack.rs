// Made from crates/qs_c/src/stack.rt by rust/erase; not edited by hand.
//! The calls of C for a stack with packets of its own: it passes frames in, and has pending ones filled in.

use crate::proved::qs_c::answers::{INVALID, of_filled, of_taken};
use crate::proved::qs_c::frame::GvFrame;
use crate::proved::qs_c::handle::Handle;
use crate::proved::qs_c::puts::{frame_of, is_known};
use crate::proved::qs_c::structs::{GvFilled, GvRequest};
use crate::proved::qs_c::thing::Thing;
use crate::proved::qs_calls::Fill;
use crate::proved::qs_wire::StreamId;
use crate::shim::alloc::Global;

/// The token of a NEW_CONNECTION_ID isn't asked for: that frame is the stack's own.
pub fn gvp_take_frame(
    alloc: Global,
    end: &mut Handle,
    frame: &GvFrame,
    bytes: &[u8],
    taken: &mut u32,
) -> u32 {
    let Some(mut thing) = end.take(alloc) else {
        return INVALID;
    };
    let status = thing.take_frame(frame, bytes, taken);
    end.put(thing);
    status
}

pub fn gvp_fill(
    alloc: Global,
    end: &mut Handle,
    want: &GvRequest,
    out: &mut [u8],
    filled: &mut GvFilled,
) -> u32 {
    let Some(mut thing) = end.take(alloc) else {
        return INVALID;
    };
    let status = thing.fill(want, out, filled);
    end.put(thing);
    status
}

impl Thing {
    pub(crate) fn take_frame(&mut self, frame: &GvFrame, bytes: &[u8], taken: &mut u32) -> u32 {
        if !is_known(frame) || StreamId::new(frame.stream).is_none() {
            return INVALID;
        }
        let Some(given) = frame_of(frame, bytes, &[]) else {
            return INVALID;
        };
        of_taken(self.end.take_frame(&given), taken)
    }

    pub(crate) fn fill(&mut self, want: &GvRequest, out: &mut [u8], filled: &mut GvFilled) -> u32 {
        let Some(first) = StreamId::new(want.first) else {
            return INVALID;
        };
        let wanted = Fill {
            items: want.items,
            streams: want.streams,
            first,
            alone: want.alone,
            most_bytes: want.most_bytes,
        };
        of_filled(self.end.fill(out, &wanted), filled)
    }
}
