// Made from crates/qs_c/src/giving.rt by rust/erase; not edited by hand.
//! Frames of one packet are passed in.
use crate::shim::Vec;

use crate::proved::qs_c::answers::{INVALID, NO_MEMORY, of_taken};
use crate::proved::qs_c::frame::GvFrame;
use crate::proved::qs_c::handle::Handle;
use crate::proved::qs_c::puts::{frame_of, is_known};
use crate::proved::qs_c::thing::Thing;
use crate::proved::qs_wire::{Frame, StreamId};
use crate::shim::alloc::Global;

#[repr(C)]
#[derive(Clone, Copy)]
pub struct GvGiven<'a> {
    pub frame: GvFrame,
    pub bytes: &'a [u8],
}

/// Limits move once. It takes memory for the frames, since those of C are other structs.
pub fn gvp_take_frames(
    alloc: Global,
    end: &mut Handle,
    frames: &[GvGiven<'_>],
    taken: &mut u32,
) -> u32 {
    let Some(mut thing) = end.take(alloc) else {
        return INVALID;
    };
    let status = thing.take_frames(alloc, frames, taken);
    end.put(thing);
    status
}

impl Thing {
    pub(crate) fn take_frames(
        &mut self,
        alloc: Global,
        frames: &[GvGiven<'_>],
        taken: &mut u32,
    ) -> u32 {
        if !are_given(frames) {
            return INVALID;
        }
        let Some(given) = given_in(alloc, frames) else {
            return NO_MEMORY;
        };
        of_taken(self.end.take_frames(&given), taken)
    }
}

/// Before any takes effect, so that `Invalid` changes nothing.
fn are_given(frames: &[GvGiven<'_>]) -> bool {
    for given in frames {
        if !is_known(&given.frame) || StreamId::new(given.frame.stream).is_none() {
            return false;
        }
    }
    true
}

fn given_in<'a>(alloc: Global, frames: &[GvGiven<'a>]) -> Option<Vec<Frame<'a>>> {
    let Ok(mut all) = Vec::with_capacity(alloc, frames.len()) else {
        return None;
    };
    for given in frames {
        let Some(frame) = frame_of(&given.frame, given.bytes, &given.bytes[..0]) else {
            return None;
        };
        if all.push(frame).is_err() {
            return None;
        }
    }
    Some(all)
}
