// Made from crates/qs_c/src/peeking.rt by rust/erase; not edited by hand.
//! The next bytes are lent where they are.

use crate::proved::qs_c::answers::{INVALID, of_peek};
use crate::proved::qs_c::handle::Handle;
use crate::proved::qs_c::thing::Thing;
use crate::proved::qs_wire::StreamId;

#[repr(C)]
#[derive(Clone, Copy)]
pub struct GvPieces<'a> {
    pub front: &'a [u8],
    pub back: &'a [u8],
}

/// The pieces are lent as long as the handle is: the rules on borrows say so, and no promise beside them. The price is a `&mut` for a call
/// that changes nothing.
pub fn gvp_peek<'a>(
    end: &'a mut Handle,
    stream: u64,
    code: &mut u64,
    pieces: &mut GvPieces<'a>,
) -> u32 {
    let Some(thing) = end.held() else {
        return INVALID;
    };
    thing.peek(stream, code, pieces)
}

impl Thing {
    pub(crate) fn peek<'a>(&'a self, stream: u64, code: &mut u64, pieces: &mut GvPieces<'a>) -> u32 {
        let Some(id) = StreamId::new(stream) else {
            return INVALID;
        };
        of_peek(self.end.peek(id), code, pieces)
    }
}
