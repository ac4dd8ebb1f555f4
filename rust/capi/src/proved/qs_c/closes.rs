// Made from crates/qs_c/src/closes.rt by rust/erase; not edited by hand.
//! A close that the endpoint didn't see is noted, and returned.

use crate::proved::qs_c::answers::{INVALID, NONE, OK};
use crate::proved::qs_c::handle::Handle;
use crate::proved::qs_c::structs::GvTold;
use crate::proved::qs_c::thing::Thing;
use crate::proved::qs_calls::{CloseKind, Closer, NotedClose};
use crate::shim::alloc::Global;

/// By numbers, which C checks against nothing: 0 is this side or the transport, 1 the peer or the application, and another is refused.
pub fn gvp_note_closed(
    alloc: Global,
    end: &mut Handle,
    by: u32,
    kind: u32,
    code: u64,
) -> u32 {
    let Some(mut thing) = end.take(alloc) else {
        return INVALID;
    };
    let status = thing.note_closed(by, kind, code);
    end.put(thing);
    status
}

/// As numbers of the same meaning. One struct, so that one contract says all of it.
pub fn gvp_noted_close(alloc: Global, end: &mut Handle, told: &mut GvTold) -> u32 {
    let Some(thing) = end.take(alloc) else {
        return INVALID;
    };
    let status = thing.noted_close(told);
    end.put(thing);
    status
}

impl Thing {
    pub(crate) fn note_closed(&mut self, by: u32, kind: u32, code: u64) -> u32 {
        if by > 1 {
            return INVALID;
        }
        if kind > 1 {
            return INVALID;
        }
        self.end.note_closed(close_of(by, kind, code));
        OK
    }

    pub(crate) fn noted_close(&self, told: &mut GvTold) -> u32 {
        match self.end.noted_close() {
            Some(close) => {
                *told = GvTold::of(close);
                OK
            }
            None => NONE,
        }
    }
}

fn close_of(by: u32, kind: u32, code: u64) -> NotedClose {
    NotedClose {
        by: if by == 0 { Closer::Us } else { Closer::Peer },
        kind: if kind == 0 {
            CloseKind::Transport
        } else {
            CloseKind::Application
        },
        code,
    }
}
