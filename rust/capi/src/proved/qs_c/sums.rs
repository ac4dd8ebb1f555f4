// Made from crates/qs_c/src/sums.rt by rust/erase; not edited by hand.
//! The calls of C for what is counted over all streams: what waits to be sent, what is kept, and what was consumed.

use crate::proved::qs_c::answers::{INVALID, OK, of_number};
use crate::proved::qs_c::handle::Handle;
use crate::proved::qs_c::thing::Thing;
use crate::proved::qs_wire::StreamId;
use crate::shim::alloc::Global;

pub fn gvp_unsent_sum(alloc: Global, end: &mut Handle, count: &mut u64) -> u32 {
    let Some(thing) = end.take(alloc) else {
        return INVALID;
    };
    let status = thing.unsent_sum(count);
    end.put(thing);
    status
}

pub fn gvp_kept_sum(alloc: Global, end: &mut Handle, count: &mut u64) -> u32 {
    let Some(thing) = end.take(alloc) else {
        return INVALID;
    };
    let status = thing.kept_sum(count);
    end.put(thing);
    status
}

pub fn gvp_taken_on(alloc: Global, end: &mut Handle, stream: u64, count: &mut u64) -> u32 {
    let Some(thing) = end.take(alloc) else {
        return INVALID;
    };
    let status = thing.taken(stream, count);
    end.put(thing);
    status
}

pub fn gvp_taken_sum(alloc: Global, end: &mut Handle, count: &mut u64) -> u32 {
    let Some(thing) = end.take(alloc) else {
        return INVALID;
    };
    let status = thing.taken_sum(count);
    end.put(thing);
    status
}

impl Thing {
    pub(crate) fn unsent_sum(&self, count: &mut u64) -> u32 {
        *count = self.end.unsent_sum();
        OK
    }

    pub(crate) fn kept_sum(&self, count: &mut u64) -> u32 {
        *count = self.end.kept_sum();
        OK
    }

    pub(crate) fn taken(&self, stream: u64, count: &mut u64) -> u32 {
        let Some(id) = StreamId::new(stream) else {
            return INVALID;
        };
        of_number(self.end.taken(id), count)
    }

    pub(crate) fn taken_sum(&self, count: &mut u64) -> u32 {
        *count = self.end.taken_sum();
        OK
    }
}
