// Made from crates/qs_c/src/consuming.rt by rust/erase; not edited by hand.
//! Bytes are taken without a copy.

use crate::proved::qs_c::answers::{INVALID, of_consumed};
use crate::proved::qs_c::handle::Handle;
use crate::proved::qs_c::thing::Thing;
use crate::proved::qs_wire::StreamId;
use crate::shim::alloc::Global;

pub fn gvp_consume(
    alloc: Global,
    end: &mut Handle,
    stream: u64,
    most: usize,
    number: &mut u64,
    at_end: &mut bool,
) -> u32 {
    let Some(mut thing) = end.take(alloc) else {
        return INVALID;
    };
    let status = thing.consume(stream, most, number, at_end);
    end.put(thing);
    status
}

impl Thing {
    pub(crate) fn consume(
        &mut self,
        stream: u64,
        most: usize,
        number: &mut u64,
        at_end: &mut bool,
    ) -> u32 {
        let Some(id) = StreamId::new(stream) else {
            return INVALID;
        };
        of_consumed(self.end.consume(id, most), number, at_end)
    }
}
