// Made from crates/qs_c/src/setting.rt by rust/erase; not edited by hand.
use crate::proved::qs_c::answers::{INVALID, of_set};
use crate::proved::qs_c::calls::dir_of;
use crate::proved::qs_c::handle::Handle;
use crate::proved::qs_c::thing::Thing;
use crate::proved::qs_wire::StreamId;
use crate::shim::alloc::Global;

pub fn gvp_set_conn_window(alloc: Global, end: &mut Handle, window: u64) -> u32 {
    let Some(mut thing) = end.take(alloc) else {
        return INVALID;
    };
    let status = thing.set_conn_window(window);
    end.put(thing);
    status
}

pub fn gvp_set_grant(alloc: Global, end: &mut Handle, dir: u32, streams: u64) -> u32 {
    let Some(mut thing) = end.take(alloc) else {
        return INVALID;
    };
    let status = thing.set_grant(dir, streams);
    end.put(thing);
    status
}

pub fn gvp_set_send_buffer(
    alloc: Global,
    end: &mut Handle,
    stream: u64,
    size: usize,
) -> u32 {
    let Some(mut thing) = end.take(alloc) else {
        return INVALID;
    };
    let status = thing.set_send_buffer(stream, size);
    end.put(thing);
    status
}

pub fn gvp_set_stream_window(
    alloc: Global,
    end: &mut Handle,
    stream: u64,
    window: u64,
) -> u32 {
    let Some(mut thing) = end.take(alloc) else {
        return INVALID;
    };
    let status = thing.set_stream_window(stream, window);
    end.put(thing);
    status
}

impl Thing {
    pub(crate) fn set_conn_window(&mut self, window: u64) -> u32 {
        of_set(self.end.set_conn_window(window))
    }

    pub(crate) fn set_grant(&mut self, dir: u32, streams: u64) -> u32 {
        let Some(way) = dir_of(dir) else {
            return INVALID;
        };
        of_set(self.end.set_grant(way, streams))
    }

    pub(crate) fn set_send_buffer(&mut self, stream: u64, size: usize) -> u32 {
        let Some(id) = StreamId::new(stream) else {
            return INVALID;
        };
        of_set(self.end.set_send_buffer(id, size))
    }

    pub(crate) fn set_stream_window(&mut self, stream: u64, window: u64) -> u32 {
        let Some(id) = StreamId::new(stream) else {
            return INVALID;
        };
        of_set(self.end.set_stream_window(id, window))
    }
}
