// Made from crates/qs_c/src/events.rt by rust/erase; not edited by hand.
//! What was reported to an application, and what it notes for that. A handle of its own, beside that of the endpoint, so that no contract
//! of another call speaks of it.
use crate::shim::Box;

use crate::proved::qs_c::answers::{INVALID, NO_MEMORY, OK};
use crate::proved::qs_c::calls::dir_of;
use crate::proved::qs_c::frame::GvFrame;
use crate::proved::qs_c::handle::Handle;
use crate::proved::qs_c::listener::Listener;
use crate::proved::qs_c::listener_handle::ListenerHandle;
use crate::proved::qs_c::news::{GvNews, of_news, of_note};
use crate::proved::qs_c::puts::{frame_of, is_known};
use crate::proved::qs_c::thing::Thing;
use crate::proved::qs_conn::{Endpoint, Heard};
use crate::proved::qs_wire::StreamId;
use crate::shim::alloc::Global;

/// Takes the memory for the notes, apart from the endpoint's: they take 2.9 KB, and many applications want no events. A handle that holds
/// some loses it.
pub fn gvp_heard_new(alloc: Global, heard: &mut ListenerHandle) -> u32 {
    let nothing = Heard::new(alloc);
    let Ok(boxed) = Box::new(alloc, Listener { heard: nothing }) else {
        return NO_MEMORY;
    };
    heard.put(boxed);
    OK
}

pub fn gvp_heard_drop(alloc: Global, heard: &mut ListenerHandle) {
    let _gone = heard.take(alloc);
}

/// Returns the first event and notes that it was reported.
pub fn gvp_next_news(
    alloc: Global,
    heard: &mut ListenerHandle,
    end: &mut Handle,
    news: &mut GvNews,
) -> u32 {
    let Some(thing) = end.take(alloc) else {
        return INVALID;
    };
    let status = thing.next_news(alloc, heard, news);
    end.put(thing);
    status
}

/// Before the write, since afterwards nobody knows what was offered.
pub fn gvp_will_write(
    alloc: Global,
    heard: &mut ListenerHandle,
    end: &mut Handle,
    stream: u64,
    len: usize,
) -> u32 {
    let Some(thing) = end.take(alloc) else {
        return INVALID;
    };
    let status = thing.will_write(alloc, heard, stream, len);
    end.put(thing);
    status
}

pub fn gvp_wants(alloc: Global, heard: &mut ListenerHandle, dir: u32) -> u32 {
    let Some(mut listener) = heard.take(alloc) else {
        return INVALID;
    };
    let status = listener.wants(dir);
    heard.put(listener);
    status
}

pub fn gvp_was_read(
    alloc: Global,
    heard: &mut ListenerHandle,
    end: &mut Handle,
    stream: u64,
) -> u32 {
    let Some(thing) = end.take(alloc) else {
        return INVALID;
    };
    let status = thing.was_read(alloc, heard, stream);
    end.put(thing);
    status
}

/// A frame that was passed in, which may say what blocks the peer.
pub fn gvp_was_told(
    alloc: Global,
    heard: &mut ListenerHandle,
    end: &mut Handle,
    frame: &GvFrame,
    bytes: &[u8],
) -> u32 {
    let Some(thing) = end.take(alloc) else {
        return INVALID;
    };
    let status = thing.was_told(alloc, heard, frame, bytes);
    end.put(thing);
    status
}

impl Thing {
    pub(crate) fn next_news(
        &self,
        alloc: Global,
        heard: &mut ListenerHandle,
        news: &mut GvNews,
    ) -> u32 {
        let Some(mut listener) = heard.take(alloc) else {
            return INVALID;
        };
        let status = listener.next_news(&self.end, news);
        heard.put(listener);
        status
    }

    pub(crate) fn will_write(
        &self,
        alloc: Global,
        heard: &mut ListenerHandle,
        stream: u64,
        len: usize,
    ) -> u32 {
        let Some(mut listener) = heard.take(alloc) else {
            return INVALID;
        };
        let status = listener.will_write(&self.end, stream, len);
        heard.put(listener);
        status
    }

    pub(crate) fn was_read(&self, alloc: Global, heard: &mut ListenerHandle, stream: u64) -> u32 {
        let Some(mut listener) = heard.take(alloc) else {
            return INVALID;
        };
        let status = listener.was_read(&self.end, stream);
        heard.put(listener);
        status
    }

    pub(crate) fn was_told(
        &self,
        alloc: Global,
        heard: &mut ListenerHandle,
        frame: &GvFrame,
        bytes: &[u8],
    ) -> u32 {
        let Some(mut listener) = heard.take(alloc) else {
            return INVALID;
        };
        let status = listener.was_told(&self.end, frame, bytes);
        heard.put(listener);
        status
    }
}

impl Listener {
    pub(crate) fn next_news(&mut self, end: &Endpoint, news: &mut GvNews) -> u32 {
        of_news(self.heard.next_news(end), news)
    }

    pub(crate) fn will_write(&mut self, end: &Endpoint, stream: u64, len: usize) -> u32 {
        let Some(id) = StreamId::new(stream) else {
            return INVALID;
        };
        of_note(self.heard.will_write(end, id, len))
    }

    pub(crate) fn wants(&mut self, dir: u32) -> u32 {
        let Some(way) = dir_of(dir) else {
            return INVALID;
        };
        self.heard.wants(way);
        OK
    }

    pub(crate) fn was_read(&mut self, end: &Endpoint, stream: u64) -> u32 {
        let Some(id) = StreamId::new(stream) else {
            return INVALID;
        };
        self.heard.was_read(end, id);
        OK
    }

    pub(crate) fn was_told(&mut self, end: &Endpoint, frame: &GvFrame, bytes: &[u8]) -> u32 {
        if !is_known(frame) || StreamId::new(frame.stream).is_none() {
            return INVALID;
        }
        let Some(given) = frame_of(frame, bytes, &[]) else {
            return INVALID;
        };
        of_note(self.heard.was_told(end, &given))
    }
}
