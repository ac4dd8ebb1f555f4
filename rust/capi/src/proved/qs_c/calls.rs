// Made from crates/qs_c/src/calls.rt by rust/erase; not edited by hand.
//! What the calls do with an end.

use crate::proved::qs_c::answers::{
    INVALID, of_claim, of_closing, of_count, of_len, of_lost, of_made, of_open, of_raise, of_read,
    of_received, of_stream, of_use,
};
use crate::proved::qs_c::structs::{GvClosing, GvLimits, GvMade};
use crate::proved::qs_c::thing::Thing;
use crate::proved::qs_wire::{Dir, StreamId};

const LIMIT: u64 = 1 << 62;

const MIN_ROOM: usize = 128;

const MAX_ROOM: usize = 16_383;

impl Thing {
    pub(crate) fn receive(&mut self, number: u64, payload: &[u8], closing: &mut GvClosing) -> u32 {
        if number >= LIMIT {
            return INVALID;
        }
        of_received(self.end.receive(number, payload), closing)
    }

    pub(crate) fn make_packet_from(
        &mut self,
        first: u64,
        delay: u64,
        out: &mut [u8],
        made: &mut GvMade,
    ) -> u32 {
        let Some(id) = StreamId::new(first) else {
            return INVALID;
        };
        if delay >= LIMIT || out.len() < MIN_ROOM || out.len() > MAX_ROOM {
            return INVALID;
        }
        of_made(self.end.make_packet_from(id, delay, out), made)
    }

    pub(crate) fn open(&mut self, dir: u32, number: &mut u64) -> u32 {
        let Some(way) = dir_of(dir) else {
            return INVALID;
        };
        of_open(self.end.open(way), number)
    }

    pub(crate) fn accept(&mut self, stream: &mut u64) -> u32 {
        of_stream(self.end.accept(), stream)
    }

    pub(crate) fn accept_of(&mut self, dir: u32, stream: &mut u64) -> u32 {
        let Some(way) = dir_of(dir) else {
            return INVALID;
        };
        of_stream(self.end.accept_of(way), stream)
    }

    pub(crate) fn write(&mut self, stream: u64, bytes: &[u8], count: &mut usize) -> u32 {
        let Some(id) = StreamId::new(stream) else {
            return INVALID;
        };
        of_count(self.end.write(id, bytes), count)
    }

    pub(crate) fn finish(&mut self, stream: u64) -> u32 {
        let Some(id) = StreamId::new(stream) else {
            return INVALID;
        };
        of_use(self.end.finish(id))
    }

    pub(crate) fn reset(&mut self, stream: u64, code: u64) -> u32 {
        let Some(id) = StreamId::new(stream) else {
            return INVALID;
        };
        if code >= LIMIT {
            return INVALID;
        }
        of_use(self.end.reset(id, code))
    }

    pub(crate) fn stop(&mut self, stream: u64, code: u64) -> u32 {
        let Some(id) = StreamId::new(stream) else {
            return INVALID;
        };
        if code >= LIMIT {
            return INVALID;
        }
        of_use(self.end.stop(id, code))
    }

    pub(crate) fn stop_and_discard(&mut self, stream: u64, code: u64) -> u32 {
        let Some(id) = StreamId::new(stream) else {
            return INVALID;
        };
        if code >= LIMIT {
            return INVALID;
        }
        of_use(self.end.stop_and_discard(id, code))
    }

    pub(crate) fn read(&mut self, stream: u64, into: &mut [u8], number: &mut u64) -> u32 {
        let Some(id) = StreamId::new(stream) else {
            return INVALID;
        };
        of_read(self.end.read(id, into), number)
    }

    pub(crate) fn declare_lost(&mut self, number: u64) -> u32 {
        of_lost(self.end.declare_lost(number))
    }

    pub(crate) fn claim_number(&mut self, number: &mut u64) -> u32 {
        of_claim(self.end.claim_number(), number)
    }

    pub(crate) fn make_ack(&mut self, delay: u64, out: &mut [u8], made: &mut GvMade) -> u32 {
        if delay >= LIMIT || out.len() < MIN_ROOM || out.len() > MAX_ROOM {
            return INVALID;
        }
        of_made(self.end.make_ack(delay, out), made)
    }

    pub(crate) fn raise_limits(&mut self, limits: &GvLimits) -> u32 {
        of_raise(self.end.raise_limits(&limits.limits()))
    }

    pub(crate) fn closing(&self, closing: &mut GvClosing) -> u32 {
        of_closing(self.end.closing(), closing)
    }

    pub(crate) fn close_payload(&self, out: &mut [u8], len: &mut usize) -> u32 {
        of_len(self.end.close_payload(out), len)
    }
}

pub(crate) fn dir_of(dir: u32) -> Option<Dir> {
    match dir {
        0 => Some(Dir::Bidi),
        1 => Some(Dir::Uni),
        _ => None,
    }
}
