// Made from crates/qs_c/src/asks.rt by rust/erase; not edited by hand.
//! What the calls ask of an end. Nothing changes.

use crate::proved::qs_c::answers::{INVALID, OK, of_lane, of_number, of_stream};
use crate::proved::qs_c::calls::dir_of;
use crate::proved::qs_c::lane::GvLane;
use crate::proved::qs_c::thing::Thing;
use crate::proved::qs_wire::StreamId;

impl Thing {
    pub(crate) fn next_readable(&self, from: u64, stream: &mut u64) -> u32 {
        let Some(id) = StreamId::new(from) else {
            return INVALID;
        };
        of_stream(self.end.next_readable(id), stream)
    }

    pub(crate) fn next_writable(&self, from: u64, stream: &mut u64) -> u32 {
        let Some(id) = StreamId::new(from) else {
            return INVALID;
        };
        of_stream(self.end.next_writable(id), stream)
    }

    pub(crate) fn next_sendable(&self, from: u64, stream: &mut u64) -> u32 {
        let Some(id) = StreamId::new(from) else {
            return INVALID;
        };
        of_stream(self.end.next_sendable(id), stream)
    }

    pub(crate) fn next_ended(&self, from: u64, stream: &mut u64) -> u32 {
        let Some(id) = StreamId::new(from) else {
            return INVALID;
        };
        of_stream(self.end.next_ended(id), stream)
    }

    pub(crate) fn is_sendable(&self, answer: &mut bool) -> u32 {
        *answer = self.end.is_sendable();
        OK
    }

    pub(crate) fn is_blocked(&self, stream: u64, answer: &mut bool) -> u32 {
        let Some(id) = StreamId::new(stream) else {
            return INVALID;
        };
        *answer = self.end.is_blocked(id);
        OK
    }

    pub(crate) fn credit_left(&self, count: &mut u64) -> u32 {
        *count = self.end.credit_left();
        OK
    }

    pub(crate) fn room(&self, stream: u64, count: &mut u64) -> u32 {
        let Some(id) = StreamId::new(stream) else {
            return INVALID;
        };
        *count = self.end.room(id);
        OK
    }

    pub(crate) fn unsent(&self, stream: u64, count: &mut u64) -> u32 {
        let Some(id) = StreamId::new(stream) else {
            return INVALID;
        };
        *count = self.end.unsent(id);
        OK
    }

    pub(crate) fn acked_below(&self, stream: u64, offset: &mut u64) -> u32 {
        let Some(id) = StreamId::new(stream) else {
            return INVALID;
        };
        of_number(self.end.acked_below(id), offset)
    }

    pub(crate) fn ack_is_due(&self, answer: &mut bool) -> u32 {
        *answer = self.end.ack_is_due();
        OK
    }

    pub(crate) fn streams_left(&self, dir: u32, count: &mut u64) -> u32 {
        let Some(way) = dir_of(dir) else {
            return INVALID;
        };
        *count = self.end.streams_left(way);
        OK
    }

    pub(crate) fn open_left(&self, dir: u32, count: &mut u64) -> u32 {
        let Some(way) = dir_of(dir) else {
            return INVALID;
        };
        *count = self.end.open_left(way);
        OK
    }

    pub(crate) fn granted_streams(&self, dir: u32, count: &mut u64) -> u32 {
        let Some(way) = dir_of(dir) else {
            return INVALID;
        };
        *count = self.end.granted_streams(way);
        OK
    }

    pub(crate) fn stored(&self, count: &mut u64) -> u32 {
        *count = self.end.stored();
        OK
    }

    pub(crate) fn noted(&self, count: &mut u64) -> u32 {
        *count = self.end.noted();
        OK
    }

    pub(crate) fn held(&self, receiving: &mut u64, sending: &mut u64) -> u32 {
        let held = self.end.held();
        *receiving = held.receiving;
        *sending = held.sending;
        OK
    }

    pub(crate) fn granted(&self, count: &mut u64) -> u32 {
        *count = self.end.granted();
        OK
    }

    pub(crate) fn spent(&self, count: &mut u64) -> u32 {
        *count = self.end.spent();
        OK
    }

    pub(crate) fn next_number(&self, number: &mut u64) -> u32 {
        *number = self.end.next_number();
        OK
    }

    pub(crate) fn peer_closed(&self, code: &mut u64) -> u32 {
        of_number(self.end.peer_closed(), code)
    }

    pub(crate) fn stopped_with(&self, stream: u64, code: &mut u64) -> u32 {
        let Some(id) = StreamId::new(stream) else {
            return INVALID;
        };
        of_number(self.end.stopped_with(id), code)
    }

    pub(crate) fn next_outstanding(&self, from: u64, number: &mut u64) -> u32 {
        of_number(self.end.next_outstanding(from), number)
    }

    pub(crate) fn lane_report(&self, stream: u64, lane: &mut GvLane) -> u32 {
        let Some(id) = StreamId::new(stream) else {
            return INVALID;
        };
        of_lane(self.end.lane_report(id), lane)
    }
}
