// Made from crates/qs_c/src/lib.rt by rust/erase; not edited by hand.
//! The calls of C: what the C layer in `c/src` offers as `gv_*` stands on them.
//!
//! Each takes a handle, checks what the endpoint's own call requires, and answers by a number of `specs/Statuses` and through its pointers.
//! Its contract is that of the endpoint's call, with how the answer is given. The C layer adds no number of its own, so what is proved here
//! is what C gets.

pub(crate) mod acks;
pub(crate) mod answers;
pub(crate) mod asks;
pub(crate) mod calls;
pub(crate) mod cell;
pub(crate) mod closes;
pub(crate) mod consuming;
pub(crate) mod events;
pub(crate) mod frame;
pub(crate) mod giving;
pub(crate) mod handle;
pub(crate) mod lane;
pub(crate) mod lending;
pub(crate) mod listener;
pub(crate) mod listener_cell;
pub(crate) mod listener_handle;
pub(crate) mod loose;
pub(crate) mod news;
pub(crate) mod peeking;
pub(crate) mod puts;
pub(crate) mod reads;
pub(crate) mod setting;
pub(crate) mod stack;
pub(crate) mod starts;
pub(crate) mod structs;
pub(crate) mod sums;
pub(crate) mod telling;
pub(crate) mod thing;
pub(crate) mod tokens;

use crate::proved::qs_c::acks::GvRange;
use crate::proved::qs_c::answers::{INVALID, of_stream};
use crate::proved::qs_c::frame::{GvFault, GvFrame};
use crate::proved::qs_c::handle::Handle;
use crate::proved::qs_c::lane::GvLane;
use crate::proved::qs_c::structs::{GvClosing, GvLimits, GvMade, GvSettings, GvTuning};
use crate::proved::qs_wire::last_stream;
use crate::shim::alloc::Global;

/// Apart from `gvp_new`, so that making an endpoint can't fail for memory once its settings passed. A handle that holds one loses it.
pub fn gvp_reserve(alloc: Global, end: &mut Handle) -> u32 {
    starts::reserve(alloc, end)
}

/// It takes no memory: `gvp_reserve` took it.
pub fn gvp_new(
    alloc: Global,
    end: &mut Handle,
    role: u32,
    settings: &GvSettings,
    tuning: &GvTuning,
    peer: &GvLimits,
) -> u32 {
    let Some(mut thing) = end.take(alloc) else {
        return INVALID;
    };
    let status = thing.start(alloc, role, settings, tuning, peer);
    end.put(thing);
    status
}

pub fn gvp_free(alloc: Global, end: &mut Handle) {
    let _gone = end.take(alloc);
}

pub fn gvp_receive(
    alloc: Global,
    end: &mut Handle,
    number: u64,
    payload: &[u8],
    closing: &mut GvClosing,
) -> u32 {
    let Some(mut thing) = end.take(alloc) else {
        return INVALID;
    };
    let status = thing.receive(number, payload, closing);
    end.put(thing);
    status
}

pub fn gvp_make_packet_from(
    alloc: Global,
    end: &mut Handle,
    first: u64,
    delay: u64,
    out: &mut [u8],
    made: &mut GvMade,
) -> u32 {
    let Some(mut thing) = end.take(alloc) else {
        return INVALID;
    };
    let status = thing.make_packet_from(first, delay, out, made);
    end.put(thing);
    status
}

pub fn gvp_open(alloc: Global, end: &mut Handle, dir: u32, number: &mut u64) -> u32 {
    let Some(mut thing) = end.take(alloc) else {
        return INVALID;
    };
    let status = thing.open(dir, number);
    end.put(thing);
    status
}

pub fn gvp_accept(alloc: Global, end: &mut Handle, stream: &mut u64) -> u32 {
    let Some(mut thing) = end.take(alloc) else {
        return INVALID;
    };
    let status = thing.accept(stream);
    end.put(thing);
    status
}

pub fn gvp_accept_of(alloc: Global, end: &mut Handle, dir: u32, stream: &mut u64) -> u32 {
    let Some(mut thing) = end.take(alloc) else {
        return INVALID;
    };
    let status = thing.accept_of(dir, stream);
    end.put(thing);
    status
}

pub fn gvp_write(
    alloc: Global,
    end: &mut Handle,
    stream: u64,
    bytes: &[u8],
    count: &mut usize,
) -> u32 {
    let Some(mut thing) = end.take(alloc) else {
        return INVALID;
    };
    let status = thing.write(stream, bytes, count);
    end.put(thing);
    status
}

pub fn gvp_finish(alloc: Global, end: &mut Handle, stream: u64) -> u32 {
    let Some(mut thing) = end.take(alloc) else {
        return INVALID;
    };
    let status = thing.finish(stream);
    end.put(thing);
    status
}

pub fn gvp_reset(alloc: Global, end: &mut Handle, stream: u64, code: u64) -> u32 {
    let Some(mut thing) = end.take(alloc) else {
        return INVALID;
    };
    let status = thing.reset(stream, code);
    end.put(thing);
    status
}

pub fn gvp_stop(alloc: Global, end: &mut Handle, stream: u64, code: u64) -> u32 {
    let Some(mut thing) = end.take(alloc) else {
        return INVALID;
    };
    let status = thing.stop(stream, code);
    end.put(thing);
    status
}

pub fn gvp_stop_and_discard(
    alloc: Global,
    end: &mut Handle,
    stream: u64,
    code: u64,
) -> u32 {
    let Some(mut thing) = end.take(alloc) else {
        return INVALID;
    };
    let status = thing.stop_and_discard(stream, code);
    end.put(thing);
    status
}

pub fn gvp_read(
    alloc: Global,
    end: &mut Handle,
    stream: u64,
    into: &mut [u8],
    number: &mut u64,
) -> u32 {
    let Some(mut thing) = end.take(alloc) else {
        return INVALID;
    };
    let status = thing.read(stream, into, number);
    end.put(thing);
    status
}

pub fn gvp_declare_lost(alloc: Global, end: &mut Handle, number: u64) -> u32 {
    let Some(mut thing) = end.take(alloc) else {
        return INVALID;
    };
    let status = thing.declare_lost(number);
    end.put(thing);
    status
}

pub fn gvp_closing(alloc: Global, end: &mut Handle, closing: &mut GvClosing) -> u32 {
    let Some(thing) = end.take(alloc) else {
        return INVALID;
    };
    let status = thing.closing(closing);
    end.put(thing);
    status
}

pub fn gvp_close_payload(
    alloc: Global,
    end: &mut Handle,
    out: &mut [u8],
    len: &mut usize,
) -> u32 {
    let Some(thing) = end.take(alloc) else {
        return INVALID;
    };
    let status = thing.close_payload(out, len);
    end.put(thing);
    status
}

pub fn gvp_next_readable(
    alloc: Global,
    end: &mut Handle,
    from: u64,
    stream: &mut u64,
) -> u32 {
    let Some(thing) = end.take(alloc) else {
        return INVALID;
    };
    let status = thing.next_readable(from, stream);
    end.put(thing);
    status
}

pub fn gvp_next_writable(
    alloc: Global,
    end: &mut Handle,
    from: u64,
    stream: &mut u64,
) -> u32 {
    let Some(thing) = end.take(alloc) else {
        return INVALID;
    };
    let status = thing.next_writable(from, stream);
    end.put(thing);
    status
}

pub fn gvp_next_sendable(
    alloc: Global,
    end: &mut Handle,
    from: u64,
    stream: &mut u64,
) -> u32 {
    let Some(thing) = end.take(alloc) else {
        return INVALID;
    };
    let status = thing.next_sendable(from, stream);
    end.put(thing);
    status
}

pub fn gvp_next_ended(
    alloc: Global,
    end: &mut Handle,
    from: u64,
    stream: &mut u64,
) -> u32 {
    let Some(thing) = end.take(alloc) else {
        return INVALID;
    };
    let status = thing.next_ended(from, stream);
    end.put(thing);
    status
}

pub fn gvp_is_sendable(alloc: Global, end: &mut Handle, answer: &mut bool) -> u32 {
    let Some(thing) = end.take(alloc) else {
        return INVALID;
    };
    let status = thing.is_sendable(answer);
    end.put(thing);
    status
}

pub fn gvp_is_blocked(
    alloc: Global,
    end: &mut Handle,
    stream: u64,
    answer: &mut bool,
) -> u32 {
    let Some(thing) = end.take(alloc) else {
        return INVALID;
    };
    let status = thing.is_blocked(stream, answer);
    end.put(thing);
    status
}

pub fn gvp_credit_left(alloc: Global, end: &mut Handle, count: &mut u64) -> u32 {
    let Some(thing) = end.take(alloc) else {
        return INVALID;
    };
    let status = thing.credit_left(count);
    end.put(thing);
    status
}

pub fn gvp_room(alloc: Global, end: &mut Handle, stream: u64, count: &mut u64) -> u32 {
    let Some(thing) = end.take(alloc) else {
        return INVALID;
    };
    let status = thing.room(stream, count);
    end.put(thing);
    status
}

pub fn gvp_unsent(alloc: Global, end: &mut Handle, stream: u64, count: &mut u64) -> u32 {
    let Some(thing) = end.take(alloc) else {
        return INVALID;
    };
    let status = thing.unsent(stream, count);
    end.put(thing);
    status
}

pub fn gvp_acked_below(
    alloc: Global,
    end: &mut Handle,
    stream: u64,
    offset: &mut u64,
) -> u32 {
    let Some(thing) = end.take(alloc) else {
        return INVALID;
    };
    let status = thing.acked_below(stream, offset);
    end.put(thing);
    status
}

pub fn gvp_ack_is_due(alloc: Global, end: &mut Handle, answer: &mut bool) -> u32 {
    let Some(thing) = end.take(alloc) else {
        return INVALID;
    };
    let status = thing.ack_is_due(answer);
    end.put(thing);
    status
}

pub fn gvp_streams_left(
    alloc: Global,
    end: &mut Handle,
    dir: u32,
    count: &mut u64,
) -> u32 {
    let Some(thing) = end.take(alloc) else {
        return INVALID;
    };
    let status = thing.streams_left(dir, count);
    end.put(thing);
    status
}

pub fn gvp_open_left(alloc: Global, end: &mut Handle, dir: u32, count: &mut u64) -> u32 {
    let Some(thing) = end.take(alloc) else {
        return INVALID;
    };
    let status = thing.open_left(dir, count);
    end.put(thing);
    status
}

pub fn gvp_granted_streams(
    alloc: Global,
    end: &mut Handle,
    dir: u32,
    count: &mut u64,
) -> u32 {
    let Some(thing) = end.take(alloc) else {
        return INVALID;
    };
    let status = thing.granted_streams(dir, count);
    end.put(thing);
    status
}

pub fn gvp_stored(alloc: Global, end: &mut Handle, count: &mut u64) -> u32 {
    let Some(thing) = end.take(alloc) else {
        return INVALID;
    };
    let status = thing.stored(count);
    end.put(thing);
    status
}

pub fn gvp_noted(alloc: Global, end: &mut Handle, count: &mut u64) -> u32 {
    let Some(thing) = end.take(alloc) else {
        return INVALID;
    };
    let status = thing.noted(count);
    end.put(thing);
    status
}

pub fn gvp_held(
    alloc: Global,
    end: &mut Handle,
    receiving: &mut u64,
    sending: &mut u64,
) -> u32 {
    let Some(thing) = end.take(alloc) else {
        return INVALID;
    };
    let status = thing.held(receiving, sending);
    end.put(thing);
    status
}

pub fn gvp_granted(alloc: Global, end: &mut Handle, count: &mut u64) -> u32 {
    let Some(thing) = end.take(alloc) else {
        return INVALID;
    };
    let status = thing.granted(count);
    end.put(thing);
    status
}

pub fn gvp_spent(alloc: Global, end: &mut Handle, count: &mut u64) -> u32 {
    let Some(thing) = end.take(alloc) else {
        return INVALID;
    };
    let status = thing.spent(count);
    end.put(thing);
    status
}

pub fn gvp_next_number(alloc: Global, end: &mut Handle, number: &mut u64) -> u32 {
    let Some(thing) = end.take(alloc) else {
        return INVALID;
    };
    let status = thing.next_number(number);
    end.put(thing);
    status
}

pub fn gvp_peer_closed(alloc: Global, end: &mut Handle, code: &mut u64) -> u32 {
    let Some(thing) = end.take(alloc) else {
        return INVALID;
    };
    let status = thing.peer_closed(code);
    end.put(thing);
    status
}

pub fn gvp_stopped_with(
    alloc: Global,
    end: &mut Handle,
    stream: u64,
    code: &mut u64,
) -> u32 {
    let Some(thing) = end.take(alloc) else {
        return INVALID;
    };
    let status = thing.stopped_with(stream, code);
    end.put(thing);
    status
}

pub fn gvp_next_outstanding(
    alloc: Global,
    end: &mut Handle,
    from: u64,
    number: &mut u64,
) -> u32 {
    let Some(thing) = end.take(alloc) else {
        return INVALID;
    };
    let status = thing.next_outstanding(from, number);
    end.put(thing);
    status
}

pub fn gvp_lane_report(
    alloc: Global,
    end: &mut Handle,
    stream: u64,
    lane: &mut GvLane,
) -> u32 {
    let Some(thing) = end.take(alloc) else {
        return INVALID;
    };
    let status = thing.lane_report(stream, lane);
    end.put(thing);
    status
}

pub fn gvp_claim_number(alloc: Global, end: &mut Handle, number: &mut u64) -> u32 {
    let Some(mut thing) = end.take(alloc) else {
        return INVALID;
    };
    let status = thing.claim_number(number);
    end.put(thing);
    status
}

pub fn gvp_make_ack(
    alloc: Global,
    end: &mut Handle,
    delay: u64,
    out: &mut [u8],
    made: &mut GvMade,
) -> u32 {
    let Some(mut thing) = end.take(alloc) else {
        return INVALID;
    };
    let status = thing.make_ack(delay, out, made);
    end.put(thing);
    status
}

pub fn gvp_raise_limits(alloc: Global, end: &mut Handle, limits: &GvLimits) -> u32 {
    let Some(mut thing) = end.take(alloc) else {
        return INVALID;
    };
    let status = thing.raise_limits(limits);
    end.put(thing);
    status
}

pub fn gvp_last_stream(payload: &[u8], stream: &mut u64) -> u32 {
    of_stream(last_stream(payload), stream)
}

/// The place behind it is returned, so that C keeps the walk and no handle is needed.
pub fn gvp_frames_next(
    payload: &[u8],
    place: &mut usize,
    frame: &mut GvFrame,
    fault: &mut GvFault,
) -> u32 {
    reads::next(payload, place, frame, fault)
}

/// The token apart, since a frame's struct has only places.
pub fn gvp_put(
    frame: &GvFrame,
    bytes: &[u8],
    token: &[u8],
    out: &mut [u8],
    len: &mut usize,
) -> u32 {
    puts::put_frame(frame, bytes, token, out, len)
}

pub fn gvp_put_ack(
    ranges: &[GvRange],
    delay: u64,
    out: &mut [u8],
    count: &mut usize,
    len: &mut usize,
) -> u32 {
    acks::put(ranges, delay, out, count, len)
}

pub fn gvp_ack_next(
    bytes: &[u8],
    largest: &mut u64,
    used: &mut usize,
    range: &mut GvRange,
) -> u32 {
    acks::next_range(bytes, largest, used, range)
}
