//! What C calls. A reference is a pointer that isn't null, to a whole value; two numbers, an address and a count, are a slice. So no struct
//! of Rust's has to be laid out as C's.

use crate::proved::qs_c;
use crate::proved::qs_c::acks::GvRange;
use crate::proved::qs_c::frame::{GvFault, GvFrame};
use crate::proved::qs_c::giving::GvGiven;
use crate::proved::qs_c::handle::Handle;
use crate::proved::qs_c::lane::GvLane;
use crate::proved::qs_c::listener_handle::ListenerHandle;
use crate::proved::qs_c::news::GvNews;
use crate::proved::qs_c::peeking;
use crate::proved::qs_c::structs::{
    GvClosing, GvFilled, GvLimits, GvMade, GvRequest, GvSettings, GvToken, GvTold, GvTuning,
};
use crate::shim::alloc::Global;
use core::mem::MaybeUninit;
use core::slice;

/// Exports a call of each name: the parameters of C, and the arguments for the proved call. One macro, so that the list below can be made
/// from the contracts.
macro_rules! exports {
    ($($name:ident ($($param:ident: $kind:ty),*) = $($at:ident)::+ ($($given:expr),*);)*) => {$(
        /// The proved call of this name.
        ///
        /// # Safety
        ///
        /// Each address is of as many values as the count behind it says. Nothing writes them during the call, or, if the call writes them,
        /// nothing else reads them. The calls in `c/src` check null and sizes.
        #[unsafe(no_mangle)]
        pub unsafe extern "C" fn $name($($param: $kind),*) -> u32 {
            qs_c::$($at)::+($($given),*)
        }
    )*};
}

macro_rules! read {
    ($at:ident, $count:ident) => {
        // SAFETY: as the export requires.
        unsafe { slice::from_raw_parts($at, $count) }
    };
}

macro_rules! write {
    ($at:ident, $count:ident) => {
        // SAFETY: as the export requires.
        unsafe { slice::from_raw_parts_mut($at, $count) }
    };
}

exports! {
    gvp_accept(end: &mut Handle, stream: &mut u64) = gvp_accept(Global, end, stream);
    gvp_accept_of(end: &mut Handle, dir: u32, stream: &mut u64) = gvp_accept_of(Global, end, dir, stream);
    gvp_ack_is_due(end: &mut Handle, answer: &mut bool) = gvp_ack_is_due(Global, end, answer);
    gvp_ack_next(bytes: *const u8, bytes_len: usize, largest: &mut u64, used: &mut usize, range: &mut GvRange)
        = gvp_ack_next(read!(bytes, bytes_len), largest, used, range);
    gvp_acked_below(end: &mut Handle, stream: u64, offset: &mut u64) = gvp_acked_below(Global, end, stream, offset);
    gvp_claim_number(end: &mut Handle, number: &mut u64) = gvp_claim_number(Global, end, number);
    gvp_close_payload(end: &mut Handle, out: *mut u8, out_len: usize, len: &mut usize)
        = gvp_close_payload(Global, end, write!(out, out_len), len);
    gvp_closing(end: &mut Handle, closing: &mut GvClosing) = gvp_closing(Global, end, closing);
    gvp_consume(end: &mut Handle, stream: u64, most: usize, number: &mut u64, at_end: &mut bool)
        = consuming::gvp_consume(Global, end, stream, most, number, at_end);
    gvp_credit_left(end: &mut Handle, count: &mut u64) = gvp_credit_left(Global, end, count);
    gvp_declare_lost(end: &mut Handle, number: u64) = gvp_declare_lost(Global, end, number);
    gvp_fill(end: &mut Handle, want: &GvRequest, out: *mut u8, out_len: usize, filled: &mut GvFilled)
        = stack::gvp_fill(Global, end, want, write!(out, out_len), filled);
    gvp_finish(end: &mut Handle, stream: u64) = gvp_finish(Global, end, stream);
    gvp_frames_next(payload: *const u8, payload_len: usize, place: &mut usize, frame: &mut GvFrame, fault: &mut GvFault)
        = gvp_frames_next(read!(payload, payload_len), place, frame, fault);
    gvp_granted(end: &mut Handle, count: &mut u64) = gvp_granted(Global, end, count);
    gvp_granted_streams(end: &mut Handle, dir: u32, count: &mut u64) = gvp_granted_streams(Global, end, dir, count);
    gvp_heard_new(heard: &mut ListenerHandle) = events::gvp_heard_new(Global, heard);
    gvp_held(end: &mut Handle, receiving: &mut u64, sending: &mut u64) = gvp_held(Global, end, receiving, sending);
    gvp_is_blocked(end: &mut Handle, stream: u64, answer: &mut bool) = gvp_is_blocked(Global, end, stream, answer);
    gvp_is_sendable(end: &mut Handle, answer: &mut bool) = gvp_is_sendable(Global, end, answer);
    gvp_kept_sum(end: &mut Handle, count: &mut u64) = sums::gvp_kept_sum(Global, end, count);
    gvp_lane_report(end: &mut Handle, stream: u64, lane: &mut GvLane) = gvp_lane_report(Global, end, stream, lane);
    gvp_last_stream(payload: *const u8, payload_len: usize, stream: &mut u64) = gvp_last_stream(read!(payload, payload_len), stream);
    gvp_make_ack(end: &mut Handle, delay: u64, out: *mut u8, out_len: usize, made: &mut GvMade)
        = gvp_make_ack(Global, end, delay, write!(out, out_len), made);
    gvp_make_packet_from(end: &mut Handle, first: u64, delay: u64, out: *mut u8, out_len: usize, made: &mut GvMade)
        = gvp_make_packet_from(Global, end, first, delay, write!(out, out_len), made);
    gvp_new(end: &mut Handle, role: u32, settings: &GvSettings, tuning: &GvTuning, peer: &GvLimits)
        = gvp_new(Global, end, role, settings, tuning, peer);
    gvp_next_ended(end: &mut Handle, from: u64, stream: &mut u64) = gvp_next_ended(Global, end, from, stream);
    gvp_next_news(heard: &mut ListenerHandle, end: &mut Handle, news: &mut GvNews) = events::gvp_next_news(Global, heard, end, news);
    gvp_next_number(end: &mut Handle, number: &mut u64) = gvp_next_number(Global, end, number);
    gvp_next_outstanding(end: &mut Handle, from: u64, number: &mut u64) = gvp_next_outstanding(Global, end, from, number);
    gvp_next_readable(end: &mut Handle, from: u64, stream: &mut u64) = gvp_next_readable(Global, end, from, stream);
    gvp_next_sendable(end: &mut Handle, from: u64, stream: &mut u64) = gvp_next_sendable(Global, end, from, stream);
    gvp_next_writable(end: &mut Handle, from: u64, stream: &mut u64) = gvp_next_writable(Global, end, from, stream);
    gvp_note_closed(end: &mut Handle, by: u32, kind: u32, code: u64) = closes::gvp_note_closed(Global, end, by, kind, code);
    gvp_noted(end: &mut Handle, count: &mut u64) = gvp_noted(Global, end, count);
    gvp_noted_close(end: &mut Handle, told: &mut GvTold) = closes::gvp_noted_close(Global, end, told);
    gvp_open(end: &mut Handle, dir: u32, number: &mut u64) = gvp_open(Global, end, dir, number);
    gvp_open_left(end: &mut Handle, dir: u32, count: &mut u64) = gvp_open_left(Global, end, dir, count);
    gvp_peer_closed(end: &mut Handle, code: &mut u64) = gvp_peer_closed(Global, end, code);
    gvp_put(frame: &GvFrame, bytes: *const u8, bytes_len: usize, token: *const u8, token_len: usize, out: *mut u8, out_len: usize, len: &mut usize)
        = gvp_put(frame, read!(bytes, bytes_len), read!(token, token_len), write!(out, out_len), len);
    gvp_put_ack(ranges: *const GvRange, ranges_len: usize, delay: u64, out: *mut u8, out_len: usize, count: &mut usize, len: &mut usize)
        = gvp_put_ack(read!(ranges, ranges_len), delay, write!(out, out_len), count, len);
    gvp_raise_limits(end: &mut Handle, limits: &GvLimits) = gvp_raise_limits(Global, end, limits);
    gvp_read(end: &mut Handle, stream: u64, into: *mut u8, into_len: usize, number: &mut u64)
        = gvp_read(Global, end, stream, write!(into, into_len), number);
    gvp_receive(end: &mut Handle, number: u64, payload: *const u8, payload_len: usize, closing: &mut GvClosing)
        = gvp_receive(Global, end, number, read!(payload, payload_len), closing);
    gvp_receive_with_acks(end: &mut Handle, number: u64, payload: *const u8, payload_len: usize, closing: &mut GvClosing, told: *mut u64, told_len: usize, count: &mut usize)
        = telling::gvp_receive_with_acks(Global, end, number, read!(payload, payload_len), closing, write!(told, told_len), count);
    gvp_reserve(end: &mut Handle) = gvp_reserve(Global, end);
    gvp_reset(end: &mut Handle, stream: u64, code: u64) = gvp_reset(Global, end, stream, code);
    gvp_room(end: &mut Handle, stream: u64, count: &mut u64) = gvp_room(Global, end, stream, count);
    gvp_set_conn_window(end: &mut Handle, window: u64) = setting::gvp_set_conn_window(Global, end, window);
    gvp_set_grant(end: &mut Handle, dir: u32, streams: u64) = setting::gvp_set_grant(Global, end, dir, streams);
    gvp_set_send_buffer(end: &mut Handle, stream: u64, size: usize) = setting::gvp_set_send_buffer(Global, end, stream, size);
    gvp_set_stream_window(end: &mut Handle, stream: u64, window: u64) = setting::gvp_set_stream_window(Global, end, stream, window);
    gvp_spent(end: &mut Handle, count: &mut u64) = gvp_spent(Global, end, count);
    gvp_stop(end: &mut Handle, stream: u64, code: u64) = gvp_stop(Global, end, stream, code);
    gvp_stop_and_discard(end: &mut Handle, stream: u64, code: u64) = gvp_stop_and_discard(Global, end, stream, code);
    gvp_stopped_with(end: &mut Handle, stream: u64, code: &mut u64) = gvp_stopped_with(Global, end, stream, code);
    gvp_stored(end: &mut Handle, count: &mut u64) = gvp_stored(Global, end, count);
    gvp_streams_left(end: &mut Handle, dir: u32, count: &mut u64) = gvp_streams_left(Global, end, dir, count);
    gvp_take_frame(end: &mut Handle, frame: &GvFrame, bytes: *const u8, bytes_len: usize, taken: &mut u32)
        = stack::gvp_take_frame(Global, end, frame, read!(bytes, bytes_len), taken);
    gvp_take_frames(end: &mut Handle, frames: *const GvGiven<'_>, frames_len: usize, taken: &mut u32)
        = giving::gvp_take_frames(Global, end, read!(frames, frames_len), taken);
    gvp_taken_on(end: &mut Handle, stream: u64, count: &mut u64) = sums::gvp_taken_on(Global, end, stream, count);
    gvp_taken_sum(end: &mut Handle, count: &mut u64) = sums::gvp_taken_sum(Global, end, count);
    gvp_token_acked(end: &mut Handle, token: &GvToken) = tokens::gvp_token_acked(Global, end, token);
    gvp_token_and(token: &GvToken, next: &GvToken, both: &mut GvToken) = tokens::gvp_token_and(token, next, both);
    gvp_token_lost(end: &mut Handle, token: &GvToken) = tokens::gvp_token_lost(Global, end, token);
    gvp_token_of(end: &mut Handle, number: u64, token: &mut GvToken) = tokens::gvp_token_of(Global, end, number, token);
    gvp_unsent(end: &mut Handle, stream: u64, count: &mut u64) = gvp_unsent(Global, end, stream, count);
    gvp_unsent_sum(end: &mut Handle, count: &mut u64) = sums::gvp_unsent_sum(Global, end, count);
    gvp_wants(heard: &mut ListenerHandle, dir: u32) = events::gvp_wants(Global, heard, dir);
    gvp_was_read(heard: &mut ListenerHandle, end: &mut Handle, stream: u64) = events::gvp_was_read(Global, heard, end, stream);
    gvp_was_told(heard: &mut ListenerHandle, end: &mut Handle, frame: &GvFrame, bytes: *const u8, bytes_len: usize)
        = events::gvp_was_told(Global, heard, end, frame, read!(bytes, bytes_len));
    gvp_will_write(heard: &mut ListenerHandle, end: &mut Handle, stream: u64, len: usize)
        = events::gvp_will_write(Global, heard, end, stream, len);
    gvp_write(end: &mut Handle, stream: u64, bytes: *const u8, bytes_len: usize, count: &mut usize)
        = gvp_write(Global, end, stream, read!(bytes, bytes_len), count);
}

/// A slice and the words that it is made of.
union Slice {
    bytes: &'static [u8],
    words: [MaybeUninit<usize>; 2],
}

// C passes a slice in a struct as its address and then its length. Rust's slices are that, but nothing promises it, so the build checks.
// SAFETY: the second word is a number.
const _: () = assert!(unsafe { Slice { bytes: b"abc" }.words[1].assume_init() } == 3);

/// As in the header.
const DONE: u32 = 0;

/// Bytes of a stream in two pieces, with addresses as C has them.
#[repr(C)]
pub struct GvPieces {
    front: *const u8,
    front_len: usize,
    back: *const u8,
    back_len: usize,
}

/// What a read would return. The bytes stay where they are until the next call that changes the endpoint: in the proved library that is the
/// borrow of the handle, which is why it is `&mut` though nothing changes.
#[unsafe(no_mangle)]
pub extern "C" fn gvp_peek(
    end: &mut Handle,
    stream: u64,
    code: &mut u64,
    pieces: &mut GvPieces,
) -> u32 {
    let mut lent = peeking::GvPieces {
        front: &[],
        back: &[],
    };
    let status = peeking::gvp_peek(end, stream, code, &mut lent);
    if status == DONE {
        *pieces = GvPieces {
            front: lent.front.as_ptr(),
            front_len: lent.front.len(),
            back: lent.back.as_ptr(),
            back_len: lent.back.len(),
        };
    }
    status
}

#[unsafe(no_mangle)]
pub extern "C" fn gvp_free(end: &mut Handle) {
    qs_c::gvp_free(Global, end);
}

#[unsafe(no_mangle)]
pub extern "C" fn gvp_heard_drop(heard: &mut ListenerHandle) {
    qs_c::events::gvp_heard_drop(Global, heard);
}
