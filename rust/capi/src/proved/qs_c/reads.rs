// Made from crates/qs_c/src/reads.rt by rust/erase; not edited by hand.
//! The next frame of a payload.

use crate::proved::qs_c::answers::{FAULT, INVALID, NONE, OK};
use crate::proved::qs_c::frame::{GvFault, GvFrame, of_kind};
use crate::proved::qs_wire::{Frame, Frames, Placed, read_varint};

pub(crate) fn next(
    payload: &[u8],
    place: &mut usize,
    frame: &mut GvFrame,
    fault: &mut GvFault,
) -> u32 {
    let at = *place;
    if at > payload.len() {
        return INVALID;
    }
    if at == payload.len() && at > 0 {
        return NONE;
    }
    let bytes = &payload[at..];
    match Frames::new(bytes).next() {
        Ok(Some(placed)) => {
            let (told, end) = told_of(&placed, at, bytes);
            *frame = told;
            *place = end;
            OK
        }
        Ok(None) => NONE,
        Err(wire) => {
            *fault = GvFault::of(wire, at);
            FAULT
        }
    }
}

/// By places in the payload, so that C's struct holds no pointer of Rust's.
fn told_of(placed: &Placed, at: usize, bytes: &[u8]) -> (GvFrame, usize) {
    let (mid, len, token, trail) = sizes(&placed.frame);
    let numbers = lead(placed.frame_type);
    let Some((start, ranges, end)) = laid(numbers, mid, len, token, trail, bytes) else {
        return (of_kind(0), at);
    };
    let told = GvFrame {
        place: at,
        frame_type: placed.frame_type,
        bytes_at: at + start,
        len: ranges + len,
        token_at: at + start + ranges + len,
        ..GvFrame::of(&placed.frame)
    };
    (told, at + end)
}

fn lead(frame_type: u64) -> usize {
    match frame_type {
        0..=0x01 => 1,
        0x02..=0x04 => 4,
        0x05..=0x06 => 3,
        0x07..=0x09 => 2,
        0x0a..=0x0d => 3,
        0x0e..=0x0f => 4,
        0x10 => 2,
        0x11 => 3,
        0x12..=0x14 => 2,
        0x15 => 3,
        0x16..=0x17 => 2,
        0x18 => 4,
        0x19 => 2,
        0x1a..=0x1b => 1,
        0x1c => 4,
        0x1d => 3,
        _ => 1,
    }
}

/// From these the places follow, since the fields of each kind have one order.
fn sizes(frame: &Frame) -> (usize, usize, usize, usize) {
    match *frame {
        Frame::Ack { ranges, ecn, .. } => {
            (numbers_in(ranges), 0, 0, if ecn.is_some() { 3 } else { 0 })
        }
        Frame::Crypto { bytes, .. } => (0, bytes.len(), 0, 0),
        Frame::NewToken { bytes } => (0, bytes.len(), 0, 0),
        Frame::Stream { bytes, .. } => (0, bytes.len(), 0, 0),
        Frame::NewConnectionId {
            identifier,
            reset_token,
            ..
        } => (0, identifier.len(), reset_token.len(), 0),
        Frame::PathChallenge { bytes } => (0, bytes.len(), 0, 0),
        Frame::PathResponse { bytes } => (0, bytes.len(), 0, 0),
        Frame::ConnectionClose { reason, .. } => (0, reason.len(), 0, 0),
        Frame::ApplicationClose { reason, .. } => (0, reason.len(), 0, 0),
        _ => (0, 0, 0, 0),
    }
}

fn laid(
    lead: usize,
    mid: usize,
    len: usize,
    token: usize,
    trail: usize,
    bytes: &[u8],
) -> Option<(usize, usize, usize)> {
    let at = skip(lead, bytes);
    let ranges = skip(mid, &bytes[at..]);
    let start = at + ranges;
    let left = bytes.len() - start;
    if left < len || left - len < token {
        return None;
    }
    let next = start + (len + token);
    Some((at, ranges, next + skip(trail, &bytes[next..])))
}

pub(crate) fn skip(count: usize, bytes: &[u8]) -> usize {
    let mut at = 0;
    let mut rest = bytes;
    for _ in 0..count {
        let Some((_, len)) = read_varint(rest) else {
            return at;
        };
        let (_, after) = rest.split_at(len);
        at += len;
        rest = after;
    }
    at
}

pub(crate) fn numbers_in(bytes: &[u8]) -> usize {
    let mut count = 0;
    let mut rest = bytes;
    while let Some((_, len)) = read_varint(rest) {
        count += 1;
        let (_, after) = rest.split_at(len);
        rest = after;
    }
    count
}
