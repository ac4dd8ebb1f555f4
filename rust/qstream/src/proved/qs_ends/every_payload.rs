// Made from tests/units/qs_ends/src/every_payload.rattle by rust/erase; not edited by hand.
//! Every payload of one byte and of two bytes that comes to a new server. What is expected is read off the table of frames and the rules
//! on streams, by hand.
use crate::shim::{HostRuntime, assert};
use super::ends::{USUAL, receive, server};
use crate::proved::qs_conn::{Closing, Endpoint, Received};
use crate::proved::qs_wire::{Frame, Frames};
use crate::shim::alloc::Global;
use crate::shim::test::Fail;

// Why a payload closes, and where; or it goes on.
type Verdict = Option<(u64, u64, usize)>;

// A frame type that has no field, one that has some and ends too soon, or none at all; or the type itself ends too soon.
fn alone(byte: u8, place: usize) -> Verdict {
    match byte {
        0x00 | 0x01 | 0x1e => None,
        0x02..=0x3f => Some((0x07, u64::from(byte), place)),
        _ => Some((0x07, 0, place)),
    }
}

// A STREAM of no bytes that runs to the payload's end, on a server: data may come on the client's streams, 8 of each direction, and not on
// its own ones, of which none is open.
fn on_stream(frame_type: u8, stream: u8) -> Verdict {
    let code = match (stream % 2 == 0, stream / 4 < 8) {
        (true, true) => return None,
        (true, false) => 0x04,
        _ => 0x05,
    };
    Some((code, u64::from(frame_type), 0))
}

// A type of two bytes is longer than need be, or unknown.
fn long_type(first: u8, second: u8) -> Verdict {
    let value = u64::from(first % 0x40) * 0x100 + u64::from(second);
    let code = if value < 0x40 { 0x0a } else { 0x07 };
    Some((code, value, 0))
}

// The field that follows the type is whole where its byte is below 0x40.
fn with_field(frame_type: u8, field: u8) -> Verdict {
    match (frame_type, field) {
        (0x10 | 0x12 | 0x13 | 0x14 | 0x16 | 0x17 | 0x19, 0x00..=0x3f) => None,
        (0x07, 0x00) => None,
        (0x08 | 0x09, 0x00..=0x3f) => on_stream(frame_type, field),
        _ => Some((0x07, u64::from(frame_type), 0)),
    }
}

fn pair(first: u8, second: u8) -> Verdict {
    match first {
        0x00 | 0x01 | 0x1e => alone(second, 1),
        0x40..=0x7f => long_type(first, second),
        0x02..=0x1d => with_field(first, second),
        _ => alone(first, 0),
    }
}

// Whether the closing's payload is the CONNECTION_CLOSE of that code and type, and nothing else.
fn tells(end: &Endpoint, closing: Closing) -> bool {
    let mut bytes = [0u8; 32];
    let Some(len) = end.close_payload(&mut bytes) else {
        return false;
    };
    let Some(payload) = bytes.get(..len) else {
        return false;
    };
    let mut frames = Frames::new(payload);
    let first = match frames.next() {
        Ok(Some(placed)) => is_close(&placed.frame, closing),
        _ => false,
    };
    first && matches!(frames.next(), Ok(None))
}

fn is_close(frame: &Frame, closing: Closing) -> bool {
    match *frame {
        Frame::ConnectionClose {
            code,
            frame_type,
            reason,
        } => code == closing.code && frame_type == closing.frame_type && reason.is_empty(),
        _ => false,
    }
}

fn answers(end: &mut Endpoint, payload: &[u8], expected: Verdict) -> bool {
    match (receive(end, 0, payload), expected) {
        (Ok(received), None) => received == Received::Done,
        (Err(closing), Some(told)) => {
            (closing.code, closing.frame_type, closing.place) == told && tells(end, closing)
        }
        _ => false,
    }
}

// Of a new server, so that no test's proof follows the end's value.
fn is_verdict(alloc: Global, payload: &[u8], expected: Verdict) -> Result<bool, Fail> {
    let mut end = server(alloc, USUAL)?;
    Ok(answers(&mut end, payload, expected))
}

#[test]
fn every_byte_goes_on_or_closes() -> Result<(), Fail> {
    let rt = HostRuntime::new();
    for byte in 0..=255 {
        assert!(rt; is_verdict(rt.alloc(), &[byte], alone(byte, 0))?);
    }
    Ok(())
}

#[test]
fn every_pair_of_bytes_goes_on_or_closes() -> Result<(), Fail> {
    let rt = HostRuntime::new();
    for first in 0..=255 {
        for second in 0..=255 {
            assert!(rt; is_verdict(rt.alloc(), &[first, second], pair(first, second))?);
        }
    }
    Ok(())
}
