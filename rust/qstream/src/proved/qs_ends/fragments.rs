// Made from tests/units/qs_ends/src/fragments.rattle by rust/erase; not edited by hand.
//! A stream that comes in packets of one byte each, out of order.
use crate::shim::{HostRuntime, assert};
use super::ends::{USUAL, receive, server};
use crate::proved::qs_conn::{Closing, Endpoint, Received};
use crate::proved::qs_recv::Read;
use crate::proved::qs_wire::StreamId;
use crate::shim::alloc::Global;
use crate::shim::test::Fail;

/// The byte that stands at an offset.
fn byte_at(offset: u16) -> u8 {
    let [_, low] = offset.to_be_bytes();
    low
}

/// A STREAM frame with the byte at an offset below 2^14 of stream 0.
fn fragment(offset: u16) -> [u8; 6] {
    let [high, low] = (offset | 0x4000).to_be_bytes();
    [0x0e, 0, high, low, 1, byte_at(offset)]
}

/// 512 packets bring every other byte, from the first or the second on.
fn take_every_other(end: &mut Endpoint, first_number: u16, first: u8) -> bool {
    for k in 0..512u16 {
        let number = u64::from(first_number) + u64::from(k);
        let payload = fragment(2 * k + u16::from(first));
        if receive(end, number, &payload) != Ok(Received::Done) {
            return false;
        }
    }
    true
}

fn are_in_order(bytes: &[u8]) -> bool {
    (0..1024u16)
        .zip(bytes.iter())
        .all(|(offset, byte)| byte_at(offset) == *byte)
}

/// All that came is read at once.
fn reads_all(end: &mut Endpoint, stream: StreamId) -> bool {
    let mut into = [0u8; 2048];
    end.read(stream, &mut into) == Ok(Read::Bytes(1024)) && are_in_order(&into)
}

fn stands_at(end: &Endpoint, stored: u64, spent: u64) -> bool {
    end.stored() == stored && end.spent() == spent
}

fn limit_of(end: &Endpoint, stream: StreamId) -> Option<u64> {
    let half = end.lane_report(stream)?.recv?;
    Some(half.limit)
}

/// The byte at offset 2,048 is past the limit that the reading raised to 2,048 (RFC 9000, section 4.1).
fn closes_past_the_limit(end: &mut Endpoint) -> bool {
    let closing = Closing {
        code: 0x03,
        frame_type: 0x0e,
        place: 0,
    };
    receive(end, 1024, b"\x0e\x00\x48\x00\x01a") == Err(closing)
}

/// First every other byte, then those between.
fn comes_in_fragments(alloc: Global, stream: StreamId) -> Result<bool, Fail> {
    let mut end = server(alloc, USUAL)?;
    let halves = take_every_other(&mut end, 0, 1) && stands_at(&end, 512, 1024);
    let whole = take_every_other(&mut end, 512, 0) && stands_at(&end, 1024, 1024);
    let read = reads_all(&mut end, stream) && limit_of(&end, stream) == Some(2048);
    Ok(halves && whole && read && closes_past_the_limit(&mut end))
}

#[test]
fn a_stream_comes_byte_by_byte() -> Result<(), Fail> {
    let rt = HostRuntime::new();
    let Some(stream) = StreamId::new(0) else {
        return Err(Fail::new("stream 0 has a number"));
    };
    assert!(rt; comes_in_fragments(rt.alloc(), stream)?);
    Ok(())
}
