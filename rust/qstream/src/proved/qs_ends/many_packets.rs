// Made from tests/units/qs_ends/src/many_packets.rattle by rust/erase; not edited by hand.
//! A thousand packets are acknowledged by one range; and of many lost packets the oldest is forgotten.
use crate::shim::{HostRuntime, assert};
use super::ends::{NewEnd, lose, made, make, new_client, open, receive, write};
use crate::proved::qs_conn::{Endpoint, Made, Received};
use crate::proved::qs_wire::{Dir, StreamId};
use crate::shim::test::Fail;

/// An ACK of 999 and the 999 numbers below.
const ALL_ACKED: &[u8] = b"\x02\x43\xe7\x00\x00\x43\xe7";

/// One byte is written, and goes out in the packet of that number.
fn sends_one(end: &mut Endpoint, stream: StreamId, number: u64) -> bool {
    let mut out = [0u8; 128];
    let accepted = write(end, stream, b"a");
    match make(end, &mut out) {
        Ok(Some(Made { number: made, .. })) => accepted == Ok(1) && made == number,
        _ => false,
    }
}

fn sends_each(end: &mut Endpoint, stream: StreamId, count: u64) -> bool {
    for number in 0..count {
        if !sends_one(end, stream, number) {
            return false;
        }
    }
    true
}

/// What was acknowledged leaves the buffer, and the same ACK again finds nothing to acknowledge.
fn makes_room(end: &mut Endpoint, stream: StreamId) -> bool {
    let first = receive(end, 0, ALL_ACKED) == Ok(Received::Done)
        && write(end, stream, &[b'b'; 2048]) == Ok(2048);
    let second = receive(end, 1, ALL_ACKED) == Ok(Received::Done);
    first && second && write(end, stream, b"c") == Ok(0)
}

fn sends_and_frees(new: &mut NewEnd) -> Result<bool, Fail> {
    let end = made(new)?;
    let stream = open(end, Dir::Bidi)?;
    Ok(sends_each(end, stream, 1000) && makes_room(end, stream))
}

#[test]
fn a_thousand_packets_are_acknowledged_at_once() -> Result<(), Fail> {
    let rt = HostRuntime::new();
    let freed = sends_and_frees(&mut new_client(rt.alloc()));
    assert!(rt; freed?);
    Ok(())
}

fn loses_each(end: &mut Endpoint, count: u64) -> bool {
    for number in 0..count {
        if lose(end, number).is_err() {
            return false;
        }
    }
    true
}

/// An ACK of packet 0, and one of packet 1.
const LATE_ACKS: [&[u8]; 2] = [b"\x02\x00\x00\x00\x00", b"\x02\x01\x00\x00\x00"];

/// Byte 0 goes out once more, in a frame of its own since byte 1 doesn't, and then byte 2 and those behind it.
const WITHOUT_BYTE_1: &[u8] = b"\x0a\x00\x01a\x0e\x00\x02";

fn leaves_out_byte_1(end: &mut Endpoint) -> bool {
    let mut out = [0u8; 128];
    match make(end, &mut out) {
        Ok(Some(_)) => out.starts_with(WITHOUT_BYTE_1),
        _ => false,
    }
}

/// Of 257 packets that were lost the first is forgotten, and the second isn't.
fn acknowledges_late(new: &mut NewEnd) -> Result<bool, Fail> {
    let end = made(new)?;
    let stream = open(end, Dir::Bidi)?;
    let sent = sends_each(end, stream, 257) && loses_each(end, 257);
    let first = receive(end, 0, LATE_ACKS[0]) == Ok(Received::Done);
    let second = receive(end, 1, LATE_ACKS[1]) == Ok(Received::Done);
    Ok(sent && first && second && leaves_out_byte_1(end))
}

#[test]
fn the_257th_lost_packet_makes_the_first_forgotten() -> Result<(), Fail> {
    let rt = HostRuntime::new();
    let acknowledged = acknowledges_late(&mut new_client(rt.alloc()));
    assert!(rt; acknowledged?);
    Ok(())
}
