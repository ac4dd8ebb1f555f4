// Made from tests/units/qs_units/src/wire/prefixes.rattle by rust/erase; not edited by hand.
//! Each prefix of a payload is read as the grammar says: the frames that end by then, and a fault where it ends within one.
use crate::shim::{HostRuntime, assert};
use super::{first_stream, is_one, wire_fault};
use crate::proved::qs_wire::*;
use crate::shim::test::*;

/// How many frames are read, and the fault behind them.
type Answer = (usize, Option<WireFault>);

fn outcome(payload: &[u8]) -> Answer {
    let mut frames = Frames::new(payload);
    for count in 0..=payload.len() {
        match frames.next() {
            Ok(Some(_)) => {}
            Ok(None) => return (count, None),
            Err(fault) => return (count, Some(fault)),
        }
    }
    (payload.len(), None)
}

/// What a cut leaves: the frames that end before it, and a truncated one where it is inside a frame.
fn after_cut(payload: &[u8], starts: &[usize], cut: usize) -> Answer {
    if cut == 0 {
        return (0, Some(wire_fault(FaultKind::Empty, 0, 0)));
    }
    let mut whole = 0;
    let mut place = 0;
    for (index, start) in starts.iter().enumerate() {
        if *start == cut {
            return (index, None);
        }
        if *start < cut {
            whole = index;
            place = *start;
        }
    }
    let frame_type = type_at(payload, place);
    (
        whole,
        Some(wire_fault(FaultKind::Truncated, place, frame_type)),
    )
}

/// The type of a frame that is cut. One of two bytes is cut itself, and no type is known then.
fn type_at(payload: &[u8], place: usize) -> u64 {
    match payload.get(place).copied() {
        Some(first) if first < 0x40 => u64::from(first),
        _ => 0,
    }
}

/// Whether the next frame that each reader gives is the same.
fn is_same_next(one: &mut Frames<'_>, other: &mut Frames<'_>) -> bool {
    match one.next() {
        Ok(Some(placed)) => is_next(other, &placed),
        _ => false,
    }
}

fn is_next(frames: &mut Frames<'_>, expected: &Placed<'_>) -> bool {
    match frames.next() {
        Ok(Some(found)) => found.place == expected.place && found.frame == expected.frame,
        _ => false,
    }
}

/// Whether so many frames of a prefix are those of the payload.
fn begins(front: &[u8], payload: &[u8], count: usize) -> bool {
    let mut of_front = Frames::new(front);
    let mut of_payload = Frames::new(payload);
    let mut is_same = true;
    for _ in 0..count {
        is_same &= is_same_next(&mut of_front, &mut of_payload);
    }
    is_same
}

fn cut_reads(payload: &[u8], starts: &[usize], cut: usize) -> bool {
    let Some(front) = payload.get(..cut) else {
        return false;
    };
    let answer = after_cut(payload, starts, cut);
    outcome(front) == answer && begins(front, payload, answer.0)
}

/// Whether each proper prefix reads so. `starts` are the places of the frames.
fn cuts_read(payload: &[u8], starts: &[usize]) -> bool {
    for cut in 0..payload.len() {
        if !cut_reads(payload, starts, cut) {
            return false;
        }
    }
    true
}

/// The same of a payload without a fault, whole too.
fn is_read(payload: &[u8], starts: &[usize]) -> bool {
    cuts_read(payload, starts) && outcome(payload) == (starts.len(), None)
}

/// The same of a payload whose last frame has a fault.
fn is_faulty(payload: &[u8], starts: &[usize], kind: FaultKind, frame_type: u64) -> bool {
    let before = starts.len().saturating_sub(1);
    let Some(place) = starts.get(before).copied() else {
        return false;
    };
    let fault = wire_fault(kind, place, frame_type);
    cuts_read(payload, starts) && outcome(payload) == (before, Some(fault))
}

#[test]
fn prefixes_of_stream_frames() {
    let rt = HostRuntime::new();
    let payloads: [&[u8]; 32] = [
        b"\x0b\x00\x03abc",
        b"\x0a\x00\x03abc",
        b"\x0e\x00\xff\xff\xff\xff\xff\xff\xff\xff\x00",
        b"\x0e\x00\x05\x03fgh",
        b"\x0e\x00\x02\x04cdef",
        b"\x0e\x00\x02\x04XXXX",
        b"\x0a\x00\x0a0123456789",
        b"\x0a\x00\x0b0123456789a",
        b"\x0a\x00\x06abcdef",
        b"\x0a\x04\x05ghijk",
        b"\x0b\x00\x05abcde",
        b"\x0e\x00\x05\x01f",
        b"\x0a\x00\x05abcde",
        b"\x0b\x00\x04abcd",
        b"\x0b\x00\x05hello",
        b"\x0a\x01\x01a",
        b"\x0a\x03\x01a",
        b"\x0a\x00\x01a",
        b"\x0a\x04\x01a",
        b"\x0b\x00\x00",
        b"\x0e\x00\x03\x01d",
        b"\x0e\x00\x00\x01a",
        b"\x0a\x1c\x01a",
        b"\x0a\x20\x01a",
        b"\x0b\x00\x01a",
        b"\x0e\x00\x0a\x01a",
        b"\x0a\x00\x04abcd",
        b"\x0e\x00\x48\x00\x01a",
        b"\x0f\x00\x03\x00",
        b"\x0e\x00\x01\x01X",
        b"\x0e\x00\x01\x01b",
        b"\x0e\x00\x01\x03Xcd",
    ];
    for payload in payloads {
        assert!(rt; is_read(payload, &[0]), "{payload:?}");
    }
}

// A length of two bytes, and an offset of two.
#[test]
fn prefixes_of_filled_packets() {
    let rt = HostRuntime::new();
    let payloads: [&[u8]; 2] = [
        b"\x0a\x00\x40\x7caaaaaaaaaaaaaaaaaaaaaaaaaaaaaaaaaaaaaaaaaaaaaaaaaaaaaaaaaaaaaaaaaaaaaaaaaaaaaaaaaaaaaaaaaaaaaaaaaaaaaaaaaaaaaaaaaaaaaaaaaaaa",
        b"\x0e\x00\x40\x7c\x40\x4caaaaaaaaaaaaaaaaaaaaaaaaaaaaaaaaaaaaaaaaaaaaaaaaaaaaaaaaaaaaaaaaaaaaaaaaaaaa",
    ];
    for payload in payloads {
        assert!(rt; is_read(payload, &[0]), "{payload:?}");
    }
}

#[test]
fn prefixes_of_acks() {
    let rt = HostRuntime::new();
    let payloads: [&[u8]; 9] = [
        b"\x02\x05\x00\x01\x01\x00\x01",
        b"\x03\x05\x00\x00\x01\x01\x02\x03",
        b"\x02\x01\x00\x00\x01",
        b"\x02\x00\x00\x00\x00",
        b"\x02\x02\x00\x00\x00",
        b"\x02\x09\x00\x00\x00",
        b"\x02\x05\x00\x00\x01",
        b"\x02\x43\xe7\x00\x00\x43\xe7",
        b"\x02\x01\x00\x00\x00",
    ];
    for payload in payloads {
        assert!(rt; is_read(payload, &[0]), "{payload:?}");
    }
}

#[test]
fn prefixes_of_counts_and_limits() {
    let rt = HostRuntime::new();
    let payloads: [&[u8]; 13] = [
        b"\x12\xd0\x00\x00\x00\x00\x00\x00\x00",
        b"\x15\x00\x0a",
        b"\x11\x00\x0f",
        b"\x11\x40\x00\x05",
        b"\x11\x00\x05",
        b"\x11\x01\x0a",
        b"\x11\x02\x0a",
        b"\x11\x00\x14",
        b"\x16\x01",
        b"\x12\x02",
        b"\x14\x04",
        b"\x10\x08",
        b"\x13\x02",
    ];
    for payload in payloads {
        assert!(rt; is_read(payload, &[0]), "{payload:?}");
    }
}

#[test]
fn prefixes_of_resets_and_stops() {
    let rt = HostRuntime::new();
    let payloads: [&[u8]; 9] = [
        b"\x04\x00\x00\x04",
        b"\x05\x00\x07",
        b"\x04\x00\x07\x03",
        b"\x04\x00\x07\x00",
        b"\x04\x00\x07\x05",
        b"\x05\x02\x00",
        b"\x04\x01\x00\x00",
        b"\x04\x00\x07\x0b",
        b"\x04\x00\x07\x0a",
    ];
    for payload in payloads {
        assert!(rt; is_read(payload, &[0]), "{payload:?}");
    }
}

#[test]
fn prefixes_of_the_rest() {
    let rt = HostRuntime::new();
    let payloads: [&[u8]; 5] = [
        b"\x00",
        b"\x1c\x03\x0a\x00",
        b"\x01",
        b"\x1c\x0a\x02\x00",
        b"\x1d\x05\x02ok",
    ];
    for payload in payloads {
        assert!(rt; is_read(payload, &[0]), "{payload:?}");
    }
}

#[test]
fn prefixes_of_packets() {
    let rt = HostRuntime::new();
    let payloads: [(&[u8], &[usize]); 10] = [
        (b"\x02\x00\x00\x00\x00\x11\x00\x0f", &[0, 5]),
        (b"\x02\x00\x00\x00\x00\x04\x00\x07\x03", &[0, 5]),
        (b"\x02\x00\x00\x00\x00\x0e\x00\x0a\x05abcde", &[0, 5]),
        (b"\x02\x00\x00\x00\x00\x05\x00\x07", &[0, 5]),
        (
            b"\x0a\x00\x04abcd\x04\x00\x07\x04\x0a\x04\x01a",
            &[0, 7, 11],
        ),
        (b"\x02\x00\x00\x00\x00\x10\x0c", &[0, 5]),
        (b"\x02\x00\x00\x00\x00\x0e\x00\x04\x02ef", &[0, 5]),
        (b"\x17\x01\x0b\x02\x02hi", &[0, 2]),
        (b"\x02\x00\x00\x00\x00\x13\x02", &[0, 5]),
        (b"\x02\x01\x00\x00\x00\x17\x02", &[0, 5]),
    ];
    for (payload, starts) in payloads {
        assert!(rt; is_read(payload, starts), "{payload:?}");
    }
}

#[test]
fn prefixes_of_faults_of_types_and_lengths() {
    let rt = HostRuntime::new();
    let payloads: [(&[u8], &[usize], FaultKind, u64); 9] = [
        (b"\x40\x01", &[0], FaultKind::LongType, 0x01),
        (b"\x1f", &[0], FaultKind::UnknownType, 0x1f),
        (b"\x00\x01\x1f", &[0, 1, 2], FaultKind::UnknownType, 0x1f),
        (b"\x40\x1f", &[0], FaultKind::LongType, 0x1f),
        (b"\x40", &[0], FaultKind::Truncated, 0x00),
        (b"\x0a\x00\x05ab", &[0], FaultKind::Truncated, 0x0a),
        (b"\x01\x0a\x00\x05ab", &[0, 1], FaultKind::Truncated, 0x0a),
        (
            b"\x0a\x00\x03abc\x1f",
            &[0, 6],
            FaultKind::UnknownType,
            0x1f,
        ),
        (
            b"\x1c\x03\x0a\x00\x1f",
            &[0, 4],
            FaultKind::UnknownType,
            0x1f,
        ),
    ];
    for (payload, starts, kind, frame_type) in payloads {
        assert!(rt; is_faulty(payload, starts, kind, frame_type), "{payload:?}");
    }
}

// Each is told once the whole frame is there, but a bad length of an identifier at once.
#[test]
fn prefixes_of_faults_of_values() {
    let rt = HostRuntime::new();
    let payloads: [(&[u8], &[usize], FaultKind, u64); 7] = [
        (
            b"\x0e\x00\xff\xff\xff\xff\xff\xff\xff\xff\x01a",
            &[0],
            FaultKind::OffsetTooLarge,
            0x0e,
        ),
        (
            b"\x12\xd0\x00\x00\x00\x00\x00\x00\x01",
            &[0],
            FaultKind::CountTooLarge,
            0x12,
        ),
        (b"\x02\x01\x00\x00\x02", &[0], FaultKind::BelowZero, 0x02),
        (
            b"\x06\xff\xff\xff\xff\xff\xff\xff\xff\x01a",
            &[0],
            FaultKind::OffsetTooLarge,
            0x06,
        ),
        (
            b"\x17\xd0\x00\x00\x00\x00\x00\x00\x01",
            &[0],
            FaultKind::CountTooLarge,
            0x17,
        ),
        (b"\x18\x01\x00\x00", &[0], FaultKind::IdentifierLength, 0x18),
        (b"\x18\x01\x00\x15", &[0], FaultKind::IdentifierLength, 0x18),
    ];
    for (payload, starts, kind, frame_type) in payloads {
        assert!(rt; is_faulty(payload, starts, kind, frame_type), "{payload:?}");
    }
}

#[test]
fn prefixes_of_a_row_of_frames() {
    let rt = HostRuntime::new();
    let limits =
        b"\x04\x00\x07\x03\x05\x00\x07\x10\x05\x11\x00\x05\x13\x05\x14\x05\x15\x00\x05\x16\x05";
    assert!(rt; is_read(limits, &[0, 4, 7, 9, 12, 14, 16, 19]));
    let carried =
        b"\x06\x00\x01a\x07\x01a\x18\x01\x00\x01x0123456789abcdef\x19\x01\x1a01234567\x1b01234567\x1e";
    assert!(rt; is_read(carried, &[0, 4, 7, 28, 30, 39, 48]));
}

/// Whether each prefix of a STREAM frame of stream 0 that runs to the payload's end reads so: one that ends within the `head`, which is
/// all before the bytes, is truncated, and a longer one is a frame with fewer bytes.
fn shrinks(payload: &[u8], head: usize, frame_type: u64, offset: u64) -> bool {
    for cut in head..payload.len() {
        let (front, _) = payload.split_at(cut);
        if !is_open_ended(front, head, frame_type, offset) {
            return false;
        }
    }
    match payload.get(..head) {
        Some(front) => cuts_read(front, &[0]),
        None => false,
    }
}

fn is_open_ended(payload: &[u8], head: usize, frame_type: u64, offset: u64) -> bool {
    if head > payload.len() {
        return false;
    }
    let (_, bytes) = payload.split_at(head);
    let frame = Frame::Stream {
        stream: first_stream(),
        offset,
        fin: false,
        bytes,
    };
    is_one(payload, frame_type, &frame)
}

#[test]
fn prefixes_of_a_stream_frame_without_a_length() {
    let rt = HostRuntime::new();
    let plain = b"\x08\x00abc";
    assert!(rt; shrinks(plain, 2, 0x08, 0));
    assert!(rt; is_open_ended(plain, 2, 0x08, 0));
    let too_large = b"\x0c\x00\xff\xff\xff\xff\xff\xff\xff\xffa";
    assert!(rt; shrinks(too_large, 10, 0x0c, (1 << 62) - 1));
    let fault = wire_fault(FaultKind::OffsetTooLarge, 0, 0x0c);
    assert!(rt; outcome(too_large) == (0, Some(fault)));
}
