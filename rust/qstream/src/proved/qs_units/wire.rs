// Made from tests/units/qs_units/src/wire.rattle by rust/erase; not edited by hand.
//! Tests of what no contract says: that each call succeeds, on payloads whose reading is known.

mod acks;
mod faults;
mod numbers;
mod prefixes;
mod reading;
mod writing;

use crate::proved::qs_wire::*;

/// The client's first bidirectional stream.
fn first_stream() -> StreamId {
    match StreamId::new(0) {
        Some(stream) => stream,
        None => unreachable!(),
    }
}

/// Whether the payload is one frame of that type.
fn is_one(payload: &[u8], frame_type: u64, frame: &Frame) -> bool {
    let mut frames = Frames::new(payload);
    let found = match frames.next() {
        Ok(Some(placed)) => {
            placed.place == 0 && placed.frame_type == frame_type && placed.frame == *frame
        }
        _ => false,
    };
    found && matches!(frames.next(), Ok(None)) && matches!(frames.next(), Ok(None))
}

/// Whether the payload begins with that fault, at each call.
fn fails(payload: &[u8], kind: FaultKind, frame_type: u64) -> bool {
    let mut frames = Frames::new(payload);
    let expected = wire_fault(kind, 0, frame_type);
    matches!(frames.next(), Err(found) if found == expected)
        && matches!(frames.next(), Err(found) if found == expected)
}

fn wire_fault(kind: FaultKind, place: usize, frame_type: u64) -> WireFault {
    WireFault {
        kind,
        place,
        code: kind.code(),
        frame_type,
    }
}
