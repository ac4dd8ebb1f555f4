// Made from tests/units/qs_units/src/wire/faults.rattle by rust/erase; not edited by hand.
use crate::shim::{HostRuntime, assert, assert_eq};
use super::{fails, wire_fault};
use crate::proved::qs_wire::*;
use crate::shim::test::*;

#[test]
fn faults_of_types() {
    let rt = HostRuntime::new();
    assert!(rt; fails(b"", FaultKind::Empty, 0));
    assert!(rt; fails(b"\x40\x01", FaultKind::LongType, 0x01));
    assert!(rt; fails(b"\x1f", FaultKind::UnknownType, 0x1f));
    assert!(rt; fails(b"\x40\x1f", FaultKind::LongType, 0x1f));
    assert!(rt; fails(b"\x40", FaultKind::Truncated, 0));
}

#[test]
fn fields_that_are_cut() {
    let rt = HostRuntime::new();
    assert!(rt; fails(b"\x0a\x00\x05ab", FaultKind::Truncated, 0x0a));
}

#[test]
fn a_fault_behind_a_frame() {
    let rt = HostRuntime::new();
    let mut frames = Frames::new(b"\x01\x0a\x00\x05ab");
    assert!(rt; matches!(frames.next(), Ok(Some(placed)) if placed.place == 0));
    assert_eq!(rt;
        frames.next(),
        Err(wire_fault(FaultKind::Truncated, 1, 0x0a))
    );
    assert_eq!(rt;
        frames.next(),
        Err(wire_fault(FaultKind::Truncated, 1, 0x0a))
    );
}

#[test]
fn offsets_that_are_too_large() {
    let rt = HostRuntime::new();
    let kind = FaultKind::OffsetTooLarge;
    assert!(rt; fails(b"\x0e\x00\xff\xff\xff\xff\xff\xff\xff\xff\x01a", kind, 0x0e));
    assert!(rt; fails(b"\x0c\x00\xff\xff\xff\xff\xff\xff\xff\xffa", kind, 0x0c));
    assert!(rt; fails(b"\x06\xff\xff\xff\xff\xff\xff\xff\xff\x01a", kind, 0x06));
}

#[test]
fn counts_that_are_too_large() {
    let rt = HostRuntime::new();
    let kind = FaultKind::CountTooLarge;
    assert!(rt; fails(b"\x12\xd0\x00\x00\x00\x00\x00\x00\x01", kind, 0x12));
    assert!(rt; fails(b"\x17\xd0\x00\x00\x00\x00\x00\x00\x01", kind, 0x17));
}

#[test]
fn acks_below_zero() {
    let rt = HostRuntime::new();
    assert!(rt; fails(b"\x02\x01\x00\x00\x02", FaultKind::BelowZero, 0x02));
    // the whole frame is read first
    assert!(rt; fails(b"\x03\x01\x00\x00\x02\x00\x00", FaultKind::Truncated, 0x03));
}

#[test]
fn identifiers_of_a_bad_length() {
    let rt = HostRuntime::new();
    let kind = FaultKind::IdentifierLength;
    assert!(rt; fails(b"\x18\x01\x00\x00", kind, 0x18));
    assert!(rt; fails(b"\x18\x01\x00\x15", kind, 0x18));
    assert!(rt; fails(b"\x18\x01\x00\x14", FaultKind::Truncated, 0x18));
}
