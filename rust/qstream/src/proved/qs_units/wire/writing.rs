// Made from tests/units/qs_units/src/wire/writing.rattle by rust/erase; not edited by hand.
use crate::shim::{HostRuntime, assert, assert_eq};
use crate::proved::qs_wire::*;
use crate::shim::test::*;

/// Whether the canonical text of the payload's first frame is that one, behind which the slice stays as it
/// was.
fn rewrites(payload: &[u8], text: &[u8]) -> bool {
    match Frames::new(payload).next() {
        Ok(Some(placed)) => {
            let mut out = [9; 40];
            match put(&placed.frame, &mut out) {
                Ok(len) => out.get(..len) == Some(text) && out.iter().skip(len).all(|b| *b == 9),
                Err(_) => false,
            }
        }
        _ => false,
    }
}

#[test]
fn stream_frames_are_written() {
    let rt = HostRuntime::new();
    assert!(rt; rewrites(b"\x0b\x00\x03abc", b"\x0b\x00\x03abc"));
    assert!(rt; rewrites(b"\x08\x00abc", b"\x0a\x00\x03abc"));
    assert!(rt; rewrites(b"\x0e\x00\x00\x01a", b"\x0a\x00\x01a"));
    assert!(rt; rewrites(b"\x0c\x00\x05a", b"\x0e\x00\x05\x01a"));
}

#[test]
fn acks_are_written_in_their_shortest_spelling() {
    let rt = HostRuntime::new();
    assert!(rt;
        rewrites(
            b"\x02\x05\x00\x01\x40\x01\x00\x40\x01",
            b"\x02\x05\x00\x01\x01\x00\x01"
        )
    );
    assert!(rt;
        rewrites(
            b"\x03\x05\x00\x00\x01\x01\x40\x02\x03",
            b"\x03\x05\x00\x00\x01\x01\x02\x03"
        )
    );
}

#[test]
fn limits_are_written() {
    let rt = HostRuntime::new();
    assert!(rt; rewrites(b"\x11\x40\x00\x05", b"\x11\x00\x05"));
    assert!(rt; rewrites(b"\x13\x80\x00\x00\x40", b"\x13\x40\x40"));
    assert!(rt; rewrites(b"\x04\x00\x07\x03", b"\x04\x00\x07\x03"));
}

#[test]
fn carried_frames_are_written() {
    let rt = HostRuntime::new();
    assert!(rt;
        rewrites(
            b"\x18\x40\x01\x00\x02xy0123456789abcdef",
            b"\x18\x01\x00\x02xy0123456789abcdef"
        )
    );
    assert!(rt; rewrites(b"\x1a01234567", b"\x1a01234567"));
    assert!(rt; rewrites(b"\x1c\x03\x40\x0a\x00", b"\x1c\x03\x0a\x00"));
    assert!(rt; rewrites(b"\x1e", b"\x1e"));
}

#[test]
fn a_frame_that_does_not_fit() {
    let rt = HostRuntime::new();
    let mut two = [9; 2];
    assert_eq!(rt; put(&Frame::MaxData { maximum: 64 }, &mut two), Err(Full));
    assert_eq!(rt; two, [9; 2]);
}
