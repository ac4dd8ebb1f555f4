// Made from tests/units/qs_units/src/wire/acks.rattle by rust/erase; not edited by hand.
use crate::shim::{HostRuntime, assert, assert_eq};
use super::is_one;
use crate::proved::qs_wire::*;
use crate::shim::test::*;

#[test]
fn acks_are_read() {
    let rt = HostRuntime::new();
    assert!(rt;
        is_one(
            b"\x02\x05\x00\x01\x01\x00\x01",
            0x02,
            &Frame::Ack {
                largest: 5,
                delay: 0,
                ranges: b"\x01\x00\x01",
                ecn: None
            }
        )
    );
    let ecn = Some(EcnCounts {
        ect0: 1,
        ect1: 2,
        ce: 3,
    });
    assert!(rt;
        is_one(
            b"\x03\x05\x00\x00\x01\x01\x02\x03",
            0x03,
            &Frame::Ack {
                largest: 5,
                delay: 0,
                ranges: b"\x01",
                ecn
            }
        )
    );
}

#[test]
fn ranges_are_read() {
    let rt = HostRuntime::new();
    let mut ranges = AckRanges::new(5, b"\x01\x00\x01");
    assert_eq!(rt; ranges.next(), Some((4, 5)));
    assert_eq!(rt; ranges.next(), Some((1, 2)));
    assert_eq!(rt; ranges.next(), None);
    assert_eq!(rt; ranges.next(), None);
    // the same ranges, spelled longer
    let mut longer = AckRanges::new(5, b"\x40\x01\x40\x00\x40\x01");
    assert_eq!(rt; longer.next(), Some((4, 5)));
    assert_eq!(rt; longer.next(), Some((1, 2)));
    assert_eq!(rt; longer.next(), None);
}

#[test]
fn acks_are_made() {
    let rt = HostRuntime::new();
    let pairs = [(4, 6), (1, 3)];
    let mut seven = [9; 7];
    assert_eq!(rt; put_ack(&pairs, &mut seven), Ok((2, 7)));
    assert_eq!(rt; seven, *b"\x02\x05\x00\x01\x01\x00\x01");
    let mut six = [9; 6];
    assert_eq!(rt; put_ack(&pairs, &mut six), Ok((1, 5)));
    assert_eq!(rt; six, *b"\x02\x05\x00\x00\x01\x09");
    let mut four = [9; 4];
    assert_eq!(rt; put_ack(&pairs, &mut four), Err(Full));
    assert_eq!(rt; four, [9; 4]);
}

#[test]
fn an_ack_tells_a_delay() {
    let rt = HostRuntime::new();
    let mut out = [9; 7];
    assert_eq!(rt; put_delayed_ack(&[(4, 6)], 64, &mut out), Ok((1, 6)));
    assert_eq!(rt; out, *b"\x02\x05\x40\x40\x00\x01\x09");
}
