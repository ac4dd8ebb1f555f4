// Made from tests/units/qs_units/src/wire/numbers.rattle by rust/erase; not edited by hand.
use crate::shim::{HostRuntime, assert, assert_eq};
use crate::proved::qs_wire::*;
use crate::shim::test::*;

#[test]
fn numbers_are_read() {
    let rt = HostRuntime::new();
    assert_eq!(rt; read_varint(b"\x25"), Some((37, 1)));
    assert_eq!(rt; read_varint(b"\x40\x25"), Some((37, 2)));
    assert_eq!(rt; read_varint(b"\x7b\xbd"), Some((15_293, 2)));
    assert_eq!(rt; read_varint(b"\x9d\x7f\x3e\x7d"), Some((494_878_333, 4)));
    assert_eq!(rt;
        read_varint(b"\xc2\x19\x7c\x5e\xff\x14\xe8\x8c"),
        Some((151_288_809_941_952_652, 8))
    );
    assert_eq!(rt; read_varint(b"\x40"), None);
    assert_eq!(rt; read_varint(b""), None);
}

#[test]
fn numbers_are_written() {
    let rt = HostRuntime::new();
    let mut two = [0; 2];
    assert_eq!(rt; write_varint(64, &mut two), Some(2));
    assert_eq!(rt; two, [0x40, 0x40]);
    let mut one = [7];
    assert_eq!(rt; write_varint(64, &mut one), None);
    assert_eq!(rt; one, [7]);
    assert_eq!(rt; write_varint(1 << 62, &mut [0; 9]), None);
    assert_eq!(rt; varint_len((1 << 62) - 1), 8);
}

#[test]
fn parts_of_a_stream_number() {
    let rt = HostRuntime::new();
    let id = StreamId::from_parts(Role::Server, Dir::Uni, 5).expect("a stream");
    assert_eq!(rt; id.value(), 23);
    assert_eq!(rt; id.initiator(), Role::Server);
    assert_eq!(rt; id.dir(), Dir::Uni);
    assert_eq!(rt; id.index(), 5);
    assert!(rt; StreamId::new(1 << 62).is_none());
    assert!(rt; StreamId::from_parts(Role::Client, Dir::Bidi, 1 << 60).is_none());
}

#[test]
fn kinds_have_numbers_and_codes() {
    let rt = HostRuntime::new();
    assert_eq!(rt; FaultKind::Empty.number(), 1);
    assert_eq!(rt; FaultKind::LongType.code(), 0x0a);
    assert_eq!(rt; FaultKind::CountTooLarge.number(), 6);
    assert_eq!(rt; FaultKind::IdentifierLength.number(), 8);
    assert_eq!(rt; FaultKind::IdentifierLength.code(), 0x07);
}
