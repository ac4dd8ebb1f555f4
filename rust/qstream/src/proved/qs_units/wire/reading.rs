// Made from tests/units/qs_units/src/wire/reading.rattle by rust/erase; not edited by hand.
use crate::shim::{HostRuntime, assert};
use super::{first_stream, is_one};
use crate::proved::qs_wire::*;
use crate::shim::test::*;

#[test]
fn a_stream_frame_is_read() {
    let rt = HostRuntime::new();
    let stream = first_stream();
    assert!(rt;
        is_one(
            b"\x0b\x00\x03abc",
            0x0b,
            &Frame::Stream {
                stream,
                offset: 0,
                fin: true,
                bytes: b"abc"
            }
        )
    );
    assert!(rt;
        is_one(
            b"\x08\x00abc",
            0x08,
            &Frame::Stream {
                stream,
                offset: 0,
                fin: false,
                bytes: b"abc"
            }
        )
    );
    assert!(rt;
        is_one(
            b"\x0e\x00\x00\x01a",
            0x0e,
            &Frame::Stream {
                stream,
                offset: 0,
                fin: false,
                bytes: b"a"
            }
        )
    );
}

#[test]
fn an_end_at_the_last_offset() {
    let rt = HostRuntime::new();
    let stream = first_stream();
    let last = Frame::Stream {
        stream,
        offset: (1 << 62) - 1,
        fin: false,
        bytes: b"",
    };
    assert!(rt; is_one(b"\x0e\x00\xff\xff\xff\xff\xff\xff\xff\xff\x00", 0x0e, &last));
    assert!(rt; is_one(b"\x0c\x00\xff\xff\xff\xff\xff\xff\xff\xff", 0x0c, &last));
}

#[test]
fn padding_and_ping() {
    let rt = HostRuntime::new();
    assert!(rt; is_one(b"\x00", 0x00, &Frame::Padding));
    assert!(rt; is_one(b"\x01", 0x01, &Frame::Ping));
    assert!(rt; is_one(b"\x1e", 0x1e, &Frame::HandshakeDone));
}

#[test]
fn counts_of_streams() {
    let rt = HostRuntime::new();
    assert!(rt;
        is_one(
            b"\x12\xd0\x00\x00\x00\x00\x00\x00\x00",
            0x12,
            &Frame::MaxStreams {
                dir: Dir::Bidi,
                count: 1 << 60
            }
        )
    );
    assert!(rt;
        is_one(
            b"\x13\x05",
            0x13,
            &Frame::MaxStreams {
                dir: Dir::Uni,
                count: 5
            }
        )
    );
    assert!(rt;
        is_one(
            b"\x16\x05",
            0x16,
            &Frame::StreamsBlocked {
                dir: Dir::Bidi,
                count: 5
            }
        )
    );
    assert!(rt;
        is_one(
            b"\x17\x05",
            0x17,
            &Frame::StreamsBlocked {
                dir: Dir::Uni,
                count: 5
            }
        )
    );
}

#[test]
fn limits() {
    let rt = HostRuntime::new();
    let id = first_stream();
    assert!(rt; is_one(b"\x10\x09", 0x10, &Frame::MaxData { maximum: 9 }));
    assert!(rt;
        is_one(
            b"\x11\x40\x00\x05",
            0x11,
            &Frame::MaxStreamData {
                stream: id,
                maximum: 5
            }
        )
    );
    assert!(rt; is_one(b"\x14\x09", 0x14, &Frame::DataBlocked { limit: 9 }));
    assert!(rt;
        is_one(
            b"\x15\x00\x09",
            0x15,
            &Frame::StreamDataBlocked {
                stream: id,
                limit: 9
            }
        )
    );
}

#[test]
fn resets_and_stops() {
    let rt = HostRuntime::new();
    let stream = first_stream();
    assert!(rt;
        is_one(
            b"\x04\x00\x07\x03",
            0x04,
            &Frame::ResetStream {
                stream,
                code: 7,
                final_size: 3
            }
        )
    );
    assert!(rt;
        is_one(
            b"\x05\x00\x07",
            0x05,
            &Frame::StopSending { stream, code: 7 }
        )
    );
}

#[test]
fn closes() {
    let rt = HostRuntime::new();
    let quic = Frame::ConnectionClose {
        code: 3,
        frame_type: 0x0a,
        reason: b"",
    };
    assert!(rt; is_one(b"\x1c\x03\x0a\x00", 0x1c, &quic));
    assert!(rt; is_one(b"\x1c\x03\x40\x0a\x00", 0x1c, &quic));
    assert!(rt;
        is_one(
            b"\x1d\x05\x02ok",
            0x1d,
            &Frame::ApplicationClose {
                code: 5,
                reason: b"ok"
            }
        )
    );
}

#[test]
fn carried_frames() {
    let rt = HostRuntime::new();
    assert!(rt;
        is_one(
            b"\x06\x02\x01a",
            0x06,
            &Frame::Crypto {
                offset: 2,
                bytes: b"a"
            }
        )
    );
    assert!(rt; is_one(b"\x07\x01a", 0x07, &Frame::NewToken { bytes: b"a" }));
    assert!(rt;
        is_one(
            b"\x18\x01\x00\x02xy0123456789abcdef",
            0x18,
            &Frame::NewConnectionId {
                sequence: 1,
                retire: 0,
                identifier: b"xy",
                reset_token: b"0123456789abcdef"
            }
        )
    );
    assert!(rt;
        is_one(
            b"\x19\x01",
            0x19,
            &Frame::RetireConnectionId { sequence: 1 }
        )
    );
    assert!(rt;
        is_one(
            b"\x1a01234567",
            0x1a,
            &Frame::PathChallenge { bytes: b"01234567" }
        )
    );
    assert!(rt;
        is_one(
            b"\x1b01234567",
            0x1b,
            &Frame::PathResponse { bytes: b"01234567" }
        )
    );
}
