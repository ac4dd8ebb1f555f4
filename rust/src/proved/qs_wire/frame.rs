// Made from crates/qs_wire/src/frame.rt by rust/erase; not edited by hand.
use crate::proved::qs_wire::stream_id::{Dir, StreamId};

/// A frame, in the order of RFC 9000, sections 19.1 to 19.20. Two types of one layout are one frame. Its bytes are lent by the payload, so
/// reading copies nothing.
#[derive(Clone, Copy, Debug, PartialEq, Eq)]
pub enum Frame<'a> {
    /// Section 19.1. Each byte is a frame of its own.
    Padding,
    Ping,
    /// Section 19.3, of both types: that with ECN counts and that without.
    Ack {
        largest: u64,
        delay: u64,
        /// The length of the first range, and then of each next one the gap before it and its length, as the payload spells them.
        /// [`AckRanges`](crate::proved::qs_wire::AckRanges) reads them.
        ranges: &'a [u8],
        ecn: Option<EcnCounts>,
    },
    ResetStream {
        stream: StreamId,
        code: u64,
        final_size: u64,
    },
    StopSending {
        stream: StreamId,
        code: u64,
    },
    Crypto {
        offset: u64,
        bytes: &'a [u8],
    },
    /// Section 19.7. An empty token is read, and by a server too: to refuse them is for the transport, which has the tokens.
    NewToken {
        bytes: &'a [u8],
    },
    Stream {
        stream: StreamId,
        offset: u64,
        fin: bool,
        bytes: &'a [u8],
    },
    MaxData {
        maximum: u64,
    },
    MaxStreamData {
        stream: StreamId,
        maximum: u64,
    },
    MaxStreams {
        dir: Dir,
        count: u64,
    },
    DataBlocked {
        limit: u64,
    },
    StreamDataBlocked {
        stream: StreamId,
        limit: u64,
    },
    StreamsBlocked {
        dir: Dir,
        count: u64,
    },
    /// Section 19.15. That `retire` is at most `sequence` is for the transport to check, which has the connection IDs.
    NewConnectionId {
        sequence: u64,
        retire: u64,
        /// 1 to 20 bytes.
        identifier: &'a [u8],
        /// 16 bytes.
        reset_token: &'a [u8],
    },
    RetireConnectionId {
        sequence: u64,
    },
    /// Section 19.17. 8 bytes.
    PathChallenge {
        bytes: &'a [u8],
    },
    /// Section 19.18. 8 bytes.
    PathResponse {
        bytes: &'a [u8],
    },
    /// Section 19.19, type 0x1c: the transport closes.
    ConnectionClose {
        code: u64,
        /// The type of the frame that offended, 0 if none did.
        frame_type: u64,
        reason: &'a [u8],
    },
    /// Section 19.19, type 0x1d: the application closes.
    ApplicationClose {
        code: u64,
        reason: &'a [u8],
    },
    /// Section 19.20. It is read by a server too: to refuse it is for the transport, which has the handshake.
    HandshakeDone,
}

/// How many packets came with each mark of congestion (RFC 9000, section 19.3.2).
#[derive(Clone, Copy, Debug, PartialEq, Eq)]
pub struct EcnCounts {
    pub ect0: u64,
    pub ect1: u64,
    pub ce: u64,
}

/// A frame, the place of its first byte in the payload, and the number of its type as it was read: a STREAM doesn't say which of its eight
/// types it had.
#[derive(Clone, Copy, Debug, PartialEq, Eq)]
pub struct Placed<'a> {
    pub place: usize,
    pub frame: Frame<'a>,
    pub frame_type: u64,
}
