// Made from crates/qs_send/src/piece.rt by rust/erase; not edited by hand.
//! What is kept of a packet until it is acknowledged or lost.

use crate::proved::qs_send::parts::Chunk;
use crate::proved::qs_wire::{Dir, StreamId};

/// A frame that tells a value and nothing else. It is sent until the value is acknowledged (RFC 9000, section 13.3).
#[derive(Debug, Clone, Copy, PartialEq, Eq)]
pub enum Item {
    MaxData {
        maximum: u64,
    },
    MaxStreamData {
        stream: StreamId,
        maximum: u64,
    },
    MaxStreams {
        dir: Dir,
        count: u64,
    },
    ResetStream {
        stream: StreamId,
        code: u64,
        final_size: u64,
    },
    StopSending {
        stream: StreamId,
        code: u64,
    },
    DataBlocked {
        limit: u64,
    },
    StreamDataBlocked {
        stream: StreamId,
        limit: u64,
    },
    StreamsBlocked {
        dir: Dir,
        count: u64,
    },
}

/// What a packet carried in one frame: a part of a lane, or a control item with its value.
#[derive(Debug, Clone, Copy, PartialEq, Eq)]
pub enum Piece {
    Data { stream: StreamId, chunk: Chunk },
    Told(Item),
}
