// Made from crates/qs_calls/src/news.rt by rust/erase; not edited by hand.
//! What happened at an endpoint.

use crate::proved::qs_wire::{Dir, StreamId};

/// An event: what an application waits for, reported once (RFC 9000, sections 2 to 4).
#[derive(Clone, Copy, Debug, PartialEq, Eq)]
pub enum News {
    /// The peer opened the stream. It comes before all other events of that stream.
    Opened(StreamId),
    /// A read of one byte returns something new: bytes, the end or a reset.
    Readable(StreamId),
    /// A write was cut short, and now one of one byte is accepted, if there is memory for it.
    Writable(StreamId),
    /// The peer asked for no more of the stream, with this code first (section 3.5).
    Stopped(StreamId, u64),
    /// Everything written was acknowledged, and the FIN: Data Recvd (section 3.1).
    Finished(StreamId),
    ResetAcked(StreamId),
    /// Each half that the stream has here is over.
    Ended(StreamId),
    /// A stream of that direction may be opened, after one couldn't for the peer's count (section 4.6).
    Available(Dir),
    DataBlocked,
    StreamDataBlocked(StreamId),
    StreamsBlocked(Dir),
}
