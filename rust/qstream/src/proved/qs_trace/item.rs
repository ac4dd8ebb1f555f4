// Made from crates/qs_trace/src/item.rt by rust/erase; not edited by hand.
//! What a trace tells.

/// A half of a stream and the state that it comes to (RFC 9000, sections 3.1 and 3.2).
#[derive(Clone, Copy)]
pub enum Turn {
    Ready,
    ResetSent,
    Recv,
    DataRead,
    ResetRead,
}

/// Why a packet that came had no effect, or not the whole.
#[derive(Clone, Copy)]
pub enum Why {
    Duplicate,
    BelowFloor,
    NoMemory,
}

/// A packet by its number, a half of a stream with its new state, a count of bytes of a stream that the transport took from the
/// application or gave to it, or the connection's end by a code.
#[derive(Clone, Copy)]
pub enum Item<'a> {
    /// With its payload.
    Sent(u64, &'a [u8]),
    Received(u64),
    Dropped(u64, Why),
    Lost(u64),
    Turned(u64, Turn),
    Taken(u64, usize),
    Given(u64, usize),
    Closed(u64),
    PeerClosed(u64),
}
