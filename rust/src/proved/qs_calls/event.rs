// Made from crates/qs_calls/src/event.rt by rust/erase; not edited by hand.
//! What happens to two endpoints.

use crate::shim::Vec;

use crate::proved::qs_send::MAX_VARINT;
use crate::proved::qs_wire::{Dir, StreamId};

/// The client is A, the server B.
#[derive(Clone, Copy, Debug, PartialEq, Eq)]
pub enum Side {
    A,
    B,
}

/// What an application does, or what the network does with one of the endpoint's packets.
#[derive(Debug, PartialEq, Eq)]
pub enum Act {
    OpenStream(Dir),
    Accept,
    Write(StreamId, Vec<u8>),
    Finish(StreamId),
    /// With the application's code.
    Reset(StreamId, u64),
    Stop(StreamId, u64),
    /// With the greatest number of bytes.
    ReadUpTo(StreamId, usize),
    /// With the room of the payload in bytes.
    Make(usize),
    /// The packet of that number is declared lost.
    Lose(u64),
    /// The transport claims the next packet number, and sends a packet of its own under it, a PING: a run without would leave out what
    /// every transport does.
    Claim,
    /// The payload that this endpoint made under that number comes to the other one.
    Deliver(u64),
}

#[derive(Debug, PartialEq, Eq)]
pub struct Event {
    pub end: Side,
    pub act: Act,
}

impl Event {
    /// Whether each number is one that a script may name. A condition of calls: the theorems hold without it.
    #[inline]
    pub fn fits(&self) -> bool {
        match &self.act {
            Act::OpenStream(_) | Act::Accept | Act::Finish(_) | Act::Claim => true,
            Act::Write(_, bytes) => bytes.len() <= MAX_BYTES,
            Act::ReadUpTo(_, size) => *size <= MAX_BYTES,
            Act::Reset(_, code) | Act::Stop(_, code) => *code <= MAX_VARINT,
            Act::Make(room) => *room >= MIN_ROOM && *room <= MAX_ROOM,
            Act::Lose(number) | Act::Deliver(number) => *number <= MAX_VARINT,
        }
    }
}

/// The most bytes of a write or a read.
pub const MAX_BYTES: usize = 65_535;

/// The least room of a payload.
pub const MIN_ROOM: usize = 128;

/// The most room of a payload.
pub const MAX_ROOM: usize = 16_383;
