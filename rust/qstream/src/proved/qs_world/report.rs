// Made from crates/qs_world/src/report.rt by rust/erase; not edited by hand.
//! What two endpoints have come to.

use crate::shim::Vec;
use crate::proved::qs_calls::{Answer, Event, Side};
use crate::proved::qs_conn::{Closing, SetupFault};
use crate::proved::qs_wire::StreamId;

/// One direction of a stream, as its sender and its receiver know it.
#[derive(Clone, Copy, Debug, PartialEq, Eq)]
pub struct LaneTotals {
    pub sender: Side,
    pub id: StreamId,
    /// How many bytes the sender accepted.
    pub written: u64,
    /// How many bytes were read at the receiver.
    pub read: u64,
    /// Whether every byte and the FIN are acknowledged.
    pub received: bool,
    /// The final size that the sender declared.
    pub declared: Option<u64>,
    /// The final size that the receiver knows.
    pub known: Option<u64>,
}

/// The credit of an endpoint.
#[derive(Clone, Copy, Debug, PartialEq, Eq)]
pub struct EndTotals {
    /// How much of the connection's credit the peer used.
    pub spent: u64,
    /// The connection limit that this endpoint granted.
    pub granted: u64,
    /// How many bytes are stored until they are read.
    pub stored: u64,
    /// Why this endpoint closed.
    pub closing: Option<Closing>,
}

/// What happened, with each answer in order, and what came of it.
#[derive(Debug, PartialEq, Eq)]
pub struct Report {
    pub log: Vec<(Event, Answer)>,
    /// By stream number, A as sender before B.
    pub lanes: Vec<LaneTotals>,
    /// A and B.
    pub ends: [EndTotals; 2],
}

/// Why events were not played to their end.
#[derive(Clone, Copy, Debug, PartialEq, Eq)]
pub enum PlayFault {
    NoMemory,
    /// A packet was to be delivered that wasn't made. Events are counted from 1.
    NoSuchPacket { event: usize },
    Setup(SetupFault),
}

impl core::fmt::Display for PlayFault {
    fn fmt(&self, f: &mut core::fmt::Formatter<'_>) -> core::fmt::Result {
        match self {
            Self::NoMemory => f.write_str("out of memory"),
            Self::NoSuchPacket { event, .. } => write!(f, "no such packet at event {event}"),
            Self::Setup(..) => f.write_str("the ends cannot be made"),
        }
    }
}

impl core::error::Error for PlayFault {}
