// Made from crates/qs_cli/src/wire.rt by rust/erase; not edited by hand.
//! What carries datagrams between two ends.

use crate::proved::qs_world::Side;

/// A call of a wire failed.
#[derive(Clone, Copy, Debug, PartialEq, Eq)]
pub struct WireError;

/// Carries datagrams from each of two ends to the other, and may lose them, hold them up or bring strangers'.
///
/// An error is returned only if the wire failed in that call, and the wire counts its failures: so a run can't make up one that didn't
/// happen. Those of sends are counted apart, too, so that a run can't forget to lose a packet that wasn't sent. A count stays at its
/// greatest value.
pub trait Wire {
    /// Sends a datagram from one end to the other.
    fn send(&mut self, from: Side, bytes: &[u8]) -> Result<(), WireError>;

    /// Receives one datagram at an end, and answers how many of its bytes stand in the slice. What doesn't fit is lost.
    fn recv(&mut self, at: Side, into: &mut [u8]) -> Result<usize, WireError>;

    /// How many calls failed.
    fn failures(&self) -> u64;
}

pub(crate) struct Failures {
    calls: u64,
    sends: u64,
}

impl Failures {
    pub(crate) fn none() -> Failures {
        Failures { calls: 0, sends: 0 }
    }

    pub(crate) fn note_send(&mut self) -> WireError {
        self.calls = one_more(self.calls);
        self.sends = one_more(self.sends);
        WireError
    }

    pub(crate) fn note_recv(&mut self) -> WireError {
        self.calls = one_more(self.calls);
        WireError
    }

    pub(crate) fn count(&self) -> u64 {
        self.calls
    }
}

/// It stays at its greatest value, so that it can't fall.
pub(crate) fn one_more(count: u64) -> u64 {
    if count < u64::MAX { count + 1 } else { count }
}

/// The end to which the other end's datagrams come.
pub fn other_side(side: Side) -> Side {
    match side {
        Side::A => Side::B,
        Side::B => Side::A,
    }
}
