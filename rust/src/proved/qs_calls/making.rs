// Made from crates/qs_calls/src/making.rt by rust/erase; not edited by hand.
//! What comes of making a packet, and of losing one.

/// A packet that was made: its number, the length of its payload in bytes, and whether it asks for an ACK: whether it holds a frame other
/// than an ACK (RFC 9000, section 13.2.1). All are known as it is made, and a caller would have to read the payload for them.
#[derive(Clone, Copy, Debug, PartialEq, Eq)]
pub struct Made {
    pub number: u64,
    pub len: usize,
    pub is_ack_eliciting: bool,
}

/// Why no packet was made.
#[derive(Clone, Copy, Debug, PartialEq, Eq)]
pub enum MakeFault {
    Closed,
    NoMemory,
    /// The last packet number was used (RFC 9000, section 12.3).
    Exhausted,
}

impl core::fmt::Display for MakeFault {
    fn fmt(&self, f: &mut core::fmt::Formatter<'_>) -> core::fmt::Result {
        match self {
            Self::Closed => f.write_str("the connection is closed"),
            Self::NoMemory => f.write_str("out of memory"),
            Self::Exhausted => f.write_str("there is no packet number left"),
        }
    }
}

impl core::error::Error for MakeFault {}

/// Why a packet was not declared lost, or not wholly.
#[derive(Clone, Copy, Debug, PartialEq, Eq)]
pub enum LostFault {
    /// It wasn't made, it is acknowledged or lost, or nobody acknowledges it.
    NotOutstanding,
    /// Some of what it carried is due again. The call may be made again.
    NoMemory,
    Closed,
}

impl core::fmt::Display for LostFault {
    fn fmt(&self, f: &mut core::fmt::Formatter<'_>) -> core::fmt::Result {
        match self {
            Self::NotOutstanding => f.write_str("no such packet is outstanding"),
            Self::NoMemory => f.write_str("out of memory"),
            Self::Closed => f.write_str("the connection is closed"),
        }
    }
}

impl core::error::Error for LostFault {}
