// Made from crates/qs_calls/src/uses.rt by rust/erase; not edited by hand.
//! Why a stream cannot be opened or used.

/// Why no stream was opened.
#[derive(Clone, Copy, Debug, PartialEq, Eq)]
pub enum OpenFault {
    /// As many streams were opened as the peer permits.
    Blocked(u64),
    Closed,
    NoMemory,
}

impl core::fmt::Display for OpenFault {
    fn fmt(&self, f: &mut core::fmt::Formatter<'_>) -> core::fmt::Result {
        match self {
            Self::Blocked(field) => write!(f, "the peer allows {0} streams", field),
            Self::Closed => f.write_str("the connection is closed"),
            Self::NoMemory => f.write_str("out of memory"),
        }
    }
}

impl core::error::Error for OpenFault {}

/// Why a stream cannot be used so.
#[derive(Clone, Copy, Debug, PartialEq, Eq)]
pub enum UseFault {
    NoSuchStream,
    WrongDirection,
    Finished,
    WasReset,
    Closed,
    NoMemory,
}

impl core::fmt::Display for UseFault {
    fn fmt(&self, f: &mut core::fmt::Formatter<'_>) -> core::fmt::Result {
        match self {
            Self::NoSuchStream => f.write_str("the stream is not open"),
            Self::WrongDirection => f.write_str("the stream goes the other way"),
            Self::Finished => f.write_str("the stream was finished"),
            Self::WasReset => f.write_str("the stream was reset"),
            Self::Closed => f.write_str("the connection is closed"),
            Self::NoMemory => f.write_str("out of memory"),
        }
    }
}

impl core::error::Error for UseFault {}
