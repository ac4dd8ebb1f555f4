//! The answers as the numbers that the C library has for them, so that both targets have the same digest.

use gotsavena::{
    EventFault, LostFault, MakeFault, OpenFault, PutFault, RaiseFault, SetFault, SetupFault,
    TakeFault, TokenFault, UseFault,
};

pub const OK: u64 = 0;
pub const INVALID: u64 = 1;
pub const NO_MEMORY: u64 = 2;
pub const CLOSED: u64 = 3;
pub const NO_SUCH_STREAM: u64 = 4;
pub const WRONG_DIRECTION: u64 = 5;
pub const FINISHED: u64 = 6;
pub const WAS_RESET: u64 = 7;
pub const STREAM_LIMIT: u64 = 8;
pub const EXHAUSTED: u64 = 9;
pub const NOT_OUTSTANDING: u64 = 10;
pub const DUPLICATE: u64 = 11;
pub const TOO_OLD: u64 = 12;
pub const CLOSED_BY_PEER: u64 = 13;
pub const PROTOCOL_ERROR: u64 = 14;
pub const NONE: u64 = 15;
pub const NOTHING_YET: u64 = 16;
pub const END_OF_STREAM: u64 = 17;
pub const RESET_BY_PEER: u64 = 18;
pub const OUT_OF_RANGE: u64 = 19;
pub const TOO_MANY_STREAMS: u64 = 20;
pub const NO_ROOM: u64 = 22;
pub const NOT_GIVEN: u64 = 23;

/// What a call answers: a value, or a number that says why there is none.
pub type Answer<T> = Result<T, u64>;

pub fn code<T>(answer: &Answer<T>) -> u64 {
    answer.as_ref().err().copied().unwrap_or(OK)
}

pub trait Code {
    fn number(&self) -> u64;
}

impl Code for SetupFault {
    fn number(&self) -> u64 {
        match self {
            SetupFault::OutOfRange => OUT_OF_RANGE,
            SetupFault::TooManyStreams => TOO_MANY_STREAMS,
            other => panic!("{other}"),
        }
    }
}

impl Code for RaiseFault {
    fn number(&self) -> u64 {
        match self {
            RaiseFault::Closed => CLOSED,
            RaiseFault::Refused(fault) => fault.number(),
            other => panic!("{other}"),
        }
    }
}

impl Code for SetFault {
    fn number(&self) -> u64 {
        match self {
            SetFault::Closed => CLOSED,
            SetFault::OutOfRange => OUT_OF_RANGE,
            SetFault::NoSuchStream => NO_SUCH_STREAM,
            SetFault::WrongDirection => WRONG_DIRECTION,
            other => panic!("{other}"),
        }
    }
}

impl Code for OpenFault {
    fn number(&self) -> u64 {
        match self {
            OpenFault::Blocked(_) => STREAM_LIMIT,
            OpenFault::Closed => CLOSED,
            OpenFault::NoMemory => NO_MEMORY,
            other => panic!("{other}"),
        }
    }
}

impl Code for UseFault {
    fn number(&self) -> u64 {
        match self {
            UseFault::NoSuchStream => NO_SUCH_STREAM,
            UseFault::WrongDirection => WRONG_DIRECTION,
            UseFault::Finished => FINISHED,
            UseFault::WasReset => WAS_RESET,
            UseFault::Closed => CLOSED,
            UseFault::NoMemory => NO_MEMORY,
            UseFault::Invalid => INVALID,
            other => panic!("{other}"),
        }
    }
}

impl Code for MakeFault {
    fn number(&self) -> u64 {
        match self {
            MakeFault::Closed => CLOSED,
            MakeFault::NoMemory => NO_MEMORY,
            MakeFault::Exhausted => EXHAUSTED,
            MakeFault::Invalid => INVALID,
            other => panic!("{other}"),
        }
    }
}

impl Code for LostFault {
    fn number(&self) -> u64 {
        match self {
            LostFault::NotOutstanding => NOT_OUTSTANDING,
            LostFault::NoMemory => NO_MEMORY,
            LostFault::Closed => CLOSED,
            other => panic!("{other}"),
        }
    }
}

impl Code for TokenFault {
    fn number(&self) -> u64 {
        match self {
            TokenFault::NotGiven => NOT_GIVEN,
            TokenFault::NoMemory => NO_MEMORY,
            TokenFault::Closed => CLOSED,
            other => panic!("{other}"),
        }
    }
}

impl Code for EventFault {
    fn number(&self) -> u64 {
        NO_MEMORY
    }
}

impl Code for TakeFault {
    fn number(&self) -> u64 {
        match self {
            TakeFault::Closing(_) => PROTOCOL_ERROR,
            TakeFault::PeerClosed(_) => CLOSED_BY_PEER,
            TakeFault::NoMemory => NO_MEMORY,
            other => panic!("{other}"),
        }
    }
}

impl Code for PutFault {
    fn number(&self) -> u64 {
        match self {
            PutFault::Full => NO_ROOM,
            PutFault::Invalid => INVALID,
            other => panic!("{other}"),
        }
    }
}
