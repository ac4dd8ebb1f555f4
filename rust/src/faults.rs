use crate::answers::Closing;
use crate::proved::qs_calls as calls;
use core::error::Error;
use core::fmt;

/// Why no endpoint can be made.
#[derive(Clone, Copy, Debug, PartialEq, Eq)]
#[non_exhaustive]
pub enum SetupFault {
    /// A setting is out of range, or a limit of the peer is above 2^62-1, which no frame could carry.
    OutOfRange,
    /// The peer grants more than 2^60 streams of one direction: close with TRANSPORT_PARAMETER_ERROR (RFC 9000, section 4.6).
    TooManyStreams,
}

/// Why no limits were raised. Nothing changed.
#[derive(Clone, Copy, Debug, PartialEq, Eq)]
#[non_exhaustive]
pub enum RaiseFault {
    /// The connection is closed, so limits mean nothing any more.
    Closed,
    /// No endpoint can be made with such limits, for this reason.
    Refused(SetupFault),
}

/// Why a setting wasn't changed. Nothing changed.
#[derive(Clone, Copy, Debug, PartialEq, Eq)]
#[non_exhaustive]
pub enum SetFault {
    /// The connection is closed, so limits mean nothing any more.
    Closed,
    /// The value is out of the range that [`Endpoint::with_tuning`](crate::Endpoint::with_tuning) has for it.
    OutOfRange,
    /// The stream was never opened.
    NoSuchStream,
    /// The stream has no such half here: it is unidirectional.
    WrongDirection,
}

/// Why no stream was opened.
#[derive(Clone, Copy, Debug, PartialEq, Eq)]
#[non_exhaustive]
pub enum OpenFault {
    /// So many streams were opened, ended ones too, which is the peer's count so far (RFC 9000, section 4.6). A STREAMS_BLOCKED tells it to
    /// the peer. It permits more as streams end; [`Event::Available`](crate::Event::Available) says when.
    Blocked(u64),
    /// The connection is closed, and all streams end with it.
    Closed,
    /// Memory was refused. The same call may succeed later.
    NoMemory,
}

/// Why a stream can't be used so. Nothing changed.
#[derive(Clone, Copy, Debug, PartialEq, Eq)]
#[non_exhaustive]
pub enum UseFault {
    /// The stream was never opened.
    NoSuchStream,
    /// The stream has no such half here: it is unidirectional.
    WrongDirection,
    /// The stream was finished already, so its length is fixed.
    Finished,
    /// The sending half was reset, by this endpoint or by the peer's STOP_SENDING. Its code is in
    /// [`stopped_with`](crate::Endpoint::stopped_with) and [`Event::Stopped`](crate::Event::Stopped).
    WasReset,
    /// The connection is closed, and all streams end with it.
    Closed,
    /// Memory was refused. The same call may succeed later.
    NoMemory,
    /// A code of 2^62 or more, which no frame can carry (RFC 9000, section 16).
    Invalid,
}

/// Why no packet was made. Nothing changed.
#[derive(Clone, Copy, Debug, PartialEq, Eq)]
#[non_exhaustive]
pub enum MakeFault {
    /// The connection is closed. Its last packets carry [`close_payload`](crate::Endpoint::close_payload) under numbers of
    /// [`claim_number`](crate::Endpoint::claim_number).
    Closed,
    /// Memory was refused. The same call may succeed later.
    NoMemory,
    /// The last packet number was used, and no number may be used twice (RFC 9000, section 12.3): the connection is over.
    Exhausted,
    /// The room isn't of 128 to 16,383 bytes, or a delay is 2^62 or more.
    Invalid,
}

/// Why a packet wasn't declared lost, or not wholly.
#[derive(Clone, Copy, Debug, PartialEq, Eq)]
#[non_exhaustive]
pub enum LostFault {
    /// No such packet is outstanding: it wasn't made, it is acknowledged or lost already, or it has an ACK alone, which nobody
    /// acknowledges. Nothing changed.
    NotOutstanding,
    /// Memory was refused. Some of what the packet carried may be pending again; the call may be made again.
    NoMemory,
    /// The connection is closed, so nothing will be sent again. Nothing changed.
    Closed,
}

/// Why a token wasn't acknowledged or lost, or not wholly.
#[derive(Clone, Copy, Debug, PartialEq, Eq)]
#[non_exhaustive]
pub enum TokenFault {
    /// Not all of its packets were made yet, it is of another epoch, or its first number is above its last. Nothing changed.
    NotGiven,
    /// Memory was refused. Some of what the packet carried may be done; the call may be made again.
    NoMemory,
    /// The connection is closed, so nothing will be sent again. Nothing changed.
    Closed,
}

/// Why no event was returned. Nothing changed.
#[derive(Clone, Copy, Debug, PartialEq, Eq)]
#[non_exhaustive]
pub enum EventFault {
    /// Memory was refused for the note that it was reported. The same event comes again.
    NoMemory,
}

/// Why a payload wasn't processed.
#[derive(Clone, Copy, Debug, PartialEq, Eq)]
#[non_exhaustive]
pub enum ReceiveFault {
    /// This endpoint closed the connection, now or before, because a frame offended.
    Closing(Closing),
    /// A packet number of 2^62 or more, or a payload of more than 65,535 bytes: neither exists in QUIC. Nothing changed.
    Invalid,
}

/// Why a single frame wasn't processed.
#[derive(Clone, Copy, Debug, PartialEq, Eq)]
#[non_exhaustive]
pub enum TakeFault {
    /// This endpoint closed the connection, now or before, because a frame offended.
    Closing(Closing),
    /// The peer closed before, with this code. Nothing changed.
    PeerClosed(u64),
    /// Memory was refused. By [`take_frame`](crate::Endpoint::take_frame) nothing changed; by [`take_frames`](crate::Endpoint::take_frames)
    /// the frames before it took effect. The same may come again.
    NoMemory,
}

/// Why a frame wasn't written. Nothing was.
#[derive(Clone, Copy, Debug, PartialEq, Eq)]
#[non_exhaustive]
pub enum PutFault {
    /// It doesn't fit the slice. A longer one takes it.
    Full,
    /// No payload can spell it: a number of 2^62 or more, a count of streams above 2^60, a connection ID, token or challenge of a wrong
    /// length, or ranges that aren't those of an ACK (RFC 9000, sections 16 and 19).
    Invalid,
}

/// Why a number is no stream's: it is 2^62 or more, which no frame can carry (RFC 9000, section 16).
#[derive(Clone, Copy, Debug, PartialEq, Eq)]
#[non_exhaustive]
pub struct StreamIdFault;

impl SetupFault {
    /// The code to refuse the connection with, if the peer is at fault (RFC 9000, section 20.1). The other fault is in this side's
    /// settings, which the peer needn't know.
    pub fn code(self) -> Option<u64> {
        match self {
            SetupFault::OutOfRange => calls::SetupFault::OutOfRange.code(),
            SetupFault::TooManyStreams => calls::SetupFault::TooManyStreams.code(),
        }
    }

    pub(crate) fn of(fault: calls::SetupFault) -> SetupFault {
        match fault {
            calls::SetupFault::OutOfRange => SetupFault::OutOfRange,
            calls::SetupFault::TooManyStreams => SetupFault::TooManyStreams,
        }
    }
}

impl RaiseFault {
    pub(crate) fn of(fault: calls::RaiseFault) -> RaiseFault {
        match fault {
            calls::RaiseFault::Closed => RaiseFault::Closed,
            calls::RaiseFault::Refused(fault) => RaiseFault::Refused(SetupFault::of(fault)),
        }
    }
}

impl SetFault {
    pub(crate) fn of(fault: calls::SetFault) -> SetFault {
        match fault {
            calls::SetFault::Closed => SetFault::Closed,
            calls::SetFault::OutOfRange => SetFault::OutOfRange,
            calls::SetFault::NoSuchStream => SetFault::NoSuchStream,
            calls::SetFault::WrongDirection => SetFault::WrongDirection,
        }
    }
}

impl OpenFault {
    pub(crate) fn of(fault: calls::OpenFault) -> OpenFault {
        match fault {
            calls::OpenFault::Blocked(count) => OpenFault::Blocked(count),
            calls::OpenFault::Closed => OpenFault::Closed,
            calls::OpenFault::NoMemory => OpenFault::NoMemory,
        }
    }
}

impl UseFault {
    pub(crate) fn of(fault: calls::UseFault) -> UseFault {
        match fault {
            calls::UseFault::NoSuchStream => UseFault::NoSuchStream,
            calls::UseFault::WrongDirection => UseFault::WrongDirection,
            calls::UseFault::Finished => UseFault::Finished,
            calls::UseFault::WasReset => UseFault::WasReset,
            calls::UseFault::Closed => UseFault::Closed,
            calls::UseFault::NoMemory => UseFault::NoMemory,
        }
    }
}

impl MakeFault {
    pub(crate) fn of(fault: calls::MakeFault) -> MakeFault {
        match fault {
            calls::MakeFault::Closed => MakeFault::Closed,
            calls::MakeFault::NoMemory => MakeFault::NoMemory,
            calls::MakeFault::Exhausted => MakeFault::Exhausted,
        }
    }
}

impl LostFault {
    pub(crate) fn of(fault: calls::LostFault) -> LostFault {
        match fault {
            calls::LostFault::NotOutstanding => LostFault::NotOutstanding,
            calls::LostFault::NoMemory => LostFault::NoMemory,
            calls::LostFault::Closed => LostFault::Closed,
        }
    }
}

impl TakeFault {
    pub(crate) fn of(fault: calls::TakeFault) -> TakeFault {
        match fault {
            calls::TakeFault::Closing(closing) => TakeFault::Closing(Closing::of(closing)),
            calls::TakeFault::PeerClosed(code) => TakeFault::PeerClosed(code),
            calls::TakeFault::NoMemory => TakeFault::NoMemory,
        }
    }
}

impl TokenFault {
    pub(crate) fn of(fault: calls::TokenFault) -> TokenFault {
        match fault {
            calls::TokenFault::NotGiven => TokenFault::NotGiven,
            calls::TokenFault::NoMemory => TokenFault::NoMemory,
            calls::TokenFault::Closed => TokenFault::Closed,
        }
    }
}

const CLOSED: &str = "the connection is closed";
const NO_MEMORY: &str = "out of memory";

impl fmt::Display for SetupFault {
    fn fmt(&self, f: &mut fmt::Formatter<'_>) -> fmt::Result {
        f.write_str(match self {
            SetupFault::OutOfRange => "a setting is out of its range",
            SetupFault::TooManyStreams => "the peer allows too many streams",
        })
    }
}

impl fmt::Display for OpenFault {
    fn fmt(&self, f: &mut fmt::Formatter<'_>) -> fmt::Result {
        match self {
            OpenFault::Blocked(count) => write!(f, "the peer allows {count} streams"),
            OpenFault::Closed => f.write_str(CLOSED),
            OpenFault::NoMemory => f.write_str(NO_MEMORY),
        }
    }
}

impl fmt::Display for UseFault {
    fn fmt(&self, f: &mut fmt::Formatter<'_>) -> fmt::Result {
        f.write_str(match self {
            UseFault::NoSuchStream => "the stream is not open",
            UseFault::WrongDirection => "the stream goes the other way",
            UseFault::Finished => "the stream was finished",
            UseFault::WasReset => "the stream was reset",
            UseFault::Closed => CLOSED,
            UseFault::NoMemory => NO_MEMORY,
            UseFault::Invalid => "a code lies above 2^62-1",
        })
    }
}

impl fmt::Display for RaiseFault {
    fn fmt(&self, f: &mut fmt::Formatter<'_>) -> fmt::Result {
        match self {
            RaiseFault::Closed => f.write_str(CLOSED),
            RaiseFault::Refused(fault) => fault.fmt(f),
        }
    }
}

impl fmt::Display for SetFault {
    fn fmt(&self, f: &mut fmt::Formatter<'_>) -> fmt::Result {
        f.write_str(match self {
            SetFault::Closed => CLOSED,
            SetFault::OutOfRange => "a setting is out of its range",
            SetFault::NoSuchStream => "the stream is not open",
            SetFault::WrongDirection => "the stream goes the other way",
        })
    }
}

impl fmt::Display for MakeFault {
    fn fmt(&self, f: &mut fmt::Formatter<'_>) -> fmt::Result {
        f.write_str(match self {
            MakeFault::Closed => CLOSED,
            MakeFault::NoMemory => NO_MEMORY,
            MakeFault::Exhausted => "there is no packet number left",
            MakeFault::Invalid => {
                "a packet needs a room of 128 to 16383 bytes, and a delay below 2^62"
            }
        })
    }
}

impl fmt::Display for LostFault {
    fn fmt(&self, f: &mut fmt::Formatter<'_>) -> fmt::Result {
        f.write_str(match self {
            LostFault::NotOutstanding => "no such packet is outstanding",
            LostFault::NoMemory => NO_MEMORY,
            LostFault::Closed => CLOSED,
        })
    }
}

impl fmt::Display for TakeFault {
    fn fmt(&self, f: &mut fmt::Formatter<'_>) -> fmt::Result {
        match self {
            TakeFault::Closing(closing) => closing.fmt(f),
            TakeFault::PeerClosed(code) => write!(f, "the peer closed with code {code}"),
            TakeFault::NoMemory => f.write_str(NO_MEMORY),
        }
    }
}

impl fmt::Display for TokenFault {
    fn fmt(&self, f: &mut fmt::Formatter<'_>) -> fmt::Result {
        f.write_str(match self {
            TokenFault::NotGiven => "no packet has this token",
            TokenFault::NoMemory => NO_MEMORY,
            TokenFault::Closed => CLOSED,
        })
    }
}

impl fmt::Display for EventFault {
    fn fmt(&self, f: &mut fmt::Formatter<'_>) -> fmt::Result {
        f.write_str(match self {
            EventFault::NoMemory => NO_MEMORY,
        })
    }
}

impl fmt::Display for ReceiveFault {
    fn fmt(&self, f: &mut fmt::Formatter<'_>) -> fmt::Result {
        match self {
            ReceiveFault::Closing(closing) => closing.fmt(f),
            ReceiveFault::Invalid => f.write_str(
                "a packet number lies above 2^62-1, or a payload has more than 65535 bytes",
            ),
        }
    }
}

impl fmt::Display for PutFault {
    fn fmt(&self, f: &mut fmt::Formatter<'_>) -> fmt::Result {
        f.write_str(match self {
            PutFault::Full => "the frame does not fit",
            PutFault::Invalid => "no payload can spell the frame",
        })
    }
}

impl fmt::Display for StreamIdFault {
    fn fmt(&self, f: &mut fmt::Formatter<'_>) -> fmt::Result {
        f.write_str("the number of a stream lies above 2^62-1")
    }
}

impl Error for StreamIdFault {}
impl Error for SetupFault {}
impl Error for OpenFault {}
impl Error for SetFault {}
impl Error for UseFault {}
impl Error for MakeFault {}
impl Error for LostFault {}
impl Error for TokenFault {}
impl Error for EventFault {}
impl Error for PutFault {}

impl Error for RaiseFault {
    fn source(&self) -> Option<&(dyn Error + 'static)> {
        match self {
            RaiseFault::Closed => None,
            RaiseFault::Refused(fault) => Some(fault),
        }
    }
}

impl Error for TakeFault {
    fn source(&self) -> Option<&(dyn Error + 'static)> {
        match self {
            TakeFault::Closing(closing) => Some(closing),
            TakeFault::PeerClosed(_) | TakeFault::NoMemory => None,
        }
    }
}

impl Error for ReceiveFault {
    fn source(&self) -> Option<&(dyn Error + 'static)> {
        match self {
            ReceiveFault::Closing(closing) => Some(closing),
            ReceiveFault::Invalid => None,
        }
    }
}
