// Made from crates/qs_calls/src/settings.rt by rust/erase; not edited by hand.
//! What an endpoint is set to, and what it grants the other one.

use crate::proved::qs_recv::Share;

/// The credit that an endpoint grants, and the size of its sending buffers. Windows and sizes are in bytes, counts in streams.
#[derive(Clone, Copy, Debug, PartialEq, Eq)]
pub struct Settings {
    /// How many bytes may be received on all streams beyond those consumed (RFC 9000, section 4.1).
    pub conn_window: u64,
    /// The same for each bidirectional stream that this endpoint opens.
    pub bidi_local: u64,
    /// The same for each bidirectional stream that the peer opens.
    pub bidi_remote: u64,
    /// The same for each unidirectional stream that the peer opens.
    pub uni: u64,
    /// How many unacknowledged bytes each sending half keeps.
    pub send_buffer: usize,
    /// How many bidirectional streams the peer may open (section 4.6).
    pub grant_bidi: u64,
    /// How many unidirectional streams the peer may open.
    pub grant_uni: u64,
    /// How many bidirectional streams the peer may open in all, as its streams end. In all, because an ended stream still keeps some bytes.
    pub lifetime_bidi: u64,
    /// The same of unidirectional streams.
    pub lifetime_uni: u64,
}

/// What an application may choose. The default is what [`Settings`] alone make.
#[derive(Clone, Copy, Debug, PartialEq, Eq)]
pub struct Tuning {
    /// How much of its window has to be consumed until a limit on bytes moves (RFC 9000, section 4.2).
    pub credit_step: Share,
    /// How many of its grant's streams have to end until a count of streams moves (section 4.6), to send fewer frames. `None`: each one
    /// moves it.
    pub count_step: Option<Share>,
    /// Whether a write accepts no more bytes than may be sent at once under the stream's limit and the connection's, so that none waits for
    /// credit.
    pub within_credit: bool,
    /// Whether the application answers a STOP_SENDING: it is notified, and the stream goes on until it is reset or finished. Else the
    /// stream is reset at once, with the peer's code (section 3.5): a default that nobody can forget.
    pub answers_stops: bool,
    /// Whether received bytes can be read after a close.
    pub reads_when_closed: bool,
    /// A number in each token. No token of another epoch is taken, so an endpoint that replaces another doesn't mistake its tokens.
    pub epoch: u64,
    /// How many unacknowledged bytes all sending halves keep together, beside the bound of each. `None`: as many as they keep each.
    pub send_window: Option<u64>,
}

/// The limits that an endpoint begins with, as its peer grants them (RFC 9000, section 18.2). `local` and `remote` are seen from the
/// endpoint that grants.
#[derive(Clone, Copy, Debug, PartialEq, Eq)]
pub struct PeerLimits {
    pub max_data: u64,
    pub bidi_local: u64,
    pub bidi_remote: u64,
    pub uni: u64,
    pub streams_bidi: u64,
    pub streams_uni: u64,
}

/// Why no endpoint can be made.
#[derive(Clone, Copy, Debug, PartialEq, Eq)]
pub enum SetupFault {
    /// A setting lies outside its range, or a limit of the peer above 2^62-1.
    OutOfRange,
    /// The peer grants more than 2^60 streams of one direction (RFC 9000, section 4.6).
    TooManyStreams,
}

impl core::fmt::Display for SetupFault {
    fn fmt(&self, f: &mut core::fmt::Formatter<'_>) -> core::fmt::Result {
        match self {
            Self::OutOfRange => f.write_str("a setting is out of its range"),
            Self::TooManyStreams => f.write_str("the peer allows too many streams"),
        }
    }
}

impl core::error::Error for SetupFault {}

/// Why no limits were raised.
#[derive(Clone, Copy, Debug, PartialEq, Eq)]
pub enum RaiseFault {
    Closed,
    /// No endpoint can be made with such limits.
    Refused(SetupFault),
}

impl core::fmt::Display for RaiseFault {
    fn fmt(&self, f: &mut core::fmt::Formatter<'_>) -> core::fmt::Result {
        match self {
            Self::Closed => f.write_str("the connection is closed"),
            Self::Refused(..) => f.write_str("the limits of the peer are out of their range"),
        }
    }
}

impl core::error::Error for RaiseFault {}

/// Why a setting wasn't changed.
#[derive(Clone, Copy, Debug, PartialEq, Eq)]
pub enum SetFault {
    Closed,
    /// The value is out of the range that a new endpoint has for it.
    OutOfRange,
    NoSuchStream,
    WrongDirection,
}

impl core::fmt::Display for SetFault {
    fn fmt(&self, f: &mut core::fmt::Formatter<'_>) -> core::fmt::Result {
        match self {
            Self::Closed => f.write_str("the connection is closed"),
            Self::OutOfRange => f.write_str("a setting is out of its range"),
            Self::NoSuchStream => f.write_str("there is no such stream"),
            Self::WrongDirection => f.write_str("the stream has no such half at this end"),
        }
    }
}

impl core::error::Error for SetFault {}

impl Settings {
    /// The transport parameters for the other endpoint.
    #[inline]
    pub fn limits(&self) -> PeerLimits {
        PeerLimits {
            max_data: self.conn_window,
            bidi_local: self.bidi_local,
            bidi_remote: self.bidi_remote,
            uni: self.uni,
            streams_bidi: self.grant_bidi,
            streams_uni: self.grant_uni,
        }
    }
}

impl Tuning {
    /// Those of an endpoint whose application chose nothing.
    #[inline]
    pub fn by_default() -> Tuning {
        Tuning {
            credit_step: Share::Half,
            count_step: None,
            within_credit: false,
            answers_stops: false,
            reads_when_closed: false,
            epoch: 0,
            send_window: None,
        }
    }
}

impl SetupFault {
    /// The code to refuse the connection with, if the peer is at fault.
    #[inline]
    pub fn code(self) -> Option<u64> {
        match self {
            SetupFault::OutOfRange => None,
            SetupFault::TooManyStreams => Some(TRANSPORT_PARAMETER_ERROR),
        }
    }
}

const TRANSPORT_PARAMETER_ERROR: u64 = 0x08;
