//! Endpoints, directions and the numbers of streams.

use crate::faults::StreamIdFault;
use crate::proved::qs_wire as wire;
use core::cmp::Ordering;
use core::fmt;
use core::hash::{Hash, Hasher};

/// Which of the two endpoints of a connection (RFC 9000, section 2.1). Stream numbers carry it, so that the two never open the same one.
#[derive(Clone, Copy, Debug, PartialEq, Eq, Hash, PartialOrd, Ord)]
pub enum Role {
    /// The one that opened the connection.
    Client,
    /// The one that accepted it.
    Server,
}

/// Who sends on a stream (RFC 9000, section 2.1).
#[derive(Clone, Copy, Debug, PartialEq, Eq, Hash, PartialOrd, Ord)]
pub enum Dir {
    /// Both endpoints.
    Bidi,
    /// The one that opens the stream; the other one reads.
    Uni,
}

/// The number of a stream, below 2^62 (RFC 9000, section 2.1).
///
/// Its two lowest bits are its type: who opens it, and its direction. The rest is its index among the streams of that type.
///
/// ```
/// use gotsavena::{Dir, Role, StreamId};
///
/// let stream = StreamId::from_parts(Role::Server, Dir::Uni, 2).unwrap();
/// assert_eq!(stream.value(), 11);
/// assert_eq!(StreamId::new(11), Some(stream));
/// assert_eq!(StreamId::new(1 << 62), None);
/// assert_eq!(stream.next(), StreamId::new(12));
/// assert_eq!(StreamId::try_from(11), Ok(stream));
/// ```
#[derive(Clone, Copy, PartialEq, Eq)]
pub struct StreamId(wire::StreamId);

impl StreamId {
    /// The stream of that number; `None` if it is 2^62 or more.
    #[must_use]
    pub fn new(value: u64) -> Option<StreamId> {
        wire::StreamId::new(value).map(StreamId)
    }

    /// The stream of that type with that index, from 0; `None` if the index is 2^60 or more, since the type takes two of the 62 bits.
    #[must_use]
    pub fn from_parts(initiator: Role, dir: Dir, index: u64) -> Option<StreamId> {
        wire::StreamId::from_parts(initiator.inner(), dir.inner(), index).map(StreamId)
    }

    /// The number, as in frames.
    #[must_use]
    pub fn value(self) -> u64 {
        self.0.value()
    }

    /// The endpoint that opens the stream.
    #[must_use]
    pub fn initiator(self) -> Role {
        Role::of(self.0.initiator())
    }

    /// The direction.
    #[must_use]
    pub fn dir(self) -> Dir {
        Dir::of(self.0.dir())
    }

    /// How many streams of its type have a lower number. The peer's count permits indices below it (section 4.6).
    #[must_use]
    pub fn index(self) -> u64 {
        self.0.index()
    }

    /// The stream of the next number, of whichever type, to go on from behind this one: in a search
    /// ([`next_readable`](crate::Endpoint::next_readable)) or by turns. `None` if this is the last.
    #[must_use]
    pub fn next(self) -> Option<StreamId> {
        StreamId::new(self.value() + 1)
    }

    pub(crate) fn of(stream: wire::StreamId) -> StreamId {
        StreamId(stream)
    }

    pub(crate) fn inner(self) -> wire::StreamId {
        self.0
    }
}

impl fmt::Debug for StreamId {
    fn fmt(&self, f: &mut fmt::Formatter<'_>) -> fmt::Result {
        write!(f, "StreamId({})", self.value())
    }
}

impl fmt::Display for StreamId {
    fn fmt(&self, f: &mut fmt::Formatter<'_>) -> fmt::Result {
        self.value().fmt(f)
    }
}

impl Hash for StreamId {
    fn hash<H: Hasher>(&self, state: &mut H) {
        self.value().hash(state);
    }
}

impl Ord for StreamId {
    fn cmp(&self, other: &StreamId) -> Ordering {
        self.value().cmp(&other.value())
    }
}

impl PartialOrd for StreamId {
    fn partial_cmp(&self, other: &StreamId) -> Option<Ordering> {
        Some(self.cmp(other))
    }
}

impl From<StreamId> for u64 {
    fn from(stream: StreamId) -> u64 {
        stream.value()
    }
}

impl TryFrom<u64> for StreamId {
    type Error = StreamIdFault;

    fn try_from(value: u64) -> Result<StreamId, StreamIdFault> {
        StreamId::new(value).ok_or(StreamIdFault)
    }
}

impl fmt::Display for Role {
    fn fmt(&self, f: &mut fmt::Formatter<'_>) -> fmt::Result {
        f.pad(match self {
            Role::Client => "client",
            Role::Server => "server",
        })
    }
}

impl fmt::Display for Dir {
    fn fmt(&self, f: &mut fmt::Formatter<'_>) -> fmt::Result {
        f.pad(match self {
            Dir::Bidi => "bidirectional",
            Dir::Uni => "unidirectional",
        })
    }
}

impl Role {
    /// The other endpoint.
    #[must_use]
    pub fn peer(self) -> Role {
        match self {
            Role::Client => Role::Server,
            Role::Server => Role::Client,
        }
    }

    pub(crate) fn of(role: wire::Role) -> Role {
        match role {
            wire::Role::Client => Role::Client,
            wire::Role::Server => Role::Server,
        }
    }

    pub(crate) fn inner(self) -> wire::Role {
        match self {
            Role::Client => wire::Role::Client,
            Role::Server => wire::Role::Server,
        }
    }
}

impl Dir {
    pub(crate) fn of(dir: wire::Dir) -> Dir {
        match dir {
            wire::Dir::Bidi => Dir::Bidi,
            wire::Dir::Uni => Dir::Uni,
        }
    }

    pub(crate) fn inner(self) -> wire::Dir {
        match self {
            Dir::Bidi => wire::Dir::Bidi,
            Dir::Uni => wire::Dir::Uni,
        }
    }
}
