// Made from crates/qs_wire/src/stream_id.rt by rust/erase; not edited by hand.
/// Which of the two endpoints of a connection.
#[derive(Clone, Copy, Debug, PartialEq, Eq)]
pub enum Role {
    Client,
    Server,
}

/// Whether both endpoints send.
#[derive(Clone, Copy, Debug, PartialEq, Eq)]
pub enum Dir {
    Bidi,
    Uni,
}

/// A stream's number, below 2^62.
#[derive(Clone, Copy, Debug, PartialEq, Eq)]
pub struct StreamId {
    value: u64,
}

impl StreamId {
    /// The stream of that number, or `None` above 2^62-1.
    #[inline]
    pub fn new(value: u64) -> Option<StreamId> {
        if value < 1 << 62 {
            Some(StreamId { value })
        } else {
            None
        }
    }

    /// A payload can't spell a greater one, so this needs no error.
    #[inline]
    pub(crate) fn of_varint(value: u64) -> StreamId {
        debug_assert!(value < 1 << 62);
        StreamId { value }
    }

    /// The stream of an initiator and a direction that has that index; `None` from 2^60 on, since the type takes two of the 62 bits.
    #[inline]
    pub fn from_parts(initiator: Role, dir: Dir, index: u64) -> Option<StreamId> {
        if index >= 1 << 60 {
            return None;
        }
        let initiator = match initiator {
            Role::Client => 0,
            Role::Server => 1,
        };
        let dir = match dir {
            Dir::Bidi => 0,
            Dir::Uni => 2,
        };
        Some(StreamId {
            value: index * 4 + dir + initiator,
        })
    }

    /// The endpoint that opens the stream.
    #[inline]
    pub fn initiator(self) -> Role {
        match self.value % 2 {
            0 => Role::Client,
            _ => Role::Server,
        }
    }

    #[inline]
    pub fn dir(self) -> Dir {
        match self.value / 2 % 2 {
            0 => Dir::Bidi,
            _ => Dir::Uni,
        }
    }

    /// How many streams of its type have a lower number.
    #[inline]
    pub fn index(self) -> u64 {
        self.value / 4
    }

    #[inline(always)]
    pub fn value(self) -> u64 {
        self.value
    }
}
