//! What a stack with packets of its own asks to be filled in, and what went in.

use crate::answers::Token;
use crate::ids::StreamId;
use crate::proved::qs_calls as calls;

/// With so many bytes of room [`Endpoint::fill`](crate::Endpoint::fill) puts something in whenever anything that it was asked for may go,
/// within the cap of [`Fill::at_most`]. It is the longest control frame, a RESET_STREAM: a byte for its type and eight for each of its
/// three numbers (RFC 9000, section 19.4).
pub const MIN_FILL: usize = calls::MIN_FILL;

/// What [`Endpoint::fill`](crate::Endpoint::fill) is to put in. Control frames come first, in the order of a packet, since the peer may
/// wait for credit; then data and FINs of streams, lower streams first.
#[derive(Clone, Copy, Debug, PartialEq, Eq)]
pub struct Fill {
    inner: calls::Fill,
}

impl Fill {
    /// All that is pending, from stream 0 on.
    #[must_use]
    pub fn all() -> Fill {
        Fill {
            inner: calls::Fill::all(),
        }
    }

    /// Control frames alone: limits, resets, STOP_SENDING and blocked frames (RFC 9000, section 13.3). For packets whose data a stack
    /// chooses itself.
    #[must_use]
    pub fn control() -> Fill {
        Fill {
            inner: calls::Fill::control(),
        }
    }

    /// Data and FINs of streams alone, from stream 0 on.
    #[must_use]
    pub fn data() -> Fill {
        Fill {
            inner: calls::Fill::data(),
        }
    }

    /// The same, beginning with this stream, and going around to those below it (RFC 9000, section 2.3). After [`only`](Fill::only) it
    /// stays that one stream.
    #[must_use]
    pub fn from(self, stream: StreamId) -> Fill {
        if self.inner.alone {
            return self;
        }
        Fill {
            inner: self.inner.from(stream.inner()),
        }
    }

    /// The same, of this stream alone, whatever streams were chosen before: for a stack that goes through its streams itself.
    #[must_use]
    pub fn only(self, stream: StreamId) -> Fill {
        Fill {
            inner: self.inner.only(stream.inner()),
        }
    }

    /// The same, with so many bytes of data at most, so that one packet doesn't take a share that others should have. The chunk that would
    /// pass that is cut, and no other stream has a turn. With 0 no byte goes in; a FIN does if all bytes of its stream were sent and no
    /// stream before it has any.
    #[must_use]
    pub fn at_most(self, bytes: usize) -> Fill {
        Fill {
            inner: self.inner.at_most(bytes),
        }
    }

    pub(crate) fn inner(&self) -> &calls::Fill {
        &self.inner
    }
}

/// What went into a slice.
#[derive(Clone, Copy, Debug, PartialEq, Eq)]
#[non_exhaustive]
#[must_use = "its token is needed once the packet is acknowledged or lost"]
pub struct Filled {
    /// Names it when the packet is acknowledged or lost.
    pub token: Token,
    /// How many bytes of the slice are filled.
    pub len: usize,
    /// The stream of the last STREAM frame, if there is one. For round-robin, go on behind it.
    pub last_stream: Option<StreamId>,
    /// Whether more of what was asked for is pending and may go. What the cap of [`Fill::at_most`] holds back isn't counted: once that is
    /// used up, only control frames are, because another call would put in nothing else.
    pub more: bool,
}

impl Filled {
    pub(crate) fn of(filled: calls::Filled) -> Filled {
        Filled {
            token: Token::of(filled.token),
            len: filled.len,
            last_stream: filled.last_stream.map(StreamId::of),
            more: filled.more,
        }
    }
}
