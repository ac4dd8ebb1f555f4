// Made from crates/qs_conn/src/endpoint/news.rt by rust/erase; not edited by hand.
//! Which streams wait for the application, which have something for a packet, and which are over.

use super::{Endpoint, role_bit};
use crate::proved::qs_conn::marks::Marks;
use crate::proved::qs_conn::recv_marks::RecvTask;
use crate::proved::qs_conn::told_streams::ToldStreams;
use crate::proved::qs_streams::least_stream;
use crate::proved::qs_wire::StreamId;

impl Endpoint {
    /// The lowest stream at or above `from` at which a read of one byte returns something new: bytes, or the end or a reset that wasn't
    /// read yet (RFC 9000, sections 2.2 and 3.2), of a stopped stream too, since it isn't over before that. `None` if there is none, and of
    /// a closed endpoint whose tuning hasn't `reads_when_closed`.
    ///
    /// It takes no memory, and looks at one word of marks for 64 streams of a type, so that a search over many idle streams costs little.
    #[inline]
    pub fn next_readable(&self, from: StreamId) -> Option<StreamId> {
        if self.is_read_no_more() {
            return None;
        }
        self.core.recvs.next_with(RecvTask::Readable, from.value())
    }

    /// The lowest stream at or above `from` with data or a FIN due that its own limit permits, whatever the connection's limit says: that
    /// one holds all streams alike (RFC 9000, sections 4.1 and 13.3). `None` if there is none, and of a closed endpoint.
    ///
    /// It takes no memory, and looks at one word of marks for 64 streams of a type.
    #[inline]
    pub fn next_sendable(&self, from: StreamId) -> Option<StreamId> {
        if self.closed.is_some() {
            return None;
        }
        self.core.outbox.next_sendable(from.value())
    }

    /// The lowest stream at or above `from` at which a write of one byte is accepted, if there is memory for it: it wasn't finished, reset
    /// or stopped by the peer, and its buffer has room (RFC 9000, sections 2.2 and 2.4). `None` if there is none, and of a closed endpoint.
    /// It doesn't ask for credit, which would cost a look at each stream: if writes keep within it, [`room`](Endpoint::room) says whether
    /// such a stream has some.
    ///
    /// It takes no memory, and looks at one word of marks for 64 streams of a type.
    #[inline]
    pub fn next_writable(&self, from: StreamId) -> Option<StreamId> {
        if self.closed.is_some() {
            return None;
        }
        self.core.outbox.next_writable(from.value())
    }

    /// The lowest stream at or above `from` whose every half here is over: its end or reset was read, and all that was sent was
    /// acknowledged, or the reset (RFC 9000, section 3). `None` if there is none.
    ///
    /// It takes no memory, and looks at one word of marks of each half for 64 streams of a type.
    #[inline]
    pub fn next_ended(&self, from: StreamId) -> Option<StreamId> {
        let none = ToldStreams::new(self.alloc);
        self.next_ended_untold(&none, from.value())
    }

    /// Of those that weren't reported, so that an event needs no list.
    #[inline(always)]
    pub(crate) fn next_ended_untold(&self, told: &ToldStreams, from: u64) -> Option<StreamId> {
        debug_assert!(from <= 1 << 62);
        least_stream(
            self.next_ended_of(0, told, from),
            self.next_ended_of(1, told, from),
            self.next_ended_of(2, told, from),
            self.next_ended_of(3, told, from),
        )
    }

    #[inline(always)]
    fn next_ended_of(&self, stream_type: usize, told: &ToldStreams, from: u64) -> Option<u64> {
        debug_assert!(stream_type < 4);
        debug_assert!(from <= 1 << 62);
        let (marks, others) = self.ended_marks(stream_type);
        marks.next_untold(others, told.of_type(stream_type), stream_type, from)
    }

    // Of a stream with one half its marks twice, so that the search is the same for all types.
    #[inline(always)]
    fn ended_marks(&self, stream_type: usize) -> (&Marks, &Marks) {
        debug_assert!(stream_type < 4);
        let receiving = self.core.recvs.marks(RecvTask::Ended, stream_type);
        let sending = self.core.outbox.ended_marks(stream_type);
        if stream_type < 2 {
            (receiving, sending)
        } else if stream_type % 2 == role_bit(self.core.limits.role) {
            (sending, sending)
        } else {
            (receiving, receiving)
        }
    }
}
