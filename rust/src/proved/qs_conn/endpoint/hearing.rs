// Made from crates/qs_conn/src/endpoint/hearing.rt by rust/erase; not edited by hand.
//! What of an endpoint is an event for its application. It is searched as things are, so no queue can fill up.

use super::Endpoint;
use crate::proved::qs_conn::by_dir::ByDir;
use crate::proved::qs_conn::recv_marks::RecvTask;
use crate::proved::qs_conn::send_marks::{Search, Task};
use crate::proved::qs_conn::told_streams::ToldStreams;
use crate::proved::qs_calls::MAX_VARINT;
use crate::proved::qs_streams::{index_of, lesser, type_of};
use crate::proved::qs_wire::{Dir, StreamId};

impl Endpoint {
    /// A count for each direction is enough: streams of the peer open in order.
    #[inline]
    pub(crate) fn next_opened(&self, heard: ByDir<u64>) -> Option<StreamId> {
        let bidi = self.next_opened_of(Dir::Bidi, heard.bidi);
        lesser(bidi, self.next_opened_of(Dir::Uni, heard.uni))
    }

    fn next_opened_of(&self, dir: Dir, heard: u64) -> Option<u64> {
        let stream_type = self.peer_type(dir);
        if heard >= self.opened_count(stream_type) as u64 {
            return None;
        }
        Some(heard * 4 + stream_type as u64)
    }

    #[inline]
    pub(crate) fn next_readable_untold(&self, told: &ToldStreams) -> Option<StreamId> {
        if self.is_read_no_more() {
            return None;
        }
        self.core.recvs.next_untold(RecvTask::Readable, told)
    }

    /// Of those of which a write was cut short: others nobody waits for.
    #[inline(always)]
    pub(crate) fn next_writable_of(&self, short: &ToldStreams) -> Option<StreamId> {
        // Mostly no write was cut short.
        if !short.may_have() {
            return None;
        }
        if self.takes_nothing() {
            return None;
        }
        if self.core.limits.tuning.within_credit {
            let search = Search {
                task: Task::Funded,
                is_told: true,
            };
            return self.core.outbox.next_sought(search, short);
        }
        let search = Search {
            task: Task::Writable,
            is_told: true,
        };
        self.core.outbox.next_sought(search, short)
    }

    // What holds all streams back is asked once, and not of each stream.
    fn takes_nothing(&self) -> bool {
        if self.closed.is_some() {
            return true;
        }
        if self.is_credit_used_up() {
            return true;
        }
        match self.window_left() {
            Some(left) => left == 0,
            None => false,
        }
    }

    fn is_credit_used_up(&self) -> bool {
        self.core.limits.tuning.within_credit && self.credit_left() <= self.unsent_sum()
    }

    #[inline]
    pub(crate) fn next_stopped_untold(&self, told: &ToldStreams) -> Option<StreamId> {
        let search = Search {
            task: Task::Stopped,
            is_told: false,
        };
        self.core.outbox.next_sought(search, told)
    }

    #[inline]
    pub(crate) fn next_sent_untold(&self, told: &ToldStreams) -> Option<StreamId> {
        let search = Search {
            task: Task::Ended,
            is_told: false,
        };
        self.core.outbox.next_sought(search, told)
    }

    /// Of the directions in which an open was blocked: others nobody waits for.
    #[inline]
    pub(crate) fn next_available(&self, wanted: ByDir<bool>) -> Option<Dir> {
        if self.closed.is_some() {
            return None;
        }
        if wanted.bidi && self.open_left(Dir::Bidi) > 0 {
            return Some(Dir::Bidi);
        }
        if wanted.uni && self.open_left(Dir::Uni) > 0 {
            return Some(Dir::Uni);
        }
        None
    }

    #[inline]
    pub(crate) fn is_closed(&self) -> bool {
        self.closed.is_some()
    }

    /// A limit that rose since doesn't hold the peer back, and one of a stream whose length is known never will.
    #[inline]
    pub(crate) fn is_met(&self, stream: StreamId, named: u64) -> bool {
        match self.core.recvs.limit_to_tell(stream) {
            Some(limit) => limit <= named,
            None => false,
        }
    }

    #[inline]
    pub(crate) fn is_readable(&self, stream: StreamId) -> bool {
        if self.is_read_no_more() {
            return false;
        }
        let readable = self.core.recvs.marks(RecvTask::Readable, type_of(stream));
        readable.has(index_of(stream))
    }

    #[inline]
    pub(crate) fn was_reset_acked(&self, stream: StreamId) -> bool {
        self.core.outbox.is_reset_acked(stream)
    }

    /// Asked before a write, since afterwards nobody knows what was offered.
    #[inline]
    pub(crate) fn is_cut_short(&self, stream: StreamId, len: usize) -> bool {
        // No buffer has room for as many bytes as there are offsets, so of such a write the half isn't looked at.
        self.core.outbox.is_open(stream)
            && (len as u64 > MAX_VARINT || self.room(stream) < len as u64)
    }
}
