// Made from crates/qs_conn/src/outbox/telling.rt by rust/erase; not edited by hand.
use super::halves::{half_of, is_open, marks, may_have, next_sought_of, next_with};
use super::{Outbox, halves};
use crate::proved::qs_conn::marks::Marks;
use crate::proved::qs_conn::send_marks::{Search, Task};
use crate::proved::qs_conn::told_streams::ToldStreams;
use crate::proved::qs_send::{Item, Reset, SendState};
use crate::proved::qs_streams::least_stream;
use crate::proved::qs_wire::StreamId;

impl Outbox {
    #[inline]
    pub(crate) fn is_acked(&self, item: Item) -> bool {
        if let Item::ResetStream { stream, .. } = item {
            return self.is_reset_acked(stream);
        }
        self.told.is_acked(item)
    }

    #[inline]
    pub(crate) fn is_reset_acked(&self, stream: StreamId) -> bool {
        let Some(half) = self.half(stream) else {
            return false;
        };
        matches!(half.state(), SendState::ResetRecvd)
    }

    /// With values that a frame can carry, so that the writer below can't fail.
    #[inline]
    pub(crate) fn reset_of(&self, stream: StreamId) -> Option<Reset> {
        let half = self.half(stream)?;
        reset_by(half.reset_code(), half.final_size())
    }

    /// With a value that a frame can carry.
    #[inline]
    pub(crate) fn blocked_at(&self, stream: StreamId) -> Option<u64> {
        let half = self.half(stream)?;
        if let Some(_code) = half.reset_code() {
            return None;
        }
        let limit = half.limit();
        if half.written() <= limit {
            return None;
        }
        if half.sent_end() != limit {
            return None;
        }
        Some(limit)
    }

    #[inline]
    pub(crate) fn wants_more(&self, stream: StreamId) -> bool {
        let Some(half) = self.half(stream) else {
            return false;
        };
        if let Some(_code) = half.reset_code() {
            return false;
        }
        half.sent_end() < half.written().min(half.limit())
    }

    #[inline]
    pub(crate) fn may_have(&self, task: Task) -> bool {
        may_have(&self.types, task)
    }

    /// The least number from one on of a stream that has a task. The streams between have none of it.
    #[inline]
    pub(crate) fn next_marked(&self, task: Task, from: u64) -> Option<StreamId> {
        debug_assert!(from <= 1 << 62);
        if !may_have(&self.types, task) {
            return None;
        }
        let Some(stream) = next_with(&self.types, task, from) else {
            return None;
        };
        Some(stream)
    }

    /// Whether a stream's half has a task.
    #[inline]
    pub(crate) fn has(&self, task: Task, stream: StreamId) -> bool {
        let _next = self.next;
        if is_open(&self.types, stream) {
            return halves::has(&self.types, stream, task);
        }
        false
    }

    #[inline]
    pub(crate) fn next_writable(&self, from: u64) -> Option<StreamId> {
        debug_assert!(from <= 1 << 62);
        let _next = self.next;
        next_with(&self.types, Task::Writable, from)
    }

    /// Of the kinds that a half's lane tells.
    #[inline(always)]
    pub(crate) fn next_sought(&self, search: Search, told: &ToldStreams) -> Option<StreamId> {
        let types = &self.types;
        least_stream(
            next_sought_of(types, search, told, 0),
            next_sought_of(types, search, told, 1),
            next_sought_of(types, search, told, 2),
            next_sought_of(types, search, told, 3),
        )
    }

    /// The marks of the streams of a type, by index, whose sending half is over.
    #[inline]
    pub(crate) fn ended_marks(&self, stream_type: usize) -> &Marks {
        debug_assert!(stream_type < 4);
        let _next = self.next;
        marks(&self.types, Task::Ended, stream_type)
    }

    /// Whatever the connection's limit says: that one holds all alike.
    #[inline]
    pub(crate) fn next_sendable(&self, from: u64) -> Option<StreamId> {
        debug_assert!(from <= 1 << 62);
        let _next = self.next;
        let Some(stream) = next_with(&self.types, Task::Bytes, from) else {
            return None;
        };
        Some(stream)
    }
}

fn reset_by(code: Option<u64>, size: Option<u64>) -> Option<Reset> {
    match (code, size) {
        (Some(code), Some(size)) => Some(Reset { code, size }),
        (Some(_), None) => None,
        (None, _) => None,
    }
}
