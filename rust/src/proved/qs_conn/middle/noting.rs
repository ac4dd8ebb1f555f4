// Made from crates/qs_conn/src/middle/noting.rt by rust/erase; not edited by hand.
//! What falls due as values rise, and what is due no more as it goes out.

use super::Core;
use crate::proved::qs_conn::due::mark;
use crate::proved::qs_send::{Item, Piece, Reset};
use crate::proved::qs_streams::Task;
use crate::proved::qs_wire::StreamId;

impl Core {
    #[inline]
    pub(super) fn note_put(&mut self, item: &Item, is_full: bool) {
        if !is_full {
            mark(&mut self.due, item, false);
            self.own.insert(item);
        }
    }

    /// A lost piece that has the present value of its half is due again; of an older one nothing is.
    #[inline]
    pub(super) fn note_lost(&mut self, piece: &Piece) {
        if let Piece::Told(item) = piece {
            if self.is_present(item) {
                mark(&mut self.due, item, true);
            }
            self.own.remove(item);
        }
    }

    /// So many bytes were written: if they brought the stream to its limit it is blocked there (RFC 9000, section 4.1).
    #[inline]
    pub(crate) fn note_written(&mut self, stream: StreamId, count: usize) {
        let Some(limit) = self.outbox.blocked_at(stream) else {
            return;
        };
        let Some(half) = self.outbox.half(stream) else {
            return;
        };
        if half.written() - limit <= count as u64 {
            self.due.set(Task::BlockDue, stream, true);
        }
    }

    /// A stop falls due if there was none to send.
    #[inline]
    pub(crate) fn note_stop(&mut self, stream: StreamId, was: Option<u64>) {
        if was.is_none() {
            self.due.set(Task::StopDue, stream, true);
        }
    }

    /// A reset falls due if there was none.
    #[inline]
    pub(crate) fn note_reset(&mut self, stream: StreamId, was: Option<Reset>) {
        if was.is_none() {
            self.due.set(Task::ResetDue, stream, true);
        }
    }

    /// With another limit a stream is blocked at the old one no more (RFC 9000, section 4.1).
    #[inline]
    pub(crate) fn allow(&mut self, stream: StreamId, limit: u64) {
        debug_assert!(limit <= 0x3fff_ffff_ffff_ffff);
        self.outbox.allow(stream, limit);
    }

    /// A raised limit isn't in any packet yet.
    #[inline]
    pub(crate) fn set_window(&mut self, stream: StreamId, window: u64) {
        debug_assert!(1 <= window);
        debug_assert!(window <= 1 << 30);
        let was = self.recvs.limit_of(stream);
        self.recvs.set_window(stream, window);
        self.note_limit(stream, was);
    }

    fn note_limit(&mut self, stream: StreamId, was: Option<u64>) {
        let is = self.recvs.limit_of(stream);
        if !is_same(was, is) {
            self.due.set(Task::LimitDue, stream, true);
        }
    }

    // A stop and a reset keep their value, so theirs always is.
    fn is_present(&self, item: &Item) -> bool {
        match *item {
            Item::MaxStreamData { stream, maximum } => {
                matches!(self.recvs.limit_of(stream), Some(present) if present == maximum)
            }
            Item::StreamDataBlocked { stream, limit } => {
                matches!(self.outbox.half(stream), Some(half) if half.limit() == limit)
            }
            _ => true,
        }
    }
}

fn is_same(a: Option<u64>, b: Option<u64>) -> bool {
    match (a, b) {
        (Some(x), Some(y)) => x == y,
        _ => false,
    }
}
