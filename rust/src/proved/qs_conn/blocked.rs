// Made from crates/qs_conn/src/blocked.rt by rust/erase; not edited by hand.
//! What the peer said blocks it, until the application is notified. It is no state of an endpoint, so it is kept beside.

use crate::proved::qs_conn::by_dir::ByDir;
use crate::proved::qs_conn::told_streams::ToldStreams;
use crate::proved::qs_ranges::NoMemory;
use crate::proved::qs_streams::least_stream;
use crate::proved::qs_wire::{Dir, StreamId};
use crate::shim::alloc::Global;

/// A flag for the connection and for each direction, and a mark for each stream: a second frame changes nothing, so a peer can't fill a
/// queue.
pub(crate) struct BlockedMarks {
    conn: bool,
    streams: ToldStreams,
    dirs: ByDir<bool>,
}

impl BlockedMarks {
    #[inline]
    pub(crate) fn new(alloc: Global) -> Self {
        BlockedMarks {
            conn: false,
            streams: ToldStreams::new(alloc),
            dirs: ByDir::new(false, false),
        }
    }

    /// Whether the peer reported DATA_BLOCKED and the application wasn't notified yet.
    #[inline]
    pub(crate) fn has_conn(&self) -> bool {
        self.conn
    }

    /// Sets or clears that.
    #[inline]
    pub(crate) fn set_conn(&mut self, is_said: bool) {
        self.conn = is_said;
    }

    /// The same for STREAMS_BLOCKED of a direction.
    #[inline]
    pub(crate) fn set_dir(&mut self, dir: Dir, is_said: bool) {
        self.dirs.set(dir, is_said);
    }

    /// The same for a stream. Marks take memory only for the highest stream of its type so far.
    #[inline]
    pub(crate) fn tell(&mut self, stream: StreamId) -> Result<(), NoMemory> {
        self.streams.tell(stream)
    }

    #[inline]
    pub(crate) fn forget(&mut self, stream: StreamId) {
        self.streams.forget(stream);
    }

    #[inline]
    pub(crate) fn next_dir(&self) -> Option<Dir> {
        if self.dirs.bidi {
            return Some(Dir::Bidi);
        }
        if self.dirs.uni {
            return Some(Dir::Uni);
        }
        None
    }

    #[inline]
    pub(crate) fn next_stream(&self) -> Option<StreamId> {
        if !self.streams.may_have() {
            return None;
        }
        least_stream(
            self.streams.of_type(0).marks().next_stream(0, 0),
            self.streams.of_type(1).marks().next_stream(1, 0),
            self.streams.of_type(2).marks().next_stream(2, 0),
            self.streams.of_type(3).marks().next_stream(3, 0),
        )
    }
}
