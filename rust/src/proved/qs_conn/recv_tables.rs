// Made from crates/qs_conn/src/recv_tables.rt by rust/erase; not edited by hand.
use crate::proved::qs_conn::held::sum_held;
use crate::proved::qs_conn::marks::Marks;
use crate::proved::qs_conn::recv_lanes::{Half, RecvLanes};
use crate::proved::qs_conn::recv_marks::RecvTask;
use crate::proved::qs_conn::told_streams::ToldStreams;
use crate::proved::qs_calls::RecvReport;
use crate::proved::qs_machine::Tally;
use crate::proved::qs_ranges::NoMemory;
use crate::proved::qs_recv::{Read, RecvState, Share};
use crate::proved::qs_streams::{Boards, Place, index_of, least_stream, type_of};
use crate::proved::qs_wire::StreamId;
use crate::shim::alloc::Global;

/// Apart from the sending halves: a frame with data changes these alone, and a packet in the making reads them.
pub(crate) struct RecvTables {
    // In the order of the two lowest bits of a stream's number.
    types: [RecvLanes; 4],
}

impl RecvTables {
    #[inline]
    pub(crate) fn new(alloc: Global) -> Self {
        RecvTables {
            types: [
                RecvLanes::new(alloc),
                RecvLanes::new(alloc),
                RecvLanes::new(alloc),
                RecvLanes::new(alloc),
            ],
        }
    }

    #[inline]
    pub(crate) fn is_open(&self, stream: StreamId) -> bool {
        self.half(Place::of(stream)).is_some()
    }

    #[inline]
    pub(crate) fn half(&self, stream: Place) -> Option<&Half> {
        let lanes = &self.types[stream.stream_type];
        lanes.half(stream.index)
    }

    #[inline]
    pub(crate) fn count_of(&self, stream_type: usize) -> usize {
        debug_assert!(stream_type < 4);
        let lanes = &self.types[stream_type];
        lanes.len()
    }

    #[inline]
    pub(crate) fn close_to(&mut self, stream: StreamId, count: usize) {
        let lanes = &mut self.types[type_of(stream)];
        lanes.close_to(count);
    }

    #[inline]
    pub(crate) fn open_to(
        &mut self,
        window: u64,
        share: Share,
        stream: StreamId,
    ) -> Result<(), NoMemory> {
        debug_assert!(1 <= window);
        debug_assert!(window <= 1 << 30);
        let lanes = &mut self.types[type_of(stream)];
        lanes.open_to(window, share, index_of(stream) + 1)
    }

    /// Changes the receiving half of an open stream: the one way in. Memory that the change fills is handed through.
    #[inline]
    fn edit<R, F: FnOnce(&mut Half, &mut [u8]) -> R>(
        &mut self,
        stream: Place,
        into: &mut [u8],
        f: F,
    ) -> R {
        let lanes = &mut self.types[stream.stream_type];
        lanes.edit(stream.index, into, f)
    }

    #[inline]
    pub(crate) fn take_stream(
        &mut self,
        stream: Place,
        offset: u64,
        bytes: &[u8],
        fin: bool,
    ) -> Result<(), NoMemory> {
        match self.edit(stream, &mut [], |half, _into| {
            half.take_stream(offset, bytes, fin)
        }) {
            Ok(()) => Ok(()),
            Err(_refused) => Err(NoMemory),
        }
    }

    #[inline]
    pub(crate) fn take_reset(&mut self, stream: StreamId, code: u64, size: u64) {
        debug_assert!(size <= 0x3fff_ffff_ffff_ffff);
        self.edit(Place::of(stream), &mut [], |half, _into| {
            half.take_reset(code, size)
        })
    }

    #[inline]
    pub(crate) fn may_tell(&self, stream: StreamId) -> bool {
        let stream_type = type_of(stream);
        let index = index_of(stream);
        let readable = self.marks(RecvTask::Readable, stream_type);
        let ended = self.marks(RecvTask::Ended, stream_type);
        readable.has(index) || ended.has(index)
    }

    #[inline]
    pub(crate) fn read(&mut self, stream: StreamId, into: &mut [u8]) -> Read {
        self.edit(Place::of(stream), into, |half, into| half.read(into))
    }

    #[inline]
    pub(crate) fn skip(&mut self, stream: StreamId, most: usize) -> Read {
        self.edit(Place::of(stream), &mut [], |half, _into| half.skip(most))
    }

    #[inline]
    pub(crate) fn stop(&mut self, stream: StreamId, code: u64) {
        debug_assert!(code <= 0x3fff_ffff_ffff_ffff);
        self.edit(Place::of(stream), &mut [], |half, _into| half.stop(code))
    }

    #[inline]
    pub(crate) fn stop_and_discard(&mut self, stream: StreamId, code: u64) {
        debug_assert!(code <= 0x3fff_ffff_ffff_ffff);
        self.edit(Place::of(stream), &mut [], |half, _into| {
            half.stop_and_discard(code)
        })
    }

    #[inline]
    pub(crate) fn set_window(&mut self, stream: StreamId, window: u64) {
        debug_assert!(1 <= window);
        debug_assert!(window <= 1 << 30);
        self.edit(Place::of(stream), &mut [], |half, _into| {
            half.set_window(window)
        })
    }

    #[inline]
    pub(crate) fn has_ended(&self, stream: StreamId) -> bool {
        match self.half(Place::of(stream)) {
            Some(half) => half.has_ended(),
            None => false,
        }
    }

    #[inline]
    pub(crate) fn report(&self, stream: StreamId) -> Option<RecvReport> {
        let half = self.half(Place::of(stream))?;
        Some(RecvReport {
            state: half.state(),
            read_count: half.read_count(),
            highest: half.sizes().spent,
            limit: half.limit(),
            final_size: half.final_size(),
            reset_code: half.reset_code(),
            stop_code: half.stop_code(),
        })
    }

    #[inline]
    pub(crate) fn limit_of(&self, stream: StreamId) -> Option<u64> {
        let half = self.half(Place::of(stream))?;
        Some(half.limit())
    }

    /// Once a final size is known nobody needs a limit.
    #[inline]
    pub(crate) fn limit_to_tell(&self, stream: StreamId) -> Option<u64> {
        let half = self.half(Place::of(stream))?;
        match half.final_size() {
            Some(_known) => None,
            None => Some(half.limit()),
        }
    }

    /// Only while bytes may still come (RFC 9000, section 3.5).
    #[inline]
    pub(crate) fn stop_to_tell(&self, stream: StreamId) -> Option<u64> {
        let half = self.half(Place::of(stream))?;
        match half.state() {
            RecvState::Recv | RecvState::SizeKnown => half.stop_code(),
            _ => None,
        }
    }

    #[inline]
    pub(crate) fn next_with(&self, task: RecvTask, from: u64) -> Option<StreamId> {
        debug_assert!(from <= 1 << 62);
        least_stream(
            self.marks(task, 0).next_stream(0, from),
            self.marks(task, 1).next_stream(1, from),
            self.marks(task, 2).next_stream(2, from),
            self.marks(task, 3).next_stream(3, from),
        )
    }

    #[inline(always)]
    pub(crate) fn next_untold(&self, task: RecvTask, told: &ToldStreams) -> Option<StreamId> {
        least_stream(
            self.next_untold_of(task, 0, told),
            self.next_untold_of(task, 1, told),
            self.next_untold_of(task, 2, told),
            self.next_untold_of(task, 3, told),
        )
    }

    #[inline(always)]
    fn next_untold_of(&self, task: RecvTask, stream_type: usize, told: &ToldStreams) -> Option<u64> {
        debug_assert!(stream_type < 4);
        let marks = self.marks(task, stream_type);
        marks.next_untold(marks, told.of_type(stream_type), stream_type, 0)
    }

    /// The marks of the streams of a type, by index, whose receiving half has such an answer for its owner.
    #[inline(always)]
    pub(crate) fn marks(&self, task: RecvTask, stream_type: usize) -> &Marks {
        debug_assert!(stream_type < 4);
        let lanes = &self.types[stream_type];
        lanes.marks(task)
    }

    #[inline]
    pub(crate) fn tally(&self) -> Tally {
        sum(
            self.types[0].tally(),
            self.types[1].tally(),
            self.types[2].tally(),
            self.types[3].tally(),
        )
    }

    #[inline]
    pub(crate) fn held(&self) -> u64 {
        sum_held(&self.types)
    }

    #[inline]
    pub(crate) fn raise_all(&mut self, limits: &mut Boards) {
        self.types[0].raise_all(0, limits);
        self.types[1].raise_all(1, limits);
        self.types[2].raise_all(2, limits);
        self.types[3].raise_all(3, limits);
    }
}

// The sum of four, modulo 2^64.
fn sum(a: Tally, b: Tally, c: Tally, d: Tally) -> Tally {
    Tally {
        spent: wrapping_sum(a.spent, b.spent, c.spent, d.spent),
        taken: wrapping_sum(a.taken, b.taken, c.taken, d.taken),
        stored: wrapping_sum(a.stored, b.stored, c.stored, d.stored),
        noted: wrapping_sum(a.noted, b.noted, c.noted, d.noted),
    }
}

#[inline(always)]
fn wrapping_sum(a: u64, b: u64, c: u64, d: u64) -> u64 {
    a.wrapping_add(b).wrapping_add(c).wrapping_add(d)
}
