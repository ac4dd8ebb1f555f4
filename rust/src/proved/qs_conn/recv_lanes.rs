// Made from crates/qs_conn/src/recv_lanes.rt by rust/erase; not edited by hand.
use crate::shim::Vec;

use crate::proved::qs_conn::held::{Holds, sum_held};
use crate::proved::qs_conn::marks::Marks;
use crate::proved::qs_conn::recv_marks::{RecvMarks, RecvTask};
use crate::proved::qs_machine::Tally;
use crate::proved::qs_ranges::NoMemory;
use crate::proved::qs_recv::{RecvHalf, RingAssembly, Share};
use crate::proved::qs_streams::{Boards, Task};
use crate::proved::qs_wire::StreamId;
use crate::shim::alloc::Global;

pub(crate) type Half = RecvHalf<RingAssembly>;

/// A vector of records of 24 bytes: a half is found by one look, and one more at its box. A table of slots, as sending halves have it,
/// would cost a half that stores bytes a third look at each call.
pub(crate) struct RecvLanes {
    alloc: Global,
    halves: Vec<Half>,
    // Modulo 2^64: whoever asks for the sums knows that they fit.
    tally: Tally,
    // No limit rises as a call ends but of those that are marked.
    rising: Marks,
    news: RecvMarks,
}

impl RecvLanes {
    #[inline]
    pub(crate) fn new(alloc: Global) -> Self {
        RecvLanes {
            alloc,
            halves: Vec::new(alloc),
            tally: Tally {
                spent: 0,
                taken: 0,
                stored: 0,
                noted: 0,
            },
            rising: Marks::new(alloc),
            news: RecvMarks::new(alloc),
        }
    }

    #[inline]
    pub(crate) fn len(&self) -> usize {
        self.halves.len()
    }

    #[inline(always)]
    pub(crate) fn half(&self, index: usize) -> Option<&Half> {
        self.halves.get(index)
    }

    /// The sums over all lanes, modulo 2^64.
    #[inline(always)]
    pub(crate) fn tally(&self) -> Tally {
        self.tally
    }

    #[inline]
    pub(crate) fn open_to(
        &mut self,
        window: u64,
        share: Share,
        count: usize,
    ) -> Result<(), NoMemory> {
        debug_assert!(1 <= window);
        debug_assert!(window <= 1 << 30);
        debug_assert!(count <= 1 << 60);
        let before = self.len();
        for _index in before..count {
            if let Err(refused) = self.open_next(window, share) {
                self.close_to(before);
                return Err(refused);
            }
        }
        Ok(())
    }

    // Marks come first: room for more of them than there are halves changes nothing. A half begins with none.
    fn open_next(&mut self, window: u64, share: Share) -> Result<(), NoMemory> {
        debug_assert!(1 <= window);
        debug_assert!(window <= 1 << 30);
        let index = self.halves.len();
        self.rising.make_room(index)?;
        self.news.make_room(index)?;
        let fresh: Half = RecvHalf::new(self.alloc, window, share)?;
        self.halves.push(fresh)?;
        Ok(())
    }

    #[inline]
    pub(crate) fn close_to(&mut self, count: usize) {
        self.halves.truncate(count);
        self.news.clear_from(count);
    }

    /// Changes an open lane: the one way in. The sums and the marks follow. Memory that the change fills is handed through.
    #[inline]
    pub(crate) fn edit<R, F: FnOnce(&mut Half, &mut [u8]) -> R>(
        &mut self,
        index: usize,
        into: &mut [u8],
        f: F,
    ) -> R {
        let half = &mut self.halves[index];
        let was = measure(half);
        let answer = f(half, into);
        let is = measure(half);
        self.news.look(index, half);
        self.tally = moved(self.tally, was, is);
        mark_rise(&mut self.rising, index, half, was.taken, is.taken);
        answer
    }

    /// A stream whose limit rises is marked: the new one is in no packet yet.
    #[inline]
    pub(crate) fn raise_all(&mut self, stream_type: usize, limits: &mut Boards) {
        debug_assert!(stream_type < 4);
        if !self.rising.may_have() {
            return;
        }
        raise_marked(&mut self.halves, &mut self.rising, stream_type, limits);
    }

    /// The marks of the lanes that have such an answer for their owner.
    #[inline(always)]
    pub(crate) fn marks(&self, task: RecvTask) -> &Marks {
        self.news.marks(task)
    }
}

impl Holds for Half {
    fn held(&self) -> u64 {
        RecvHalf::held(self).bytes
    }
}

impl Holds for RecvLanes {
    fn held(&self) -> u64 {
        sum_held(&self.halves)
    }
}

#[inline(always)]
fn measure(half: &Half) -> Tally {
    let sizes = half.sizes();
    Tally {
        spent: sizes.spent,
        taken: sizes.taken,
        stored: sizes.stored,
        noted: sizes.noted,
    }
}

// Mostly no more is taken of the lane, and its limit stays.
#[inline(always)]
fn mark_rise(rising: &mut Marks, index: usize, half: &Half, was: u64, is: u64) {
    if was != is {
        rising.set(index, half.rises());
    }
}

// The sums once a lane's part became another, modulo 2^64.
fn moved(total: Tally, was: Tally, is: Tally) -> Tally {
    Tally {
        spent: total.spent.wrapping_sub(was.spent).wrapping_add(is.spent),
        taken: total.taken.wrapping_sub(was.taken).wrapping_add(is.taken),
        stored: total
            .stored
            .wrapping_sub(was.stored)
            .wrapping_add(is.stored),
        noted: total.noted.wrapping_sub(was.noted).wrapping_add(is.noted),
    }
}

// Apart, so that a call after which no limit rises pays for one look.
#[inline(never)]
fn raise_marked(halves: &mut Vec<Half>, rising: &mut Marks, stream_type: usize, limits: &mut Boards) {
    debug_assert!(stream_type < 4);
    while let Some(index) = rising.next(0) {
        rising.set(index, false);
        if index < halves.len() {
            raise_at(halves, index, stream_type, limits);
        }
    }
}

fn raise_at(halves: &mut Vec<Half>, index: usize, stream_type: usize, limits: &mut Boards) {
    debug_assert!(stream_type < 4);
    let half = &mut halves[index];
    if let Some(_limit) = half.raise() {
        let stream = StreamId::new((index * 4 + stream_type) as u64).unwrap();
        limits.set(Task::LimitDue, stream, true);
    }
}
