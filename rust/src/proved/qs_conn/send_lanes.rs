// Made from crates/qs_conn/src/send_lanes.rt by rust/erase; not edited by hand.
use crate::proved::qs_conn::held::Holds;
use crate::proved::qs_conn::marks::Marks;
use crate::proved::qs_conn::send_marks::{Moves, SendMarks, Task};
use crate::proved::qs_ranges::NoMemory;
use crate::proved::qs_send::{SendHalf, SendHalves, SendView};
use crate::proved::qs_wire::StreamId;
use crate::shim::alloc::Global;

/// What is set of a half, whether it is over or not.
#[derive(Clone, Copy)]
pub(crate) enum Setting {
    Limit(u64),
    Buffer(u32),
    /// A packet tells that the stream's limit holds bytes back.
    Blocked,
}

// What a half counts for in the two sums.
#[derive(Clone, Copy)]
struct Sizes {
    promised: u128,
    kept: u128,
}

pub(crate) struct SendLanes {
    alloc: Global,
    halves: SendHalves,
    // Sums are kept, since a walk over all halves at each call would cost with their count; of 2^60 halves none is a u64.
    promised: u128,
    kept: u128,
    // The marks tell which halves have a task.
    marks: SendMarks,
}

impl SendLanes {
    #[inline]
    pub(crate) fn new(alloc: Global, stream_type: u64) -> Self {
        debug_assert!(stream_type < 4);
        SendLanes {
            alloc,
            halves: SendHalves::new(alloc, stream_type),
            promised: 0,
            kept: 0,
            marks: SendMarks::new(alloc),
        }
    }

    #[inline(always)]
    pub(crate) fn len(&self) -> usize {
        self.halves.len()
    }

    #[inline]
    pub(crate) fn promised(&self) -> u128 {
        self.promised
    }

    #[inline]
    pub(crate) fn kept(&self) -> u128 {
        self.kept
    }

    #[inline(always)]
    pub(crate) fn get(&self, index: usize) -> SendView<'_> {
        self.halves.at(index)
    }

    #[inline]
    pub(crate) fn open_to(
        &mut self,
        stream_type: u64,
        limit: u64,
        buffer: u32,
        count: usize,
    ) -> Result<(), NoMemory> {
        debug_assert!(stream_type < 4);
        debug_assert!(limit <= 0x3fff_ffff_ffff_ffff);
        debug_assert!(count <= 1 << 60);
        let before = self.len();
        for _index in before..count {
            if let Err(refused) = self.open_next(stream_type, limit, buffer) {
                self.close_to(before);
                return Err(refused);
            }
        }
        Ok(())
    }

    // Marks come first: room for more of them than there are halves changes nothing.
    #[inline(always)]
    fn open_next(&mut self, stream_type: u64, limit: u64, buffer: u32) -> Result<(), NoMemory> {
        debug_assert!(stream_type < 4);
        debug_assert!(limit <= 0x3fff_ffff_ffff_ffff);
        let index = self.halves.len();
        self.marks.make_room(index)?;
        let id = StreamId::new(index as u64 * 4 + stream_type).unwrap();
        self.halves
            .push(SendHalf::new(self.alloc, id, limit, buffer))?;
        self.marks.begin(index, limit, buffer);
        Ok(())
    }

    #[inline]
    pub(crate) fn close_to(&mut self, count: usize) {
        self.halves.truncate(count);
        self.marks.clear_from(count);
    }

    /// Changes a half: the one way in. The sums and the marks follow. One that is over stays as it is, and what is given is the answer.
    #[inline(always)]
    pub(crate) fn edit<R, F: FnOnce(&mut SendHalf) -> R>(
        &mut self,
        index: usize,
        over: R,
        moves: Moves,
        change: F,
    ) -> R {
        let Some(half) = self.halves.full_mut(index) else {
            return over;
        };
        let was = measure(half, moves);
        let answer = change(half);
        let is = measure(half, moves);
        self.promised = self.promised - was.promised + is.promised;
        self.kept = self.kept - was.kept + is.kept;
        self.marks.look(index, half, moves);
        answer
    }

    /// Sets a value of a half, also of one that is over.
    #[inline]
    pub(crate) fn set(&mut self, index: usize, setting: Setting) {
        set_in(&mut self.halves, index, setting);
        look_at(&self.halves, &mut self.marks, index);
    }

    /// One that is over takes few bytes from here on. No clause sees it.
    #[inline]
    pub(crate) fn settle(&mut self, index: usize) {
        self.halves.settle(index);
    }

    /// The marks of the halves that have a task.
    #[inline(always)]
    pub(crate) fn marks(&self, task: Task) -> &Marks {
        self.marks.of(task)
    }
}

impl Holds for SendLanes {
    fn held(&self) -> u64 {
        let mut held: u64 = 0;
        for index in 0..self.halves.len() {
            let half = self.halves.at(index);
            held = held.saturating_add(half.held().bytes);
        }
        held
    }
}

// What a half counts for in the sums. Where a change moves neither, nothing is looked at.
#[inline(always)]
fn measure(half: &SendHalf, moves: Moves) -> Sizes {
    if matches!(moves, Moves::Sent | Moves::End) {
        return Sizes {
            promised: 0,
            kept: 0,
        };
    }
    Sizes {
        promised: promised(half),
        kept: kept(half),
    }
}

fn promised(half: &SendHalf) -> u128 {
    if let Some(_code) = half.reset_code() {
        return half.sent_end() as u128;
    }
    half.written() as u128
}

fn kept(half: &SendHalf) -> u128 {
    half.kept_len() as u128
}

// Looks again at a half that was put, where it isn't over.
fn look_at(halves: &SendHalves, marks: &mut SendMarks, index: usize) {
    if let Some(half) = halves.full(index) {
        marks.look(index, half, Moves::All);
    }
}

fn set_in(halves: &mut SendHalves, index: usize, setting: Setting) {
    match setting {
        Setting::Limit(limit) => halves.allow(index, limit),
        Setting::Buffer(size) => halves.set_buffer(index, size),
        Setting::Blocked => halves.note_blocked(index),
    }
}
