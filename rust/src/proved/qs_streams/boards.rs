// Made from crates/qs_streams/src/boards.rt by rust/erase; not edited by hand.
//! What the streams of an endpoint have to do, by their numbers.

use crate::proved::qs_streams::board::{Board, Task, row_of};
use crate::proved::qs_streams::places::{index_from, index_of, least_stream, type_of};
use crate::proved::qs_ranges::NoMemory;
use crate::proved::qs_wire::StreamId;
use crate::shim::alloc::Global;

/// A board for each type of stream.
pub struct Boards {
    // In the order of the two lowest bits of a stream's number.
    types: [Board; 4],
}

impl Boards {
    #[inline]
    pub fn new(alloc: Global) -> Self {
        Boards {
            types: [
                Board::new(alloc),
                Board::new(alloc),
                Board::new(alloc),
                Board::new(alloc),
            ],
        }
    }

    /// A bit for each task that some stream has.
    #[inline(always)]
    pub fn some(&self) -> u64 {
        self.types[0].some() | self.types[1].some() | self.types[2].some() | self.types[3].some()
    }

    /// Whether some stream may have a task.
    #[inline(always)]
    pub fn may_have(&self, task: Task) -> bool {
        (self.some() >> row_of(task)) & 1 == 1
    }

    #[inline(always)]
    pub fn has(&self, task: Task, stream: StreamId) -> bool {
        let board = &self.types[type_of(stream)];
        board.has(task, index_of(stream))
    }

    /// Room for a stream's flags, and for those of all lower ones of its type. A refusal may leave some room: that is no value.
    #[inline(always)]
    pub fn make_room(&mut self, stream: StreamId) -> Result<(), NoMemory> {
        let board = &mut self.types[type_of(stream)];
        board.make_room(index_of(stream))
    }

    /// Sets a flag or clears it, where there is a place for it.
    #[inline(always)]
    pub fn set(&mut self, task: Task, stream: StreamId, is_set: bool) {
        let board = &mut self.types[type_of(stream)];
        board.set(task, index_of(stream), is_set);
    }

    /// The least number from one on of a stream that has a task.
    #[inline]
    pub fn next(&self, task: Task, from: u64) -> Option<StreamId> {
        debug_assert!(from <= 1 << 62);
        if !self.may_have(task) {
            return None;
        }
        self.least(task, from)
    }

    // Apart, so that a caller pays for one look where no stream has it.
    #[inline(never)]
    fn least(&self, task: Task, from: u64) -> Option<StreamId> {
        debug_assert!(from <= 1 << 62);
        least_stream(
            next_of(&self.types[0], task, 0, from),
            next_of(&self.types[1], task, 1, from),
            next_of(&self.types[2], task, 2, from),
            next_of(&self.types[3], task, 3, from),
        )
    }
}

// The same of a type.
#[inline(always)]
fn next_of(board: &Board, task: Task, stream_type: usize, from: u64) -> Option<u64> {
    debug_assert!(stream_type < 4);
    debug_assert!(from <= 1 << 62);
    let index = board.next(task, index_from(stream_type, from))?;
    Some((index * 4 + stream_type) as u64)
}
