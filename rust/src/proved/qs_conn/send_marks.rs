// Made from crates/qs_conn/src/send_marks.rt by rust/erase; not edited by hand.
use crate::proved::qs_conn::marks::Marks;
use crate::proved::qs_ranges::NoMemory;
use crate::proved::qs_send::{SendHalf, SendState};
use crate::shim::alloc::Global;

#[derive(Clone, Copy)]
pub(crate) enum Task {
    /// Whatever the connection's limit says: that one holds all alike.
    Bytes,
    /// They take no credit of the connection, so they go when it is used up.
    Again,
    Writable,
    /// Below the stream's limit: for an application whose writes keep within credit. The connection's limit isn't asked, since marks that
    /// knew it would move for every stream as it moves.
    Funded,
    Ended,
    Stopped,
}

/// What a change may move of a half.
#[derive(Clone, Copy)]
pub(crate) enum Moves {
    /// Which bytes go, and nothing else.
    Sent,
    /// Whether its end goes, and its room. No byte falls due, and no sum moves.
    End,
    /// Its room and the sums, too, and where its end is acknowledged whether it is over. Nothing falls due that was sent before.
    Room,
    /// All of it.
    All,
}

#[derive(Clone, Copy)]
pub(crate) struct Search {
    pub(crate) task: Task,
    pub(crate) is_told: bool,
}

/// The halves of one type that have a task, for each task.
pub(crate) struct SendMarks {
    bytes: Marks,
    again: Marks,
    writable: Marks,
    funded: Marks,
    ended: Marks,
    stopped: Marks,
}

impl SendMarks {
    #[inline]
    pub(crate) fn new(alloc: Global) -> Self {
        SendMarks {
            bytes: Marks::new(alloc),
            again: Marks::new(alloc),
            writable: Marks::new(alloc),
            funded: Marks::new(alloc),
            ended: Marks::new(alloc),
            stopped: Marks::new(alloc),
        }
    }

    #[inline(always)]
    pub(crate) fn make_room(&mut self, index: usize) -> Result<(), NoMemory> {
        debug_assert!(index < 1 << 60);
        self.bytes.make_room(index)?;
        self.again.make_room(index)?;
        self.writable.make_room(index)?;
        self.funded.make_room(index)?;
        self.ended.make_room(index)?;
        self.stopped.make_room(index)
    }

    #[inline]
    pub(crate) fn clear_from(&mut self, count: usize) {
        self.bytes.clear_from(count);
        self.again.clear_from(count);
        self.writable.clear_from(count);
        self.funded.clear_from(count);
        self.ended.clear_from(count);
        self.stopped.clear_from(count);
    }

    /// Marks a half that begins with a limit and a buffer.
    #[inline(always)]
    pub(crate) fn begin(&mut self, index: usize, limit: u64, buffer: u32) {
        self.writable.set(index, buffer > 0);
        self.funded.set(index, buffer > 0 && limit > 0);
    }

    /// Looks again at a half that changed: at what the change may move.
    #[inline(always)]
    pub(crate) fn look(&mut self, index: usize, half: &SendHalf, moves: Moves) {
        self.bytes.set(index, may_send(half));
        match moves {
            Moves::Sent => look_again(&mut self.again, index, half),
            Moves::End => {
                look_may_end(&mut self.again, index, half);
                self.look_room(index, half);
            }
            Moves::Room => {
                look_again(&mut self.again, index, half);
                look_end(&mut self.ended, index, half);
                self.look_room(index, half);
            }
            Moves::All => {
                self.again.set(index, may_send_again(half));
                self.ended.set(index, has_ended(half));
                self.stopped.set(index, half.stop_code().is_some());
                self.look_room(index, half);
            }
        }
    }

    // Looks again at the room of a half.
    #[inline(always)]
    fn look_room(&mut self, index: usize, half: &SendHalf) {
        let is_writable = half.is_writable();
        self.writable.set(index, is_writable);
        self.funded
            .set(index, is_writable && half.written() < half.limit());
    }

    #[inline(always)]
    pub(crate) fn of(&self, task: Task) -> &Marks {
        match task {
            Task::Bytes => &self.bytes,
            Task::Again => &self.again,
            Task::Writable => &self.writable,
            Task::Funded => &self.funded,
            Task::Ended => &self.ended,
            Task::Stopped => &self.stopped,
        }
    }
}

// Looks whether a half has something to send again, where it had.
#[inline(always)]
fn look_again(again: &mut Marks, index: usize, half: &SendHalf) {
    if !again.may_have() {
        return;
    }
    if !again.has(index) {
        return;
    }
    again.set(index, may_send_again(half));
}

// Looks whether the end may go, where nothing else fell due.
#[inline(always)]
fn look_may_end(again: &mut Marks, index: usize, half: &SendHalf) {
    if !may_end(half) {
        return;
    }
    again.set(index, true);
}

// Looks whether a half is over, where its end is acknowledged.
#[inline(always)]
fn look_end(ended: &mut Marks, index: usize, half: &SendHalf) {
    if !half.end_acked() {
        return;
    }
    ended.set(index, has_ended(half));
}

// Whether the end may go.
fn may_end(half: &SendHalf) -> bool {
    half.end_due() && half.sent_end() == half.written()
}

// Whether bytes or the end may go.
#[inline(always)]
fn may_send(half: &SendHalf) -> bool {
    // New bytes come first: they need no search of what was sent and what of it is acknowledged.
    if half.has_unsent() {
        return true;
    }
    if may_end(half) {
        return true;
    }
    is_due_below(half, half.limit())
}

fn may_send_again(half: &SendHalf) -> bool {
    if may_end(half) {
        return true;
    }
    is_due_below(half, half.sent_end())
}

// Whether a byte below an offset is due.
#[inline(always)]
fn is_due_below(half: &SendHalf, end: u64) -> bool {
    match half.lowest_due() {
        Some(offset) => offset < end,
        None => false,
    }
}

fn has_ended(half: &SendHalf) -> bool {
    matches!(half.state(), SendState::DataRecvd | SendState::ResetRecvd)
}
