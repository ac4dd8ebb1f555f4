// Made from crates/qs_conn/src/outbox/halves.rt by rust/erase; not edited by hand.
//! The sending halves of an end, by the type of the stream and by its index: one that is named, and searches.

use crate::proved::qs_conn::marks::Marks;
use crate::proved::qs_conn::send_lanes::{SendLanes, Setting};
use crate::proved::qs_conn::send_marks::{Moves, Search, Task};
use crate::proved::qs_conn::told_streams::ToldStreams;
use crate::proved::qs_send::{SendHalf, SendView};
use crate::proved::qs_streams::{index_of, least_stream, type_of};
use crate::proved::qs_wire::StreamId;

#[inline(always)]
pub(super) fn is_open(types: &[SendLanes; 4], stream: StreamId) -> bool {
    let lanes = &types[type_of(stream)];
    index_of(stream) < lanes.len()
}

/// Changes the sending half of an open stream: the one way in. One that is over stays as it is, and what is given is the answer.
#[inline(always)]
pub(super) fn edit<R, F: FnOnce(&mut SendHalf) -> R>(
    types: &mut [SendLanes; 4],
    stream: StreamId,
    over: R,
    moves: Moves,
    change: F,
) -> R {
    let lanes = &mut types[type_of(stream)];
    let index = index_of(stream);
    lanes.edit(index, over, moves, change)
}

/// Sets a value of a stream's half, where it has one, also of one that is over.
#[inline]
pub(super) fn set(types: &mut [SendLanes; 4], stream: StreamId, setting: Setting) {
    if is_open(types, stream) {
        let lanes = &mut types[type_of(stream)];
        lanes.set(index_of(stream), setting);
    }
}

/// The marks of the streams of a type, by index, whose half has a task.
#[inline(always)]
pub(super) fn marks(types: &[SendLanes; 4], task: Task, stream_type: usize) -> &Marks {
    debug_assert!(stream_type < 4);
    let lanes = &types[stream_type];
    lanes.marks(task)
}

#[inline(always)]
pub(super) fn has(types: &[SendLanes; 4], stream: StreamId, task: Task) -> bool {
    marks(types, task, type_of(stream)).has(index_of(stream))
}

#[inline(always)]
pub(super) fn half_of(types: &[SendLanes; 4], stream: StreamId) -> SendView<'_> {
    let lanes = &types[type_of(stream)];
    lanes.get(index_of(stream))
}

#[inline(always)]
pub(super) fn may_have(types: &[SendLanes; 4], task: Task) -> bool {
    if marks(types, task, 0).may_have() {
        return true;
    }
    if marks(types, task, 1).may_have() {
        return true;
    }
    if marks(types, task, 2).may_have() {
        return true;
    }
    marks(types, task, 3).may_have()
}

/// The least number from one on of a stream whose half has a task. It stands apart, so that where no half has it a caller pays for the
/// look at that alone.
#[inline(never)]
pub(super) fn next_with(types: &[SendLanes; 4], task: Task, from: u64) -> Option<StreamId> {
    debug_assert!(from <= 1 << 62);
    least_stream(
        marks(types, task, 0).next_stream(0, from),
        marks(types, task, 1).next_stream(1, from),
        marks(types, task, 2).next_stream(2, from),
        marks(types, task, 3).next_stream(3, from),
    )
}

#[inline(always)]
pub(super) fn next_sought_of(
    types: &[SendLanes; 4],
    search: Search,
    told: &ToldStreams,
    stream_type: usize,
) -> Option<u64> {
    debug_assert!(stream_type < 4);
    let marks = marks(types, search.task, stream_type);
    let told = told.of_type(stream_type);
    if search.is_told {
        return marks.next_both(told.marks(), stream_type);
    }
    marks.next_untold(marks, told, stream_type, 0)
}
