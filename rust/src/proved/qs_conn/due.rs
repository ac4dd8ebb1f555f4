// Made from crates/qs_conn/src/due.rt by rust/erase; not edited by hand.
//! Which control frames of streams may be due: a mark for each stream and kind. With one no packet in flight has the present value; without
//! one nothing of the kind is due. It is set as the value rises or its packet is lost, and goes as the frame goes out or nothing is found to
//! send: so filling a packet searches marks alone. Items of the connection itself have none: they are few enough for a value each.

use crate::proved::qs_send::Item;
use crate::proved::qs_streams::{Boards, Task};
use crate::proved::qs_wire::{Dir, StreamId};

/// What a control item speaks of, without its value. At any moment at most one item of a slot is current, so a slot is enough to ask
/// whether it is outstanding.
#[derive(Clone, Copy)]
pub(crate) enum Slot {
    MaxData,
    MaxStreamData(StreamId),
    MaxStreams(Dir),
    ResetStream(StreamId),
    StopSending(StreamId),
    DataBlocked,
    StreamDataBlocked(StreamId),
    StreamsBlocked(Dir),
}

#[derive(Clone, Copy)]
pub(crate) enum Kind {
    ResetStream,
    StopSending,
    MaxStreamData,
    StreamDataBlocked,
}

/// What stands at a place of a packet's order: an item of the connection itself, or those of streams of a kind.
#[derive(Clone, Copy)]
pub(crate) enum Sort {
    Own(Slot),
    Streams(Kind),
}

/// The places of the kinds of streams: they are the rows of the tasks that put frames into a packet.
pub(crate) const STREAM_PLACES: u64 = 0b1011_1000;

#[inline(always)]
pub(crate) fn sort_at(place: usize) -> Sort {
    debug_assert!(place < 10);
    match place {
        0 => Sort::Own(Slot::MaxData),
        1 => Sort::Own(Slot::MaxStreams(Dir::Bidi)),
        2 => Sort::Own(Slot::MaxStreams(Dir::Uni)),
        3 => Sort::Streams(Kind::ResetStream),
        4 => Sort::Streams(Kind::StopSending),
        5 => Sort::Streams(Kind::MaxStreamData),
        6 => Sort::Own(Slot::DataBlocked),
        7 => Sort::Streams(Kind::StreamDataBlocked),
        8 => Sort::Own(Slot::StreamsBlocked(Dir::Bidi)),
        _ => Sort::Own(Slot::StreamsBlocked(Dir::Uni)),
    }
}

impl Kind {
    #[inline]
    pub(crate) fn at(self, stream: StreamId) -> Slot {
        match self {
            Kind::ResetStream => Slot::ResetStream(stream),
            Kind::StopSending => Slot::StopSending(stream),
            Kind::MaxStreamData => Slot::MaxStreamData(stream),
            Kind::StreamDataBlocked => Slot::StreamDataBlocked(stream),
        }
    }

    #[inline(always)]
    pub(crate) fn task(self) -> Task {
        match self {
            Kind::ResetStream => Task::ResetDue,
            Kind::StopSending => Task::StopDue,
            Kind::MaxStreamData => Task::LimitDue,
            Kind::StreamDataBlocked => Task::BlockDue,
        }
    }
}

#[inline(always)]
pub(crate) fn mark(marks: &mut Boards, item: &Item, is_due: bool) {
    match *item {
        Item::ResetStream { stream, .. } => marks.set(Task::ResetDue, stream, is_due),
        Item::StopSending { stream, .. } => marks.set(Task::StopDue, stream, is_due),
        Item::MaxStreamData { stream, .. } => marks.set(Task::LimitDue, stream, is_due),
        Item::StreamDataBlocked { stream, .. } => marks.set(Task::BlockDue, stream, is_due),
        _ => {}
    }
}
