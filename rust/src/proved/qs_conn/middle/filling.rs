// Made from crates/qs_conn/src/middle/filling.rt by rust/erase; not edited by hand.
//! A packet is filled with what is due.

use super::Core;
use crate::proved::qs_conn::due::{Kind, STREAM_PLACES, Slot, Sort, sort_at};
use crate::proved::qs_conn::filling::{
    Course, LEAST_STREAM_FRAME, Packet, Wish, cut_to, full_at, put_ack_if, put_chunk, put_item,
};
use crate::proved::qs_conn::outbox::Outbox;
use crate::proved::qs_conn::own_told::OWN_ITEMS;
use crate::proved::qs_conn::send_marks::Task as SendTask;
use crate::proved::qs_ranges::{RangeSet, lowest_bit};
use crate::proved::qs_streams::{Boards, Task};
use crate::proved::qs_wire::{Dir, StreamId};

impl Core {
    /// From the first byte on, with what is asked for: the ACK, control frames, and data (RFC 9000, sections 4, 13.2 and 13.3).
    #[inline]
    pub(crate) fn fill(&mut self, done: &RangeSet, wish: &Wish, out: &mut [u8]) -> Course {
        let len = put_ack_if(done, wish, out);
        let start = Packet {
            len,
            is_full: false,
        };
        let packet = self.put_items(wish, out, start);
        self.put_streams(wish, out, packet)
    }

    /// Each takes two bytes or more; and if nothing of a stream is due, there are the connection's own items alone, so that little memory
    /// is asked for.
    #[inline]
    pub(crate) fn most_pieces(&self, room: usize) -> usize {
        if self.is_still() { OWN_ITEMS } else { room / 2 }
    }

    // It looks at how many marks there are, and at no half.
    #[inline(always)]
    fn is_still(&self) -> bool {
        if self.outbox.may_have(SendTask::Bytes) {
            return false;
        }
        self.due.some() & STREAM_PLACES == 0
    }

    #[inline(always)]
    fn put_items(&mut self, wish: &Wish, out: &mut [u8], packet: Packet) -> Packet {
        if !wish.want.items {
            return packet;
        }
        let places = self.places();
        let mut packet = packet;
        let mut from = 0;
        while let Some(place) = lowest_bit(places, from) {
            packet = self.put_sort(sort_at(place), out, packet);
            if packet.is_full {
                return packet;
            }
            from = place + 1;
        }
        packet
    }

    #[inline(always)]
    fn put_sort(&mut self, sort: Sort, out: &mut [u8], packet: Packet) -> Packet {
        match sort {
            Sort::Own(slot) => self.put_slot(slot, out, packet),
            Sort::Streams(kind) => self.put_marked(kind, out, packet),
        }
    }

    // Lower stream numbers first.
    #[inline(never)]
    fn put_marked(&mut self, kind: Kind, out: &mut [u8], packet: Packet) -> Packet {
        if packet.is_full {
            return packet;
        }
        let mut packet = packet;
        let mut from = 0;
        while let Some(stream) = self.next_marked(kind, from) {
            packet = self.put_slot(kind.at(stream), out, packet);
            if packet.is_full {
                return packet;
            }
            self.due.set(kind.task(), stream, false);
            from = stream.value() + 1;
        }
        packet
    }

    #[inline]
    pub(super) fn next_marked(&self, kind: Kind, from: u64) -> Option<StreamId> {
        debug_assert!(from <= 1 << 62);
        self.due.next(kind.task(), from)
    }

    #[inline(always)]
    fn put_slot(&mut self, slot: Slot, out: &mut [u8], packet: Packet) -> Packet {
        let Some(item) = self.due_in(slot) else {
            return packet;
        };
        if packet.is_full {
            return packet;
        }
        let packet = put_item(&mut self.outbox, &item, out, packet);
        self.note_put(&item, packet.is_full);
        packet
    }

    // From the stream that the caller names on and then around, so that it can go by turns.
    #[inline(always)]
    fn put_streams(&mut self, wish: &Wish, out: &mut [u8], packet: Packet) -> Course {
        let packet = Course {
            len: packet.len,
            quota: wish.want.most_bytes,
            is_full: packet.is_full,
        };
        if !wish.want.streams {
            return packet;
        }
        if wish.want.alone {
            return self.put_open(wish.want.first, out, packet);
        }
        let packet = self.put_way(wish.want.first, false, out, packet);
        // Below the lowest stream there is no other.
        if wish.want.first.value() == 0 {
            return packet;
        }
        self.put_way(wish.want.first, true, out, packet)
    }

    #[inline(always)]
    fn put_way(&mut self, first: StreamId, around: bool, out: &mut [u8], packet: Course) -> Course {
        if packet.is_full {
            return packet;
        }
        let mut packet = packet;
        let mut from = way_start(around, first);
        while let Some(stream) = self.next_going(from) {
            if !is_on_way(around, first, stream) {
                return packet;
            }
            packet = self.put_chunks(stream, out, packet);
            if packet.is_full {
                return packet;
            }
            from = stream.value() + 1;
        }
        packet
    }

    #[inline(always)]
    pub(super) fn next_going(&self, from: u64) -> Option<StreamId> {
        debug_assert!(from <= 1 << 62);
        self.outbox.next_marked(self.going_task(), from)
    }

    /// While the connection's credit is used up, only bytes that were sent before may go (RFC 9000, section 4.1): streams with new ones are
    /// passed over by their marks.
    #[inline(always)]
    pub(super) fn going_task(&self) -> SendTask {
        if self.outbox.sent_sum() < self.limits.known_data {
            return SendTask::Bytes;
        }
        SendTask::Again
    }

    #[inline(always)]
    fn put_open(&mut self, stream: StreamId, out: &mut [u8], packet: Course) -> Course {
        if self.outbox.is_open(stream) {
            return self.put_chunks(stream, out, packet);
        }
        packet
    }

    // One for each run of due offsets: a chunk is a run, and what lies between was acknowledged or is in flight.
    fn put_chunks(&mut self, stream: StreamId, out: &mut [u8], packet: Course) -> Course {
        if packet.is_full {
            return packet;
        }
        let mut len = packet.len;
        let mut quota = packet.quota;
        let mut fresh = self.limits.known_data - self.outbox.sent_sum();
        while let Some(chunk) = self.outbox.next_chunk(stream, out.len() - len, fresh) {
            if chunk.len > quota {
                if quota == 0 {
                    return full_at(len, 0);
                }
                let part = cut_to(chunk, quota);
                let cut = put_chunk(&mut self.outbox, stream, part, out, len);
                look_unless_free(&mut self.due, &self.outbox, stream, cut.is_free);
                return full_at(cut.len, 0);
            }
            let put = put_chunk(&mut self.outbox, stream, chunk, out, len);
            len = put.len;
            quota -= chunk.len;
            look_unless_free(&mut self.due, &self.outbox, stream, put.is_free);
            if out.len() - len < LEAST_STREAM_FRAME {
                return full_at(len, quota);
            }
            if put.is_done {
                return Course {
                    len,
                    quota,
                    is_full: false,
                };
            }
            fresh = self.limits.known_data - self.outbox.sent_sum();
        }
        let is_full = self.outbox.is_held_by_room(stream, out.len() - len, fresh);
        Course {
            len,
            quota,
            is_full,
        }
    }
}

// Unless the chunk itself showed that no limit holds the stream back, or that it did before.
#[inline(always)]
fn look_unless_free(due: &mut Boards, outbox: &Outbox, stream: StreamId, is_free: bool) {
    if is_free {
        return;
    }
    if outbox.blocked_at(stream).is_some() {
        due.set(Task::BlockDue, stream, true);
    }
}

#[inline(always)]
fn way_start(around: bool, first: StreamId) -> u64 {
    if around { 0 } else { first.value() }
}

#[inline(always)]
fn is_on_way(around: bool, first: StreamId, stream: StreamId) -> bool {
    if around {
        return stream.value() < first.value();
    }
    stream.value() >= first.value()
}
