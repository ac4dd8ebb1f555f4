// Made from crates/qs_conn/src/outbox/making.rt by rust/erase; not edited by hand.
use crate::shim::Vec;

use super::halves::half_of;
use super::{Outbox, halves};
use crate::proved::qs_conn::piece_room::PieceRoom;
use crate::proved::qs_conn::send_lanes::{SendLanes, Setting};
use crate::proved::qs_conn::send_marks::{Moves, Task};
use crate::proved::qs_ranges::NoMemory;
use crate::proved::qs_send::{Chunk, Item, Piece, Records};
use crate::proved::qs_wire::StreamId;

#[derive(Clone, Copy)]
pub(crate) struct Sent {
    pub(crate) moved: u64,
    pub(crate) is_done: bool,
    /// Then the chunk brought it to no limit, so it needn't be looked at for STREAM_DATA_BLOCKED.
    pub(crate) is_free: bool,
}

impl Outbox {
    /// Before the packet is filled, so that a refusal changes nothing.
    #[inline(always)]
    pub(crate) fn begin(&mut self, count: usize) -> Result<(), NoMemory> {
        self.records.make_room(self.next)?;
        self.pending.reserve(count)?;
        self.room.prepare()?;
        self.spare = count;
        Ok(())
    }

    #[inline]
    pub(crate) fn next_chunk(&self, stream: StreamId, room: usize, fresh: u64) -> Option<Chunk> {
        let _next = self.next;
        let half = half_of(&self.types, stream);
        half.next_chunk(room, fresh)
    }

    #[inline]
    pub(crate) fn is_held_by_room(&self, stream: StreamId, room: usize, fresh: u64) -> bool {
        let _next = self.next;
        let half = half_of(&self.types, stream);
        half.is_held_by_room(room, fresh)
    }

    #[inline]
    pub(crate) fn bytes(&self, stream: StreamId, chunk: Chunk) -> (&[u8], &[u8]) {
        half_of(&self.types, stream).bytes(chunk)
    }

    #[inline]
    pub(crate) fn put_chunk(&mut self, stream: StreamId, chunk: Chunk) -> Sent {
        let sent = send(&mut self.types, stream, chunk);
        self.sent += sent.moved;
        hold(&mut self.pending, Piece::Data { stream, chunk });
        self.spare -= 1;
        sent
    }

    /// No outstanding packet has it with this value, so it is new.
    #[inline]
    pub(crate) fn put_item(&mut self, item: Item) {
        let _next = self.next;
        note_told(&mut self.types, &item);
        hold(&mut self.pending, Piece::Told(item));
        self.spare -= 1;
    }

    #[inline]
    pub(crate) fn last_stream(&self) -> Option<StreamId> {
        // Mostly the last piece, as control frames go in first.
        if let Some(Piece::Data { stream, .. }) = self.pending.last() {
            return Some(*stream);
        }
        last_looked_for(&self.pending)
    }

    #[inline]
    pub(crate) fn has_piece(&self) -> bool {
        self.pending.len() > 0
    }

    #[inline]
    pub(crate) fn commit(&mut self) {
        put_pieces(
            &mut self.records,
            self.next,
            &mut self.pending,
            &mut self.room,
        );
        self.next += 1;
        self.spare = 0;
    }
}

// One that is over has no chunk that is due.
#[inline]
fn send(types: &mut [SendLanes; 4], stream: StreamId, chunk: Chunk) -> Sent {
    let (moved, is_free) = halves::edit(types, stream, (0, false), Moves::Sent, |half| {
        let before = half.sent_end();
        half.sent(chunk);
        (half.sent_end() - before, half.written() <= half.limit())
    });
    Sent {
        moved,
        is_done: !halves::has(types, stream, Task::Bytes),
        is_free: is_free || moved == 0,
    }
}

// The half's state depends on it (RFC 9000, section 3.1).
fn note_told(types: &mut [SendLanes; 4], item: &Item) {
    if let Item::StreamDataBlocked { stream, .. } = *item {
        halves::set(types, stream, Setting::Blocked);
    }
}

#[inline(always)]
fn put_pieces(records: &mut Records, number: u64, pending: &mut Vec<Piece>, room: &mut PieceRoom) {
    if pending.len() > 1 {
        records.put(number, room.hand_over(pending));
        return;
    }
    if let Some(piece) = pending.pop() {
        records.put_one(number, piece);
    }
}

#[inline(never)]
fn last_looked_for(pieces: &[Piece]) -> Option<StreamId> {
    let mut last = None;
    for piece in pieces {
        if let Piece::Data { stream, .. } = *piece {
            last = Some(stream);
        }
    }
    last
}

#[inline(always)]
fn hold(pending: &mut Vec<Piece>, piece: Piece) {
    let _ = match piece {
        Piece::Data { stream, chunk } => pending.push(Piece::Data { stream, chunk }),
        Piece::Told(item) => pending.push(Piece::Told(item)),
    };
}
