// Made from crates/qs_conn/src/outbox/acks.rt by rust/erase; not edited by hand.
use super::halves::half_of;
use super::{Outbox, halves};
use crate::proved::qs_conn::send_lanes::SendLanes;
use crate::proved::qs_conn::send_marks::Moves;
use crate::proved::qs_conn::told::ToldItems;
use crate::proved::qs_ranges::NoMemory;
use crate::proved::qs_send::{AckPass, Chunk, Item, Piece, Records, SendState};
use crate::proved::qs_streams::{index_of, type_of};
use crate::proved::qs_wire::StreamId;

/// Of the outstanding ones, or of the lost ones, for which an ACK comes late.
#[derive(Clone, Copy)]
pub(crate) struct KeptPacket {
    pub late: bool,
    pub number: u64,
}

impl Outbox {
    #[inline]
    pub(crate) fn next_outstanding(&self, from: u64) -> Option<u64> {
        let _next = self.next;
        next_held(&self.records, from)
    }

    #[inline(always)]
    pub(crate) fn next_named(&self, late: bool, pass: &mut AckPass<'_>) -> Option<u64> {
        let _next = self.next;
        if late {
            return pass.next_lost(&self.lost);
        }
        // Below the first record there is none, however many ranges follow: a peer's long ACK costs no more.
        if pass.below() <= self.records.base() {
            return None;
        }
        pass.next(&self.records)
    }

    #[inline]
    pub(crate) fn keeps_lost(&self) -> bool {
        let _next = self.next;
        self.lost.len() > 0
    }

    /// No clause sees it: what is kept of empty slots is how records are kept.
    #[inline]
    pub(crate) fn trim(&mut self) {
        self.records.trim();
    }

    #[inline]
    pub(crate) fn first(&self, number: u64) -> Option<Piece> {
        let _next = self.next;
        self.records.first(number)
    }

    #[inline(always)]
    pub(crate) fn first_kept(&self, packet: KeptPacket) -> Option<Piece> {
        let _next = self.next;
        if packet.late {
            return self.lost.first(packet.number);
        }
        self.first(packet.number)
    }

    #[inline(always)]
    pub(crate) fn ack_kept(&mut self, packet: KeptPacket, piece: Piece) -> Result<(), NoMemory> {
        let _next = self.next;
        piece_acked(&mut self.types, &mut self.told, &piece)?;
        if packet.late {
            self.lost.drop_first(packet.number);
            return Ok(());
        }
        self.records.drop_first(packet.number);
        Ok(())
    }

    #[inline]
    pub(crate) fn lose_first(&mut self, number: u64, piece: Piece) -> Result<(), NoMemory> {
        let _next = self.next;
        self.lost.make_room(number)?;
        piece_lost(&mut self.types, &piece)?;
        self.lost.add(number, piece);
        self.records.drop_first(number);
        Ok(())
    }
}

// Steps that double lead past numbers that aren't held, and halves back to the least. Each look is a search downwards, at one word for
// 4,096 numbers of which none is held.
fn next_held(records: &Records, from: u64) -> Option<u64> {
    let mut top = records.greatest()?;
    let mut low = from.max(records.base());
    if top < low {
        return None;
    }
    let mut step = 1;
    while low < top {
        let end = low + step.min(top - low);
        match last_held(records, low, end) {
            Some(number) => {
                top = number;
                step = (number - low).div_ceil(2).max(1);
            }
            None => {
                step = (end - low).saturating_mul(2);
                low = end;
            }
        }
    }
    Some(top)
}

fn last_held(records: &Records, low: u64, end: u64) -> Option<u64> {
    let number = records.below(end)?;
    if number < low {
        return None;
    }
    Some(number)
}

fn piece_acked(
    types: &mut [SendLanes; 4],
    told: &mut ToldItems,
    piece: &Piece,
) -> Result<(), NoMemory> {
    match *piece {
        Piece::Data { stream, chunk } => chunk_acked(types, stream, chunk),
        Piece::Told(item) => item_acked(types, told, item),
    }
}

#[inline]
pub(super) fn chunk_acked(
    types: &mut [SendLanes; 4],
    stream: StreamId,
    chunk: Chunk,
) -> Result<(), NoMemory> {
    let (answer, ends) = halves::edit(types, stream, (Ok(()), false), Moves::Room, |half| {
        let answer = half.acked(chunk);
        (answer, half.end_acked())
    });
    if ends {
        let lanes = &mut types[type_of(stream)];
        lanes.settle(index_of(stream));
    }
    answer
}

// A RESET_STREAM is marked in its half, once: the half's state follows from it.
fn item_acked(types: &mut [SendLanes; 4], told: &mut ToldItems, item: Item) -> Result<(), NoMemory> {
    if let Item::ResetStream { stream, .. } = item {
        reset_acked(types, stream);
        return Ok(());
    }
    told.note(item)
}

fn reset_acked(types: &mut [SendLanes; 4], stream: StreamId) {
    if matches!(half_of(types, stream).state(), SendState::ResetSent) {
        halves::edit(types, stream, (), Moves::All, |half| half.reset_acked());
    }
}

fn piece_lost(types: &mut [SendLanes; 4], piece: &Piece) -> Result<(), NoMemory> {
    match *piece {
        Piece::Data { stream, chunk } => chunk_lost(types, stream, chunk),
        Piece::Told(_) => Ok(()),
    }
}

fn chunk_lost(types: &mut [SendLanes; 4], stream: StreamId, chunk: Chunk) -> Result<(), NoMemory> {
    halves::edit(types, stream, Ok(()), Moves::All, |half| half.lost(chunk))
}
