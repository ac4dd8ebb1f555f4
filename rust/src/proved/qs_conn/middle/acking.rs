// Made from crates/qs_conn/src/middle/acking.rt by rust/erase; not edited by hand.
//! Packets are acknowledged, or lost.

use super::Core;
use crate::proved::qs_conn::newly_told::{Silent, Told};
use crate::proved::qs_conn::outbox::{KeptPacket, Row};
use crate::proved::qs_ranges::NoMemory;
use crate::proved::qs_send::{AckPass, Item, Piece};
use crate::proved::qs_wire::{AckRanges, StreamId};

impl Core {
    /// The outstanding packets first and then the lost ones, each from the highest number down, as the ranges come (RFC 9000, sections
    /// 13.2.1 and 13.3). If memory runs out, some first pieces are acknowledged: the payload may come again and finishes the work.
    #[inline]
    pub(crate) fn ack<T: Told>(
        &mut self,
        largest: u64,
        ranges: &[u8],
        told: &mut T,
    ) -> Result<(), NoMemory> {
        debug_assert!(largest < 1 << 62);
        self.ack_all(false, AckRanges::new(largest, ranges), told)?;
        if !self.outbox.keeps_lost() {
            return Ok(());
        }
        self.ack_all(true, AckRanges::new(largest, ranges), &mut Silent)
    }

    /// As by an ACK of these numbers alone, so that tokens are defined by ACKs (RFC 9000, section 13.3).
    #[inline]
    pub(crate) fn ack_range(&mut self, first: u64, end: u64) -> Result<(), NoMemory> {
        let result = self.ack_both(first, end);
        self.outbox.trim();
        result
    }

    fn ack_both(&mut self, first: u64, end: u64) -> Result<(), NoMemory> {
        self.ack_numbers(false, first, end)?;
        if !self.outbox.keeps_lost() {
            return Ok(());
        }
        self.ack_numbers(true, first, end)
    }

    #[inline(always)]
    fn ack_numbers(&mut self, late: bool, first: u64, end: u64) -> Result<(), NoMemory> {
        let mut number = end;
        while number > first {
            number = self.ack_from(late, number - 1, first)?;
        }
        Ok(())
    }

    fn ack_all<T: Told>(
        &mut self,
        late: bool,
        ranges: AckRanges<'_>,
        told: &mut T,
    ) -> Result<(), NoMemory> {
        let mut pass = AckPass::new(ranges);
        let result = self.ack_ahead(late, &mut pass, told);
        self.outbox.trim();
        result
    }

    fn ack_ahead<T: Told>(
        &mut self,
        late: bool,
        pass: &mut AckPass<'_>,
        told: &mut T,
    ) -> Result<(), NoMemory> {
        while let Some(number) = self.outbox.next_named(late, pass) {
            let low = pass.low();
            let first = self.ack_from(late, number, low)?;
            pass.go_below(first);
            tell_down(told, number, first);
        }
        Ok(())
    }

    // With the packet those below it, down to `low` at most, that carried bytes in a row with it. Answers the lowest number.
    #[inline(always)]
    fn ack_from(&mut self, late: bool, number: u64, low: u64) -> Result<u64, NoMemory> {
        if !late {
            if let Some(row) = self.outbox.row(number, low) {
                self.ack_row(number, &row)?;
                return Ok(row.first);
            }
        }
        self.ack_packet(KeptPacket { late, number })?;
        Ok(number)
    }

    #[inline(always)]
    fn ack_row(&mut self, number: u64, row: &Row) -> Result<(), NoMemory> {
        let was = self.is_over(row.stream);
        self.outbox.ack_row(number, row)?;
        let is = self.is_over(row.stream);
        self.ended.recount(row.stream, was, is);
        Ok(())
    }

    #[inline(always)]
    fn ack_packet(&mut self, packet: KeptPacket) -> Result<(), NoMemory> {
        while let Some(piece) = self.outbox.first_kept(packet) {
            self.ack_piece(packet, piece)?;
        }
        Ok(())
    }

    // One by one, so that after a refusal each piece is either acknowledged or not.
    #[inline(always)]
    fn ack_piece(&mut self, packet: KeptPacket, piece: Piece) -> Result<(), NoMemory> {
        let Some(stream) = half_of(&piece) else {
            self.outbox.ack_kept(packet, piece)?;
            return Ok(());
        };
        let was = self.is_over(stream);
        self.outbox.ack_kept(packet, piece)?;
        let is = self.is_over(stream);
        self.ended.recount(stream, was, is);
        Ok(())
    }

    #[inline]
    pub(crate) fn lose(&mut self, number: u64) -> Result<(), NoMemory> {
        let result = self.lose_pieces(number);
        self.outbox.trim();
        result
    }

    // One by one, so that after a refusal each piece is either lost or outstanding.
    fn lose_pieces(&mut self, number: u64) -> Result<(), NoMemory> {
        while let Some(piece) = self.outbox.first(number) {
            self.outbox.lose_first(number, piece)?;
            self.note_lost(&piece);
        }
        Ok(())
    }
}

fn tell_down<T: Told>(told: &mut T, number: u64, first: u64) {
    debug_assert!(first <= number);
    let mut last = number;
    while last > first {
        told.tell(last);
        last -= 1;
    }
    told.tell(first);
}

fn half_of(piece: &Piece) -> Option<StreamId> {
    match *piece {
        Piece::Data { stream, .. } => Some(stream),
        Piece::Told(Item::ResetStream { stream, .. }) => Some(stream),
        Piece::Told(_) => None,
    }
}
