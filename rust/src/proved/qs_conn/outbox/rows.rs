// Made from crates/qs_conn/src/outbox/rows.rt by rust/erase; not edited by hand.
//! Packets in a row mostly carried bytes in a row of one stream, and an ACK mostly names such packets: these bytes are acknowledged as one
//! chunk.

use super::Outbox;
use super::acks::chunk_acked;
use crate::proved::qs_ranges::NoMemory;
use crate::proved::qs_send::{Chunk, Piece, Records};
use crate::proved::qs_wire::StreamId;

/// The bytes of a stream that packets in a row carried, of which `first` is the lowest number.
#[derive(Clone, Copy)]
pub(crate) struct Row {
    pub stream: StreamId,
    pub chunk: Chunk,
    pub first: u64,
}

impl Outbox {
    /// From a number down to `low` at most. `None` if that packet carried anything but bytes, or none below it is outstanding.
    #[inline(always)]
    pub(crate) fn row(&self, number: u64, low: u64) -> Option<Row> {
        // Mostly no packet below is outstanding.
        if number <= low.max(self.records.base()) {
            return None;
        }
        row_of(&self.records, number, low)
    }

    #[inline]
    pub(crate) fn ack_row(&mut self, number: u64, row: &Row) -> Result<(), NoMemory> {
        let _next = self.next;
        chunk_acked(&mut self.types, row.stream, row.chunk)?;
        drop_row(&mut self.records, row.first, number);
        Ok(())
    }
}

fn row_of(records: &Records, number: u64, low: u64) -> Option<Row> {
    let Some(top) = some_bytes_of(records, number) else {
        return None;
    };
    let stream = top.stream;
    let mut chunk = top.chunk;
    let mut first = number;
    while first > low {
        match with_below(records, first, stream, chunk) {
            Some(longer) => chunk = longer,
            None => break,
        }
        first -= 1;
    }
    Some(Row {
        stream,
        chunk,
        first,
    })
}

#[inline(always)]
fn some_bytes_of(records: &Records, number: u64) -> Option<Row> {
    let Some(top) = bytes_of(records, number) else {
        return None;
    };
    if top.chunk.len == 0 {
        return None;
    }
    Some(top)
}

#[inline(always)]
fn with_below(records: &Records, first: u64, stream: StreamId, chunk: Chunk) -> Option<Chunk> {
    debug_assert!(0 < first);
    let Some(below) = bytes_of(records, first - 1) else {
        return None;
    };
    let low = below.chunk;
    if below.stream != stream || low.fin || chunk.offset < low.offset {
        return None;
    }
    if chunk.offset - low.offset != low.len as u64 {
        return None;
    }
    let len = low.len.checked_add(chunk.len)?;
    Some(Chunk {
        offset: low.offset,
        len,
        fin: chunk.fin,
    })
}

#[inline(always)]
fn bytes_of(records: &Records, number: u64) -> Option<Row> {
    let Some(piece) = records.only(number) else {
        return None;
    };
    bytes_in(&piece, number)
}

fn bytes_in(piece: &Piece, first: u64) -> Option<Row> {
    match *piece {
        Piece::Data { stream, chunk } => Some(Row {
            stream,
            chunk,
            first,
        }),
        Piece::Told(_) => None,
    }
}

fn drop_row(records: &mut Records, first: u64, number: u64) {
    debug_assert!(first <= number);
    let mut last = number;
    while last > first {
        records.drop_first(last);
        last -= 1;
    }
    records.drop_first(first);
}
