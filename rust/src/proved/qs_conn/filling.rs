// Made from crates/qs_conn/src/filling.rt by rust/erase; not edited by hand.
//! What goes into a packet: frames into a slice, behind the bytes that are there.

use crate::proved::qs_conn::outbox::Outbox;
use crate::proved::qs_calls::Fill;
use crate::proved::qs_ranges::RangeSet;
use crate::proved::qs_send::{Chunk, Item};
use crate::proved::qs_wire::{Frame, StreamId, put, put_delayed_ack, put_stream};

/// Below it a search for data can stop: no STREAM frame with a length is shorter, with a byte each for type, stream and length (RFC 9000,
/// section 19.8).
pub(crate) const LEAST_STREAM_FRAME: usize = 3;

#[derive(Clone, Copy)]
pub(crate) struct Packet {
    pub len: usize,
    /// Something didn't fit. Then nothing more goes in, so that what is left keeps its order.
    pub is_full: bool,
}

/// How far a packet is while data goes in.
#[derive(Clone, Copy)]
pub(crate) struct Course {
    pub len: usize,
    pub quota: usize,
    /// Nothing more goes in: something didn't fit, or the cap of bytes held some back.
    pub is_full: bool,
}

/// What a packet is to hold: what is asked for of what is due, and whether an ACK, with its delay.
#[derive(Clone, Copy)]
pub(crate) struct Wish {
    pub want: Fill,
    pub delay: u64,
    pub ack_due: bool,
}

/// `None` if it doesn't fit; then nothing is written, so the packet stays a text.
fn put_frame(frame: &Frame<'_>, out: &mut [u8], len: usize) -> Option<usize> {
    debug_assert!(len <= out.len());
    match put(frame, &mut out[len..]) {
        Ok(more) => Some(len + more),
        Err(_full) => None,
    }
}

/// The bytes of a ring come in two pieces, and aren't joined first.
#[inline(always)]
fn put_data(
    id: StreamId,
    chunk: Chunk,
    front: &[u8],
    back: &[u8],
    out: &mut [u8],
    len: usize,
) -> Option<usize> {
    debug_assert!(len <= out.len());
    match put_stream(id, chunk.offset, chunk.fin, front, back, &mut out[len..]) {
        Ok(more) => Some(len + more),
        Err(_full) => None,
    }
}

fn frame_of(item: &Item) -> Frame<'static> {
    match *item {
        Item::MaxData { maximum } => Frame::MaxData { maximum },
        Item::MaxStreamData { stream, maximum } => Frame::MaxStreamData { stream, maximum },
        Item::MaxStreams { dir, count } => Frame::MaxStreams { dir, count },
        Item::ResetStream {
            stream,
            code,
            final_size,
        } => Frame::ResetStream {
            stream,
            code,
            final_size,
        },
        Item::StopSending { stream, code } => Frame::StopSending { stream, code },
        Item::DataBlocked { limit } => Frame::DataBlocked { limit },
        Item::StreamDataBlocked { stream, limit } => Frame::StreamDataBlocked { stream, limit },
        Item::StreamsBlocked { dir, count } => Frame::StreamsBlocked { dir, count },
    }
}

#[inline]
pub(crate) fn put_item(outbox: &mut Outbox, item: &Item, out: &mut [u8], packet: Packet) -> Packet {
    match put_frame(&frame_of(item), out, packet.len) {
        Some(len) => {
            outbox.put_item(*item);
            Packet {
                len,
                is_full: false,
            }
        }
        None => Packet {
            len: packet.len,
            is_full: true,
        },
    }
}

#[inline]
pub(crate) fn full_at(len: usize, quota: usize) -> Course {
    Course {
        len,
        quota,
        is_full: true,
    }
}

#[inline]
pub(crate) fn cut_to(chunk: Chunk, bytes: usize) -> Chunk {
    Chunk {
        offset: chunk.offset,
        len: bytes,
        fin: false,
    }
}

#[derive(Clone, Copy)]
pub(crate) struct Put {
    pub len: usize,
    pub is_done: bool,
    /// Then the chunk didn't bring the stream to its limit with more written.
    pub is_free: bool,
}

/// It is known to fit, since a half measured it.
#[inline]
pub(crate) fn put_chunk(
    outbox: &mut Outbox,
    stream: StreamId,
    chunk: Chunk,
    out: &mut [u8],
    len: usize,
) -> Put {
    debug_assert!(len <= out.len());
    let (front, back) = outbox.bytes(stream, chunk);
    match put_data(stream, chunk, front, back, out, len) {
        Some(end) => {
            let sent = outbox.put_chunk(stream, chunk);
            Put {
                len: end,
                is_done: sent.is_done,
                is_free: sent.is_free,
            }
        }
        None => Put {
            len,
            is_done: false,
            is_free: false,
        },
    }
}

/// The highest ranges first and as many as fit: those left out were in earlier ACKs, or stand in later ones.
#[inline]
pub(crate) fn put_kept(done: &RangeSet, delay: u64, out: &mut [u8]) -> usize {
    debug_assert!(delay < 1 << 62);
    debug_assert!(26 <= out.len());
    let mut pairs = [(0, 0); 32];
    let count = done.copy_pairs(&mut pairs);
    let highest = &mut pairs[..count];
    highest.reverse();
    match put_delayed_ack(highest, delay, out) {
        Ok((_count, len)) => len,
        Err(_full) => 0,
    }
}

#[inline]
pub(crate) fn put_ack_if(done: &RangeSet, wish: &Wish, out: &mut [u8]) -> usize {
    if wish.ack_due {
        return put_kept(done, wish.delay, out);
    }
    0
}
