// Made from crates/qs_send/src/half/chunks.rt by rust/erase; not edited by hand.
//! Which chunk of a half goes out next, and what it holds.

use super::SendHalf;
use crate::proved::qs_send::fit::longest_fit;
use crate::proved::qs_send::parts::Chunk;
use crate::proved::qs_wire::varint_len;

impl SendHalf {
    /// The longest chunk from the lowest due offset on whose STREAM frame takes at most `room` bytes, with `fresh` bytes of connection
    /// credit left for new bytes. It carries the FIN if that is due and it reaches the last written byte. `None` if no chunk may go.
    #[inline]
    pub fn next_chunk(&self, room: usize, fresh: u64) -> Option<Chunk> {
        let Some((offset, end)) = self.offsets.due_run() else {
            return self.end_chunk(room);
        };
        let head = self.head_len(offset);
        if room <= head {
            return None;
        }
        let most = end
            .min(self.limit())
            .min(self.sent_end().saturating_add(fresh));
        if most <= offset {
            return None;
        }
        let len = longest_fit(room - head, most - offset);
        if len == 0 {
            return None;
        }
        let fin = self.end_due() && offset + len == self.written();
        Some(Chunk {
            offset,
            len: len as usize,
            fin,
        })
    }

    /// Whether the room alone holds a chunk back: one is due, below the stream's limit and within the credit, and its frame is longer than
    /// `room`. Then a packet is full; else no room would be enough, and the next stream may have a turn.
    #[inline]
    pub fn is_held_by_room(&self, room: usize, fresh: u64) -> bool {
        match self.next_chunk(usize::MAX, fresh) {
            Some(chunk) => self.frame_len(chunk) > room,
            None => false,
        }
    }

    #[inline(always)]
    pub fn lowest_due(&self) -> Option<u64> {
        let (offset, _) = self.offsets.due_run()?;
        Some(offset)
    }

    /// Whether new bytes may go by the half's own limit.
    #[inline]
    pub fn has_unsent(&self) -> bool {
        self.reset_code().is_none() && self.sent_end() < self.written().min(self.limit())
    }

    #[inline(always)]
    pub fn end_due(&self) -> bool {
        self.fin_noted && !self.fin_acked
    }

    /// The bytes of a chunk that is still in the buffer, in two pieces if they go around the ring's end.
    #[inline]
    pub fn bytes(&self, chunk: Chunk) -> (&[u8], &[u8]) {
        let first = self.offsets.written() - self.offsets.kept_len() as u64;
        self.offsets
            .part((chunk.offset - first) as usize, chunk.len)
    }

    #[inline]
    pub fn copy(&self, chunk: Chunk, into: &mut [u8]) {
        let (front, back) = self.bytes(chunk);
        let (begin, rest) = into.split_at_mut(front.len());
        begin.copy_from_slice(front);
        rest.copy_from_slice(back);
    }

    /// How many bytes the chunk's STREAM frame takes (RFC 9000, section 19.8).
    #[inline]
    pub fn frame_len(&self, chunk: Chunk) -> usize {
        let _limit = self.limit;
        self.head_len(chunk.offset) + varint_len(chunk.len as u64) + chunk.len
    }

    #[inline]
    pub fn has_sent(&self, chunk: Chunk) -> bool {
        let sent_end = self.offsets.sent_end();
        chunk.offset <= sent_end
            && chunk.len as u64 <= sent_end - chunk.offset
            && (!chunk.fin || self.fin_sent)
    }

    // A FIN alone: no byte is due that could carry it.
    fn end_chunk(&self, room: usize) -> Option<Chunk> {
        if !self.end_due() {
            return None;
        }
        let offset = self.written();
        if room <= self.head_len(offset) {
            return None;
        }
        Some(Chunk {
            offset,
            len: 0,
            fin: true,
        })
    }

    fn head_len(&self, offset: u64) -> usize {
        debug_assert!(offset <= 0x3fff_ffff_ffff_ffff);
        let id_len = varint_len(self.id.value());
        if offset == 0 {
            1 + id_len
        } else {
            1 + id_len + varint_len(offset)
        }
    }
}
