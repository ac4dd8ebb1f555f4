// Made from crates/qs_chunks/src/chunk_list.rt by rust/erase; not edited by hand.
//! Chunks in order, with the memory of one that was read kept for the next.
use crate::shim::{SliceCalls, Vec};

use crate::proved::qs_chunks::chunk::Chunk;
use crate::proved::qs_ranges::NoMemory;
use crate::shim::alloc::Global;
use crate::shim::collections::VecDeque;
use crate::shim::mem;

/// One buffer that is free, so that a chunk that is read gives its memory to the next.
pub(crate) struct ChunkList {
    alloc: Global,
    chunks: VecDeque<Chunk>,
    spare: Vec<u8>,
}

/// A range of offsets from `from` on and below `to`. The chunks at places from `first` on and before `after` lie within it and hold `held`
/// bytes. If it joins, the chunk before them ends at `from`, and grows instead of a new one.
#[derive(Clone, Copy)]
pub(crate) struct Spot {
    pub(crate) first: usize,
    pub(crate) after: usize,
    pub(crate) from: u64,
    pub(crate) to: u64,
    pub(crate) held: u64,
    pub(crate) joins: bool,
}

impl ChunkList {
    pub(crate) fn new(alloc: Global) -> Self {
        ChunkList {
            alloc,
            chunks: VecDeque::new(alloc),
            spare: Vec::new(alloc),
        }
    }

    /// A range of offsets of those from `start` on and below `end`: all outside of it are stored, and one in it isn't.
    pub(crate) fn find_spot(&self, start: u64, end: u64) -> Option<Spot> {
        let first = self.place_past(start);
        let left_end = self.end_before(first);
        let from = start.max(left_end);
        if from >= end {
            return None;
        }
        let (after, held) = self.inner(first, end);
        let to = self.next_begin(after).min(end);
        if to.saturating_sub(from) <= held {
            return None;
        }
        Some(Spot {
            first,
            after,
            from,
            to,
            held,
            joins: left_end == from && first > 0,
        })
    }

    fn len(&self) -> usize {
        self.chunks.len()
    }

    fn chunk(&self, place: usize) -> &Chunk {
        &self.chunks[place]
    }

    // All of them begin there for bytes in order, so the last is looked at first.
    fn place_past(&self, start: u64) -> usize {
        match self.chunks.back() {
            Some(last) if last.offset() > start => {
                self.chunks.partition_point(|chunk| chunk.offset() <= start)
            }
            _ => self.len(),
        }
    }

    fn end_before(&self, place: usize) -> u64 {
        if place > 0 {
            self.chunk(place - 1).end()
        } else {
            0
        }
    }

    fn next_begin(&self, place: usize) -> u64 {
        match self.chunks.get(place) {
            Some(chunk) => chunk.offset(),
            None => u64::MAX,
        }
    }

    // The place after the last of the chunks from `first` on that end at `end` or below it, and how many bytes they hold.
    fn inner(&self, first: usize, end: u64) -> (usize, u64) {
        let mut after = first;
        let mut held = 0;
        while after < self.len() && self.chunk(after).end() <= end {
            held += self.chunk(after).len() as u64;
            after += 1;
        }
        (after, held)
    }

    pub(crate) fn agree(&self, offset: u64, bytes: &[u8]) -> bool {
        let end = offset + bytes.len() as u64;
        let mut next = self.place_past(offset).saturating_sub(1);
        while next < self.len() && self.chunk(next).offset() < end {
            if !self.chunk(next).agrees(offset, bytes) {
                return false;
            }
            next += 1;
        }
        true
    }

    /// The bytes that come, from the offset `from` on, with those of the chunks between in their places.
    pub(crate) fn patched(&self, spot: Spot, bytes: &[u8]) -> Result<Vec<u8>, NoMemory> {
        let mut new = bytes.copied_in(self.alloc)?;
        let mut place = spot.first;
        while place < spot.after {
            patch(&mut new, spot.from, self.chunk(place));
            place += 1;
        }
        Ok(new)
    }

    pub(crate) fn extend(&mut self, spot: Spot, bytes: &[u8]) -> Result<(), NoMemory> {
        self.chunks[spot.first - 1].append(bytes)
    }

    pub(crate) fn shorten(&mut self, spot: Spot, count: usize) {
        self.chunks[spot.first - 1].truncate(count);
    }

    pub(crate) fn insert(&mut self, spot: Spot, bytes: &[u8]) -> Result<(), NoMemory> {
        let buffer = mem::replace(&mut self.spare, Vec::new(self.alloc));
        let chunk = Chunk::new(buffer, spot.from, bytes)?;
        self.chunks.insert(spot.first, chunk)?;
        Ok(())
    }

    pub(crate) fn remove(&mut self, place: usize) {
        drop(self.chunks.remove(place));
    }

    pub(crate) fn clear_behind(&mut self, place: usize, count: usize) {
        if count > 0 {
            let first = place + 1;
            self.chunks.drain(first..first + count);
        }
    }

    pub(crate) fn take_front(&mut self, into: &mut [u8]) -> usize {
        let first = &mut self.chunks[0];
        let len = first.len();
        let count = len.min(into.len());
        first.copy_front(&mut into[..count]);
        if count < len {
            first.skip(count);
        } else if let Some(first) = self.chunks.pop_front() {
            self.spare = first.into_buffer();
        }
        count
    }

    pub(crate) fn begins_at(&self, offset: u64) -> bool {
        matches!(self.chunks.front(), Some(first) if first.offset() == offset)
    }

    pub(crate) fn clear_all(&mut self) {
        self.chunks = VecDeque::new(self.alloc);
        self.spare = Vec::new(self.alloc);
    }
}

fn patch(bytes: &mut [u8], from: u64, chunk: &Chunk) {
    let at = (chunk.offset() - from) as usize;
    let end = at + chunk.len();
    chunk.copy_front(&mut bytes[at..end]);
}
