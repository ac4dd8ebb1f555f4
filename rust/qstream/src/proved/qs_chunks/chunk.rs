// Made from crates/qs_chunks/src/chunk.rt by rust/erase; not edited by hand.
//! Consecutive bytes of a stream, which grow at the back and go away at the front.
use crate::shim::Vec;

use crate::proved::qs_ranges::NoMemory;

/// The first `start` bytes of the vector are read: dropping them at once would move all others for each read.
pub(crate) struct Chunk {
    offset: u64,
    start: usize,
    bytes: Vec<u8>,
}

impl Chunk {
    /// In a buffer whose memory is used again, so that bytes in order take none anew.
    pub(crate) fn new(mut buffer: Vec<u8>, offset: u64, bytes: &[u8]) -> Result<Self, NoMemory> {
        buffer.clear();
        buffer.extend_from_slice(bytes)?;
        Ok(Chunk {
            offset,
            start: 0,
            bytes: buffer,
        })
    }

    pub(crate) fn offset(&self) -> u64 {
        self.offset
    }

    /// The offset after the last.
    pub(crate) fn end(&self) -> u64 {
        self.offset + self.len() as u64
    }

    pub(crate) fn len(&self) -> usize {
        self.bytes.len() - self.start
    }

    /// Whether bytes are those of the chunk, at each offset that both have.
    pub(crate) fn agrees(&self, offset: u64, bytes: &[u8]) -> bool {
        are_one(self.offset, &self.bytes[self.start..], offset, bytes)
    }

    /// Copies the first bytes out.
    pub(crate) fn copy_front(&self, into: &mut [u8]) {
        let end = self.start + into.len();
        into.copy_from_slice(&self.bytes[self.start..end]);
    }

    /// Adds bytes at the back.
    pub(crate) fn append(&mut self, bytes: &[u8]) -> Result<(), NoMemory> {
        self.bytes.extend_from_slice(bytes)?;
        Ok(())
    }

    /// Takes the last bytes away.
    pub(crate) fn truncate(&mut self, count: usize) {
        self.bytes.truncate(self.bytes.len() - count);
    }

    /// The memory of read bytes is freed once it is at least as long as the rest, so that each byte moves once on average.
    pub(crate) fn skip(&mut self, count: usize) {
        self.offset += count as u64;
        let start = self.start + count;
        if start >= self.bytes.len() - start {
            self.bytes.drain(..start);
            self.start = 0;
        } else {
            self.start = start;
        }
    }

    /// The buffer, to be used again.
    pub(crate) fn into_buffer(self) -> Vec<u8> {
        self.bytes
    }
}

// Whether they agree where they overlap.
fn are_one(at: u64, own: &[u8], offset: u64, bytes: &[u8]) -> bool {
    let from = at.max(offset);
    let to = (at + own.len() as u64).min(offset + bytes.len() as u64);
    if from >= to {
        return true;
    }
    let ours = &own[(from - at) as usize..(to - at) as usize];
    let theirs = &bytes[(from - offset) as usize..(to - offset) as usize];
    ours == theirs
}
