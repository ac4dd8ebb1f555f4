//! Writing to a stream, and the sources of bytes.
use std::mem;

use bytes::Bytes;
use gotsavena::{SendReport, SendState, UseFault};
use thiserror::Error;

use super::{code_of, ours, StreamId, StreamsState};
use crate::VarInt;

impl StreamsState {
    /// Writes the front of the bytes, as many as are permitted now.
    pub(super) fn write(&mut self, id: StreamId, bytes: &[u8]) -> Result<usize, WriteError> {
        if let Some(code) = self.stop_code(id) {
            return Err(WriteError::Stopped(code));
        }
        self.waiting.clear();
        // (a write that is cut short is noted, and an event comes once there is room)
        match self.end.write(ours(id), bytes) {
            Ok(0) if !bytes.is_empty() => Err(WriteError::Blocked),
            Ok(count) => Ok(count),
            Err(UseFault::NoMemory) => {
                self.lacks_memory();
                Err(WriteError::Blocked)
            }
            Err(_) => Err(WriteError::UnknownStream),
        }
    }

    /// The same of chunks.
    pub(super) fn write_all_of(
        &mut self,
        id: StreamId,
        source: &mut BytesArray<'_>,
    ) -> Result<Written, WriteError> {
        let mut left = self.end.room(ours(id)) as usize;
        // Refused before a chunk is taken out, which would be lost. (a byte that is offered without room isn't taken)
        self.write(id, &[0][usize::from(left > 0)..])?;
        let mut written = Written::default();
        loop {
            let (bytes, chunks) = source.pop_chunk(left);
            written.chunks += chunks;
            if bytes.is_empty() {
                return Ok(written);
            }
            written.bytes += self.write(id, &bytes)?;
            left -= bytes.len();
        }
    }

    pub(super) fn send_report(&self, id: StreamId) -> Option<SendReport> {
        self.end.report(ours(id))?.send
    }

    pub(super) fn send_state(&self, id: StreamId) -> Option<SendState> {
        self.send_report(id).map(|half| half.state)
    }

    /// The code with which the peer stopped the stream, unless the application let go of it since: quinn forgets it then.
    pub(super) fn stop_code(&self, id: StreamId) -> Option<VarInt> {
        let code = self.end.stopped_with(ours(id))?;
        let half = self.send_report(id)?;
        let is_over = half.reset_code.is_some() || half.state == SendState::DataRecvd;
        (!is_over).then(|| code_of(code))
    }
}

/// Bytes that are passed piece by piece, as far as there is room.
pub trait BytesSource {
    /// At most so many bytes, and how many whole chunks were used up.
    fn pop_chunk(&mut self, limit: usize) -> (Bytes, usize);
}

/// A slice of chunks as a source.
pub struct BytesArray<'a> {
    chunks: &'a mut [Bytes],
    place: usize,
}

impl<'a> BytesArray<'a> {
    pub fn from_chunks(chunks: &'a mut [Bytes]) -> Self {
        Self { chunks, place: 0 }
    }
}

impl BytesSource for BytesArray<'_> {
    fn pop_chunk(&mut self, limit: usize) -> (Bytes, usize) {
        let begin = self.place;
        while let Some(chunk) = self.chunks.get_mut(self.place) {
            if chunk.len() > limit {
                return (chunk.split_to(limit), self.place - begin);
            }
            self.place += 1;
            if !chunk.is_empty() {
                return (mem::take(chunk), self.place - begin);
            }
        }
        (Bytes::new(), self.place - begin)
    }
}

/// A slice of bytes as a source.
pub struct ByteSlice<'a> {
    rest: &'a [u8],
}

impl<'a> ByteSlice<'a> {
    pub fn from_slice(bytes: &'a [u8]) -> Self {
        Self { rest: bytes }
    }
}

impl BytesSource for ByteSlice<'_> {
    fn pop_chunk(&mut self, limit: usize) -> (Bytes, usize) {
        let (front, rest) = self.rest.split_at(limit.min(self.rest.len()));
        self.rest = rest;
        let used = !front.is_empty() && rest.is_empty();
        (Bytes::copy_from_slice(front), usize::from(used))
    }
}

/// How much was written.
#[derive(Debug, Default, PartialEq, Eq, Clone, Copy)]
pub struct Written {
    /// So many bytes.
    pub bytes: usize,
    /// So many whole chunks.
    pub chunks: usize,
}

/// Why nothing was written.
#[derive(Debug, Error, Clone, Eq, PartialEq, Ord, PartialOrd, Hash)]
pub enum WriteError {
    /// There is no room now. An event says when there is.
    #[error("no room to write now")]
    Blocked,
    /// The peer stopped the stream, with this code.
    #[error("stopped by the peer: code {0}")]
    Stopped(VarInt),
    /// The stream wasn't opened, or was finished or reset.
    #[error("no such stream is open")]
    UnknownStream,
}

/// Why a stream wasn't finished.
#[derive(Debug, Error, Clone, PartialEq, Eq)]
pub enum FinishError {
    /// The peer stopped it, with this code.
    #[error("stopped by the peer: code {0}")]
    Stopped(VarInt),
    /// It wasn't opened, or was finished or reset.
    #[error("no such stream is open")]
    UnknownStream,
}
