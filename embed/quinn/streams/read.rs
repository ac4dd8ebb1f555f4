//! Reading a stream in chunks.
use gotsavena::{Peek, Read};
use thiserror::Error;

use super::{code_of, ours, ShouldTransmit, StreamId, StreamsState};
use crate::connection::assembler::Chunk;
use crate::VarInt;

// Chunks are copied, as quinn hands out bytes that outlive the stream; so one is no longer than this.
const MOST: usize = 1 << 16;
// Up to so many bytes a copy costs less than one more call.
const LAST: usize = 1 << 12;

/// What there is to read of a stream.
pub struct Chunks<'a> {
    pub(super) id: StreamId,
    pub(super) streams: &'a mut StreamsState,
}

impl Chunks<'_> {
    /// The next bytes, at most so many; `None` at the end.
    pub fn next(&mut self, max_length: usize) -> Result<Option<Chunk>, ReadError> {
        let (stream, end) = (ours(self.id), &mut self.streams.end);
        let mut bytes = match end.peek(stream) {
            Ok(Peek::Bytes(front, _)) => front[..front.len().min(max_length).min(MOST)].to_vec(),
            Ok(Peek::Wait) => return Err(ReadError::Blocked),
            _ => Vec::new(),
        };
        let offset = if bytes.is_empty() { 0 } else { end.taken(stream).unwrap_or(0) };
        // The front is consumed and the last bytes are read: to consume up to the end would count that as read, too, which quinn does by a
        // call of its own.
        let most = bytes.len().saturating_sub(LAST);
        if most > 0 {
            let _ = end.consume(stream, most);
        }
        match end.read(stream, &mut bytes[most..]) {
            Ok(Read::Bytes(count)) if count > 0 => Ok(Some(Chunk { offset, bytes: bytes.into() })),
            Ok(Read::End) => Ok(None),
            Ok(Read::Reset(code)) => Err(ReadError::Reset(code_of(code))),
            Ok(Read::Bytes(_) | Read::Wait) | Err(_) => Err(ReadError::Blocked),
        }
    }

    /// Ends the reading; whether new limits are to be sent.
    pub fn finalize(self) -> ShouldTransmit {
        ShouldTransmit(self.streams.is_sendable())
    }
}

/// Why nothing was read.
#[derive(Debug, Error, Clone, Eq, PartialEq, Ord, PartialOrd, Hash)]
pub enum ReadError {
    /// Nothing is there yet.
    #[error("nothing to read yet")]
    Blocked,
    /// The peer reset the stream, with this code.
    #[error("broken off by the peer: code {0}")]
    Reset(VarInt),
}

/// Why no reading begins.
#[derive(Debug, Error, Clone, Eq, PartialEq, Ord, PartialOrd, Hash)]
pub enum ReadableError {
    /// The stream wasn't opened, or was stopped or read to its end.
    #[error("no such stream is open")]
    UnknownStream,
    /// Never here: all reading is in order.
    #[error("read in order after out of order")]
    IllegalOrderedRead,
}
