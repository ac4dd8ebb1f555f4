//! quinn-proto's streams over gotsavena: what quinn's applications call.
//!
//! `state` is what quinn's connection calls: frames in, packets out, acknowledged and lost.
use bytes::Bytes;
use gotsavena::{RecvReport, RecvState, SendState};
use thiserror::Error;

use super::spaces::Retransmits;
use crate::{Dir, StreamId, VarInt};

mod read;
mod state;
mod write;

pub use read::{Chunks, ReadError, ReadableError};
pub use state::{told, Carried, StreamsState, MOST_DATA, MOST_STREAMS, MOST_STREAM_DATA};
pub use write::{ByteSlice, BytesArray, BytesSource, FinishError, WriteError, Written};

/// The streams of a connection, to open and to accept.
pub struct Streams<'a> {
    pub(super) state: &'a mut StreamsState,
    pub(super) conn_state: &'a super::State,
}

impl Streams<'_> {
    /// Opens a stream, if the peer permits one more.
    pub fn open(&mut self, dir: Dir) -> Option<StreamId> {
        let end = &mut self.state.end;
        // If none is left the call would send STREAMS_BLOCKED, which quinn doesn't.
        if self.conn_state.is_closed() || end.open_left(theirs(dir)) == 0 {
            return None;
        }
        match end.open(theirs(dir)) {
            Ok(stream) => {
                self.state.send_streams += 1;
                if dir == Dir::Bi {
                    self.state.opened_bidi();
                }
                Some(quinns(stream))
            }
            Err(_) => {
                self.state.lacks_memory();
                None
            }
        }
    }

    /// Returns a stream of the peer.
    pub fn accept(&mut self, dir: Dir) -> Option<StreamId> {
        let stream = self.state.end.accept_of(theirs(dir))?;
        if dir == Dir::Bi {
            self.state.send_streams += 1;
        }
        Some(quinns(stream))
    }

    /// How many streams may have bytes that aren't acknowledged.
    pub fn send_streams(&self) -> usize {
        self.state.send_streams
    }
}

/// The receiving half of a stream.
pub struct RecvStream<'a> {
    pub(super) id: StreamId,
    pub(super) state: &'a mut StreamsState,
    pub(super) pending: &'a mut Retransmits,
}

impl RecvStream<'_> {
    /// Begins to read. Chunks come in order, asked for or not: the layer keeps no others.
    pub fn read(&mut self, _ordered: bool) -> Result<Chunks<'_>, ReadableError> {
        match self.state.is_read(self.id) {
            true => Ok(Chunks { id: self.id, streams: self.state }),
            false => Err(ReadableError::UnknownStream),
        }
    }

    /// Discards what arrives, and asks the peer to stop.
    pub fn stop(&mut self, error_code: VarInt) -> Result<(), UnknownStream> {
        if !self.state.is_read(self.id) {
            return Err(UnknownStream(()));
        }
        let stopped = self.state.end.stop_and_discard(ours(self.id), error_code.into());
        stopped.map_err(|_| UnknownStream(()))
    }
}

/// The sending half of a stream.
pub struct SendStream<'a> {
    pub(super) id: StreamId,
    pub(super) state: &'a mut StreamsState,
    pub(super) pending: &'a mut Retransmits,
    pub(super) conn_state: &'a super::State,
}

impl SendStream<'_> {
    /// Writes the front of the bytes, and returns how many.
    pub fn write(&mut self, data: &[u8]) -> Result<usize, WriteError> {
        self.open()?;
        self.state.write(self.id, data)
    }

    /// The same of chunks: those that were written are taken out of the slice.
    pub fn write_chunks(&mut self, data: &mut [Bytes]) -> Result<Written, WriteError> {
        self.open()?;
        self.state.write_all_of(self.id, &mut BytesArray::from_chunks(data))
    }

    // (nothing is written once the connection closed)
    fn open(&self) -> Result<(), WriteError> {
        (!self.conn_state.is_closed()).then_some(()).ok_or(WriteError::Blocked)
    }

    /// The code with which the peer asked to stop, if it did.
    pub fn stopped(&mut self) -> Result<Option<VarInt>, UnknownStream> {
        self.alive()?;
        Ok(self.state.end.stopped_with(ours(self.id)).map(code_of))
    }

    /// Ends the stream after what was written.
    pub fn finish(&mut self) -> Result<(), FinishError> {
        if let Some(code) = self.state.stop_code(self.id) {
            return Err(FinishError::Stopped(code));
        }
        self.state.waiting.clear();
        let finished = self.state.end.finish(ours(self.id));
        finished.map_err(|_| FinishError::UnknownStream)
    }

    /// Resets the stream.
    pub fn reset(&mut self, error_code: VarInt) -> Result<(), UnknownStream> {
        let reset = self.state.end.reset(ours(self.id), error_code.into());
        // (its bytes leave room to others)
        self.state.has_news = true;
        reset.map_err(|_| UnknownStream(()))
    }

    /// Which streams go first: kept here, since the layer has no order of its own.
    pub fn set_priority(&mut self, priority: i32) -> Result<(), UnknownStream> {
        self.alive()?;
        self.state.priorities.insert(self.id, priority);
        self.state.waiting.clear();
        Ok(())
    }

    /// The priority that was set, or 0.
    pub fn priority(&self) -> Result<i32, UnknownStream> {
        self.alive()?;
        Ok(self.state.priority(self.id))
    }

    fn alive(&self) -> Result<(), UnknownStream> {
        match self.state.send_state(self.id) {
            None | Some(SendState::DataRecvd | SendState::ResetRecvd) => Err(UnknownStream(())),
            Some(_) => Ok(()),
        }
    }
}

impl StreamsState {
    // What the peer may still open counts, as quinn makes halves in advance.
    fn is_read(&self, id: StreamId) -> bool {
        let stream = ours(id);
        match self.end.report(stream).map(|report| report.recv) {
            None => {
                id.initiator() != self.side && id.index() < self.end.granted_streams(stream.dir())
            }
            Some(
                Some(RecvReport { state: RecvState::DataRead | RecvState::ResetRead, .. }) | None,
            ) => false,
            Some(Some(half)) => half.stop_code.is_none(),
        }
    }
}

/// An event for the application.
#[derive(Debug, PartialEq, Eq)]
pub enum StreamEvent {
    /// The peer opened streams.
    Opened { dir: Dir },
    /// There is something to read.
    Readable { id: StreamId },
    /// A write that was refused would be accepted now.
    Writable { id: StreamId },
    /// Everything of a finished stream is acknowledged.
    Finished { id: StreamId },
    /// The peer asked to stop, with this code.
    Stopped { id: StreamId, error_code: VarInt },
    /// More streams may be opened.
    Available { dir: Dir },
}

/// Whether something is to be sent now, so that the connection's driver wakes.
#[derive(Copy, Clone, Debug, Default, Eq, PartialEq)]
#[must_use = "the connection may have to be polled"]
pub struct ShouldTransmit(bool);

impl ShouldTransmit {
    /// Whether it is.
    pub fn should_transmit(self) -> bool {
        self.0
    }
}

/// The stream wasn't opened, or is over.
#[derive(Debug, Error, Clone, PartialEq, Eq)]
#[error("no such stream is open")]
pub struct UnknownStream(());

// Two types, since neither crate knows the other.

fn ours(id: StreamId) -> gotsavena::StreamId {
    gotsavena::StreamId::new(id.0).expect("below 2^62")
}

fn quinns(stream: gotsavena::StreamId) -> StreamId {
    StreamId(stream.value())
}

fn theirs(dir: Dir) -> gotsavena::Dir {
    match dir {
        Dir::Bi => gotsavena::Dir::Bidi,
        Dir::Uni => gotsavena::Dir::Uni,
    }
}

fn code_of(code: u64) -> VarInt {
    VarInt::from_u64(code).expect("below 2^62")
}
