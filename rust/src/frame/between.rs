//! Frames of this crate and of the proved source, each as the other. Two types, so that the public one can keep its names when the source's
//! change.

use super::{EcnCounts, Frame};
use crate::ids::{Dir, StreamId};
use crate::proved::qs_wire as wire;

impl<'a> Frame<'a> {
    /// Whether it is of streams or flow control, so that an endpoint takes it alone.
    pub(crate) fn is_of_end(&self) -> bool {
        matches!(
            self,
            Frame::ResetStream { .. }
                | Frame::StopSending { .. }
                | Frame::Stream { .. }
                | Frame::MaxData { .. }
                | Frame::MaxStreamData { .. }
                | Frame::MaxStreams { .. }
                | Frame::DataBlocked { .. }
                | Frame::StreamDataBlocked { .. }
                | Frame::StreamsBlocked { .. }
        )
    }

    #[inline]
    pub(super) fn of(frame: wire::Frame<'a>) -> Frame<'a> {
        match frame {
            wire::Frame::Padding => Frame::Padding,
            wire::Frame::Ping => Frame::Ping,
            wire::Frame::Ack {
                largest,
                delay,
                ranges,
                ecn,
            } => Frame::Ack {
                largest,
                delay,
                ranges,
                ecn: ecn.map(EcnCounts::of),
            },
            wire::Frame::ResetStream {
                stream,
                code,
                final_size,
            } => Frame::ResetStream {
                stream: StreamId::of(stream),
                code,
                final_size,
            },
            wire::Frame::StopSending { stream, code } => Frame::StopSending {
                stream: StreamId::of(stream),
                code,
            },
            wire::Frame::Crypto { offset, bytes } => Frame::Crypto { offset, bytes },
            wire::Frame::NewToken { bytes } => Frame::NewToken { bytes },
            wire::Frame::Stream {
                stream,
                offset,
                fin,
                bytes,
            } => Frame::Stream {
                stream: StreamId::of(stream),
                offset,
                fin,
                bytes,
            },
            wire::Frame::MaxData { maximum } => Frame::MaxData { maximum },
            wire::Frame::MaxStreamData { stream, maximum } => Frame::MaxStreamData {
                stream: StreamId::of(stream),
                maximum,
            },
            wire::Frame::MaxStreams { dir, count } => Frame::MaxStreams {
                dir: Dir::of(dir),
                count,
            },
            wire::Frame::DataBlocked { limit } => Frame::DataBlocked { limit },
            wire::Frame::StreamDataBlocked { stream, limit } => Frame::StreamDataBlocked {
                stream: StreamId::of(stream),
                limit,
            },
            wire::Frame::StreamsBlocked { dir, count } => Frame::StreamsBlocked {
                dir: Dir::of(dir),
                count,
            },
            wire::Frame::NewConnectionId {
                sequence,
                retire,
                identifier,
                reset_token,
            } => Frame::NewConnectionId {
                sequence,
                retire,
                identifier,
                reset_token,
            },
            wire::Frame::RetireConnectionId { sequence } => Frame::RetireConnectionId { sequence },
            wire::Frame::PathChallenge { bytes } => Frame::PathChallenge { bytes },
            wire::Frame::PathResponse { bytes } => Frame::PathResponse { bytes },
            wire::Frame::ConnectionClose {
                code,
                frame_type,
                reason,
            } => Frame::ConnectionClose {
                code,
                frame_type,
                reason,
            },
            wire::Frame::ApplicationClose { code, reason } => {
                Frame::ApplicationClose { code, reason }
            }
            wire::Frame::HandshakeDone => Frame::HandshakeDone,
        }
    }

    pub(crate) fn inner(&self) -> wire::Frame<'a> {
        match *self {
            Frame::Padding => wire::Frame::Padding,
            Frame::Ping => wire::Frame::Ping,
            Frame::Ack {
                largest,
                delay,
                ranges,
                ecn,
            } => wire::Frame::Ack {
                largest,
                delay,
                ranges,
                ecn: ecn.map(EcnCounts::inner),
            },
            Frame::ResetStream {
                stream,
                code,
                final_size,
            } => wire::Frame::ResetStream {
                stream: stream.inner(),
                code,
                final_size,
            },
            Frame::StopSending { stream, code } => wire::Frame::StopSending {
                stream: stream.inner(),
                code,
            },
            Frame::Crypto { offset, bytes } => wire::Frame::Crypto { offset, bytes },
            Frame::NewToken { bytes } => wire::Frame::NewToken { bytes },
            Frame::Stream {
                stream,
                offset,
                fin,
                bytes,
            } => wire::Frame::Stream {
                stream: stream.inner(),
                offset,
                fin,
                bytes,
            },
            Frame::MaxData { maximum } => wire::Frame::MaxData { maximum },
            Frame::MaxStreamData { stream, maximum } => wire::Frame::MaxStreamData {
                stream: stream.inner(),
                maximum,
            },
            Frame::MaxStreams { dir, count } => wire::Frame::MaxStreams {
                dir: dir.inner(),
                count,
            },
            Frame::DataBlocked { limit } => wire::Frame::DataBlocked { limit },
            Frame::StreamDataBlocked { stream, limit } => wire::Frame::StreamDataBlocked {
                stream: stream.inner(),
                limit,
            },
            Frame::StreamsBlocked { dir, count } => wire::Frame::StreamsBlocked {
                dir: dir.inner(),
                count,
            },
            Frame::NewConnectionId {
                sequence,
                retire,
                identifier,
                reset_token,
            } => wire::Frame::NewConnectionId {
                sequence,
                retire,
                identifier,
                reset_token,
            },
            Frame::RetireConnectionId { sequence } => wire::Frame::RetireConnectionId { sequence },
            Frame::PathChallenge { bytes } => wire::Frame::PathChallenge { bytes },
            Frame::PathResponse { bytes } => wire::Frame::PathResponse { bytes },
            Frame::ConnectionClose {
                code,
                frame_type,
                reason,
            } => wire::Frame::ConnectionClose {
                code,
                frame_type,
                reason,
            },
            Frame::ApplicationClose { code, reason } => {
                wire::Frame::ApplicationClose { code, reason }
            }
            Frame::HandshakeDone => wire::Frame::HandshakeDone,
        }
    }
}
