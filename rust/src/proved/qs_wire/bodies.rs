// Made from crates/qs_wire/src/bodies.rt by rust/erase; not edited by hand.
//! Reading the fields of each frame, and judging their values once the whole frame is there: a frame that is cut short is cut short,
//! whatever its numbers.

use crate::proved::qs_wire::fault::FaultKind;
use crate::proved::qs_wire::fields::{
    counted_at, counted_if, ecn_if, identifier_at, number_if, plain_at, ranges_at,
};
use crate::proved::qs_wire::frame::Frame;
use crate::proved::qs_wire::frame_type::FrameType;
use crate::proved::qs_wire::stream_id::{Dir, StreamId};
use crate::proved::qs_wire::varint::number_at;

fn ack_at(ecn: bool, bytes: &[u8]) -> Result<(Frame<'_>, &[u8]), FaultKind> {
    let (largest, rest) = number_at(bytes)?;
    let (delay, rest) = number_at(rest)?;
    let (ranges, falls_below_zero, rest) = ranges_at(largest, rest)?;
    let (ecn, rest) = ecn_if(ecn, rest)?;
    if falls_below_zero {
        return Err(FaultKind::BelowZero);
    }
    Ok((
        Frame::Ack {
            largest,
            delay,
            ranges,
            ecn,
        },
        rest,
    ))
}

fn reset_stream_at(bytes: &[u8]) -> Result<(Frame<'_>, &[u8]), FaultKind> {
    let (stream, rest) = number_at(bytes)?;
    let (code, rest) = number_at(rest)?;
    let (final_size, rest) = number_at(rest)?;
    let stream = StreamId::of_varint(stream);
    Ok((
        Frame::ResetStream {
            stream,
            code,
            final_size,
        },
        rest,
    ))
}

fn stop_sending_at(bytes: &[u8]) -> Result<(Frame<'_>, &[u8]), FaultKind> {
    let (stream, rest) = number_at(bytes)?;
    let (code, rest) = number_at(rest)?;
    let stream = StreamId::of_varint(stream);
    Ok((Frame::StopSending { stream, code }, rest))
}

fn ends_in_range(offset: u64, bytes: &[u8]) -> bool {
    match offset.checked_add(bytes.len() as u64) {
        Some(end) => end < 1 << 62,
        None => false,
    }
}

fn crypto_at(bytes: &[u8]) -> Result<(Frame<'_>, &[u8]), FaultKind> {
    let (offset, rest) = number_at(bytes)?;
    let (bytes, rest) = counted_at(rest)?;
    if !ends_in_range(offset, bytes) {
        return Err(FaultKind::OffsetTooLarge);
    }
    Ok((Frame::Crypto { offset, bytes }, rest))
}

fn new_token_at(bytes: &[u8]) -> Result<(Frame<'_>, &[u8]), FaultKind> {
    let (bytes, rest) = counted_at(bytes)?;
    Ok((Frame::NewToken { bytes }, rest))
}

#[inline(always)]
pub(crate) fn stream_at(
    off: bool,
    len: bool,
    fin: bool,
    bytes: &[u8],
) -> Result<(Frame<'_>, &[u8]), FaultKind> {
    let (stream, rest) = number_at(bytes)?;
    let (offset, rest) = number_if(off, rest)?;
    let (bytes, rest) = counted_if(len, rest)?;
    if !ends_in_range(offset, bytes) {
        return Err(FaultKind::OffsetTooLarge);
    }
    let stream = StreamId::of_varint(stream);
    Ok((
        Frame::Stream {
            stream,
            offset,
            fin,
            bytes,
        },
        rest,
    ))
}

fn max_data_at(bytes: &[u8]) -> Result<(Frame<'_>, &[u8]), FaultKind> {
    let (maximum, rest) = number_at(bytes)?;
    Ok((Frame::MaxData { maximum }, rest))
}

fn max_stream_data_at(bytes: &[u8]) -> Result<(Frame<'_>, &[u8]), FaultKind> {
    let (stream, rest) = number_at(bytes)?;
    let (maximum, rest) = number_at(rest)?;
    let stream = StreamId::of_varint(stream);
    Ok((Frame::MaxStreamData { stream, maximum }, rest))
}

fn max_streams_at(dir: Dir, bytes: &[u8]) -> Result<(Frame<'_>, &[u8]), FaultKind> {
    let (count, rest) = number_at(bytes)?;
    if count > 1 << 60 {
        return Err(FaultKind::CountTooLarge);
    }
    Ok((Frame::MaxStreams { dir, count }, rest))
}

fn data_blocked_at(bytes: &[u8]) -> Result<(Frame<'_>, &[u8]), FaultKind> {
    let (limit, rest) = number_at(bytes)?;
    Ok((Frame::DataBlocked { limit }, rest))
}

fn stream_data_blocked_at(bytes: &[u8]) -> Result<(Frame<'_>, &[u8]), FaultKind> {
    let (stream, rest) = number_at(bytes)?;
    let (limit, rest) = number_at(rest)?;
    let stream = StreamId::of_varint(stream);
    Ok((Frame::StreamDataBlocked { stream, limit }, rest))
}

fn streams_blocked_at(dir: Dir, bytes: &[u8]) -> Result<(Frame<'_>, &[u8]), FaultKind> {
    let (count, rest) = number_at(bytes)?;
    if count > 1 << 60 {
        return Err(FaultKind::CountTooLarge);
    }
    Ok((Frame::StreamsBlocked { dir, count }, rest))
}

fn new_connection_id_at(bytes: &[u8]) -> Result<(Frame<'_>, &[u8]), FaultKind> {
    let (sequence, rest) = number_at(bytes)?;
    let (retire, rest) = number_at(rest)?;
    let (identifier, rest) = identifier_at(rest)?;
    let (reset_token, rest) = plain_at(16, rest)?;
    Ok((
        Frame::NewConnectionId {
            sequence,
            retire,
            identifier,
            reset_token,
        },
        rest,
    ))
}

fn retire_connection_id_at(bytes: &[u8]) -> Result<(Frame<'_>, &[u8]), FaultKind> {
    let (sequence, rest) = number_at(bytes)?;
    Ok((Frame::RetireConnectionId { sequence }, rest))
}

fn path_challenge_at(bytes: &[u8]) -> Result<(Frame<'_>, &[u8]), FaultKind> {
    let (bytes, rest) = plain_at(8, bytes)?;
    Ok((Frame::PathChallenge { bytes }, rest))
}

fn path_response_at(bytes: &[u8]) -> Result<(Frame<'_>, &[u8]), FaultKind> {
    let (bytes, rest) = plain_at(8, bytes)?;
    Ok((Frame::PathResponse { bytes }, rest))
}

fn connection_close_at(bytes: &[u8]) -> Result<(Frame<'_>, &[u8]), FaultKind> {
    let (code, rest) = number_at(bytes)?;
    let (frame_type, rest) = number_at(rest)?;
    let (reason, rest) = counted_at(rest)?;
    Ok((
        Frame::ConnectionClose {
            code,
            frame_type,
            reason,
        },
        rest,
    ))
}

fn application_close_at(bytes: &[u8]) -> Result<(Frame<'_>, &[u8]), FaultKind> {
    let (code, rest) = number_at(bytes)?;
    let (reason, rest) = counted_at(rest)?;
    Ok((Frame::ApplicationClose { code, reason }, rest))
}

/// Its values break nothing.
#[inline]
pub(crate) fn body_at(frame_type: FrameType, bytes: &[u8]) -> Result<(Frame<'_>, &[u8]), FaultKind> {
    match frame_type {
        FrameType::Padding => Ok((Frame::Padding, bytes)),
        FrameType::Ping => Ok((Frame::Ping, bytes)),
        FrameType::Ack { ecn } => ack_at(ecn, bytes),
        FrameType::ResetStream => reset_stream_at(bytes),
        FrameType::StopSending => stop_sending_at(bytes),
        FrameType::Crypto => crypto_at(bytes),
        FrameType::NewToken => new_token_at(bytes),
        FrameType::Stream { off, len, fin } => stream_at(off, len, fin, bytes),
        FrameType::MaxData => max_data_at(bytes),
        FrameType::MaxStreamData => max_stream_data_at(bytes),
        FrameType::MaxStreams { dir } => max_streams_at(dir, bytes),
        FrameType::DataBlocked => data_blocked_at(bytes),
        FrameType::StreamDataBlocked => stream_data_blocked_at(bytes),
        FrameType::StreamsBlocked { dir } => streams_blocked_at(dir, bytes),
        FrameType::NewConnectionId => new_connection_id_at(bytes),
        FrameType::RetireConnectionId => retire_connection_id_at(bytes),
        FrameType::PathChallenge => path_challenge_at(bytes),
        FrameType::PathResponse => path_response_at(bytes),
        FrameType::ConnectionClose => connection_close_at(bytes),
        FrameType::ApplicationClose => application_close_at(bytes),
        FrameType::HandshakeDone => Ok((Frame::HandshakeDone, bytes)),
    }
}
