// Made from crates/qs_c/src/puts.rt by rust/erase; not edited by hand.
use crate::proved::qs_c::answers::{FULL, INVALID, OK};
use crate::proved::qs_c::frame::GvFrame;
use crate::proved::qs_c::reads::{numbers_in, skip};
use crate::proved::qs_wire::{Dir, EcnCounts, Frame, StreamId, put, read_varint};

const LIMIT: u64 = 1 << 62;

const MOST_STREAMS: u64 = 1 << 60;

const ACK: u32 = 2;

const HANDSHAKE_DONE: u32 = 20;

pub(crate) fn put_frame(
    frame: &GvFrame,
    bytes: &[u8],
    token: &[u8],
    out: &mut [u8],
    len: &mut usize,
) -> u32 {
    if !is_known(frame) {
        return INVALID;
    }
    let Some(given) = frame_of(frame, bytes, token) else {
        return INVALID;
    };
    if !fits(&given) || !is_whole(frame.kind, bytes) {
        return INVALID;
    }
    let Ok(written) = put(&given, out) else {
        return FULL;
    };
    *len = written;
    OK
}

/// Checked before a frame is made of it, since other numbers mean none.
pub(crate) fn is_known(frame: &GvFrame) -> bool {
    frame.kind <= HANDSHAKE_DONE && frame.dir <= 1
}

/// `None` if its stream has no number: the types of the source rule that out, those of C don't.
pub(crate) fn frame_of<'a>(frame: &GvFrame, bytes: &'a [u8], token: &'a [u8]) -> Option<Frame<'a>> {
    let stream = StreamId::new(frame.stream);
    Some(match frame.kind {
        0 => Frame::Padding,
        1 => Frame::Ping,
        2 => Frame::Ack {
            largest: frame.largest,
            delay: frame.delay,
            ranges: bytes,
            ecn: counts_of(frame),
        },
        3 => Frame::ResetStream {
            stream: stream?,
            code: frame.code,
            final_size: frame.final_size,
        },
        4 => Frame::StopSending {
            stream: stream?,
            code: frame.code,
        },
        5 => Frame::Crypto {
            offset: frame.offset,
            bytes,
        },
        6 => Frame::NewToken { bytes },
        7 => Frame::Stream {
            stream: stream?,
            offset: frame.offset,
            fin: frame.fin,
            bytes,
        },
        8 => Frame::MaxData {
            maximum: frame.limit,
        },
        9 => Frame::MaxStreamData {
            stream: stream?,
            maximum: frame.limit,
        },
        10 => Frame::MaxStreams {
            dir: dir_in(frame.dir),
            count: frame.limit,
        },
        11 => Frame::DataBlocked { limit: frame.limit },
        12 => Frame::StreamDataBlocked {
            stream: stream?,
            limit: frame.limit,
        },
        13 => Frame::StreamsBlocked {
            dir: dir_in(frame.dir),
            count: frame.limit,
        },
        14 => Frame::NewConnectionId {
            sequence: frame.sequence,
            retire: frame.retire,
            identifier: bytes,
            reset_token: token,
        },
        15 => Frame::RetireConnectionId {
            sequence: frame.sequence,
        },
        16 => Frame::PathChallenge { bytes },
        17 => Frame::PathResponse { bytes },
        18 => Frame::ConnectionClose {
            code: frame.code,
            frame_type: frame.at_fault,
            reason: bytes,
        },
        19 => Frame::ApplicationClose {
            code: frame.code,
            reason: bytes,
        },
        _ => Frame::HandshakeDone,
    })
}

fn dir_in(dir: u32) -> Dir {
    match dir {
        0 => Dir::Bidi,
        _ => Dir::Uni,
    }
}

fn counts_of(frame: &GvFrame) -> Option<EcnCounts> {
    if frame.has_ecn {
        Some(EcnCounts {
            ect0: frame.ect0,
            ect1: frame.ect1,
            ce: frame.ce,
        })
    } else {
        None
    }
}

/// What the writer below requires. A caller in C needn't know it, and gets `Invalid`.
fn fits(frame: &Frame) -> bool {
    match *frame {
        Frame::Padding => true,
        Frame::Ping => true,
        Frame::Ack {
            largest,
            delay,
            ranges,
            ecn,
        } => delay < LIMIT && are_ranges(largest, ranges) && counts_fit(ecn),
        Frame::ResetStream {
            stream,
            code,
            final_size,
        } => stream.value() < LIMIT && code < LIMIT && final_size < LIMIT,
        Frame::StopSending { stream, code } => stream.value() < LIMIT && code < LIMIT,
        Frame::Crypto { offset, bytes } => end_fits(offset, bytes),
        Frame::NewToken { bytes } => end_fits(0, bytes),
        Frame::Stream {
            stream,
            offset,
            bytes,
            ..
        } => stream.value() < LIMIT && end_fits(offset, bytes),
        Frame::MaxData { maximum } => maximum < LIMIT,
        Frame::MaxStreamData { stream, maximum } => stream.value() < LIMIT && maximum < LIMIT,
        Frame::MaxStreams { count, .. } => count <= MOST_STREAMS,
        Frame::DataBlocked { limit } => limit < LIMIT,
        Frame::StreamDataBlocked { stream, limit } => stream.value() < LIMIT && limit < LIMIT,
        Frame::StreamsBlocked { count, .. } => count <= MOST_STREAMS,
        Frame::NewConnectionId {
            sequence,
            retire,
            identifier,
            reset_token,
        } => {
            let len = identifier.len();
            sequence < LIMIT && retire < LIMIT && len >= 1 && len <= 20 && reset_token.len() == 16
        }
        Frame::RetireConnectionId { sequence } => sequence < LIMIT,
        Frame::PathChallenge { bytes } => bytes.len() == 8,
        Frame::PathResponse { bytes } => bytes.len() == 8,
        Frame::ConnectionClose {
            code,
            frame_type,
            reason,
        } => code < LIMIT && frame_type < LIMIT && end_fits(0, reason),
        Frame::ApplicationClose { code, reason } => code < LIMIT && end_fits(0, reason),
        Frame::HandshakeDone => true,
    }
}

fn end_fits(offset: u64, bytes: &[u8]) -> bool {
    let len = bytes.len() as u64;
    len < LIMIT && offset < LIMIT - len
}

fn counts_fit(ecn: Option<EcnCounts>) -> bool {
    match ecn {
        Some(counts) => counts.ect0 < LIMIT && counts.ect1 < LIMIT && counts.ce < LIMIT,
        None => true,
    }
}

/// C passes ranges as bytes, so they may be anything.
fn are_ranges(largest: u64, bytes: &[u8]) -> bool {
    if largest >= LIMIT {
        return false;
    }
    let count = numbers_in(bytes);
    if count % 2 == 0 {
        return false;
    }
    !falls_below_zero(largest, bytes)
}

/// The last number may be cut short, and then no frame has these bytes.
fn is_whole(kind: u32, bytes: &[u8]) -> bool {
    kind != ACK || skip(numbers_in(bytes), bytes) == bytes.len()
}

fn falls_below_zero(largest: u64, numbers: &[u8]) -> bool {
    debug_assert!(largest < 1 << 62);
    let mut left = largest + 1;
    let mut rest = numbers;
    while let Some((value, len)) = read_varint(rest) {
        if value >= left {
            return true;
        }
        left -= value + 1;
        let (_, after) = rest.split_at(len);
        rest = after;
    }
    false
}
