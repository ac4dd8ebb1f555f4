// Made from crates/qs_wire/src/reading.rt by rust/erase; not edited by hand.
//! Reading the frame that begins the bytes.

use crate::proved::qs_wire::bodies::{body_at, stream_at};
use crate::proved::qs_wire::fault::FaultKind;
use crate::proved::qs_wire::frame::Frame;
use crate::proved::qs_wire::frame_type::FrameType;
use crate::proved::qs_wire::varint::{read_varint, varint_len};

/// A fault lacks its place, which only the caller knows.
#[derive(Clone, Copy)]
pub(crate) struct Broken {
    pub(crate) kind: FaultKind,
    pub(crate) frame_type: u64,
}

#[inline(always)]
fn short_type_at(bytes: &[u8]) -> Option<(u64, &[u8])> {
    match bytes.split_first() {
        // One byte has no shorter spelling.
        Some((&first, rest)) if first < 0x40 => Some((u64::from(first), rest)),
        _ => None,
    }
}

fn type_at(bytes: &[u8]) -> Result<(u64, &[u8]), Broken> {
    match short_type_at(bytes) {
        Some(short) => Ok(short),
        None => long_type_at(bytes),
    }
}

/// Apart, since types of more than one byte are rare: they are always a fault here.
fn long_type_at(bytes: &[u8]) -> Result<(u64, &[u8]), Broken> {
    let Some((frame_type, len)) = read_varint(bytes) else {
        return Err(Broken {
            kind: FaultKind::Truncated,
            frame_type: 0,
        });
    };
    if len != varint_len(frame_type) {
        return Err(Broken {
            kind: FaultKind::LongType,
            frame_type,
        });
    }
    Ok((frame_type, &bytes[len..]))
}

#[inline]
pub(crate) fn frame_at(bytes: &[u8]) -> Result<(u64, Frame<'_>, &[u8]), Broken> {
    let (frame_type, rest) = type_at(bytes)?;
    let Some(known) = FrameType::of(frame_type) else {
        return Err(Broken {
            kind: FaultKind::UnknownType,
            frame_type,
        });
    };
    match body_at(known, rest) {
        Ok((frame, rest)) => Ok((frame_type, frame, rest)),
        Err(kind) => Err(Broken { kind, frame_type }),
    }
}

/// The same, if it is a STREAM frame without a fault.
#[inline(always)]
pub(crate) fn stream_frame_at(bytes: &[u8]) -> Option<(u64, Frame<'_>, &[u8])> {
    let (frame_type, rest) = short_type_at(bytes)?;
    let Some(FrameType::Stream { off, len, fin }) = FrameType::of(frame_type) else {
        return None;
    };
    match stream_at(off, len, fin, rest) {
        Ok((frame, rest)) => Some((frame_type, frame, rest)),
        Err(_kind) => None,
    }
}
