// Made from crates/qs_wire/src/writing.rt by rust/erase; not edited by hand.
//! Writing frames. A frame is a list of parts, of which one function knows the length and another the text: so that what is measured is
//! what is written.

use crate::proved::qs_wire::fault::Full;
use crate::proved::qs_wire::frame::{EcnCounts, Frame};
use crate::proved::qs_wire::frame_type::FrameType;
use crate::proved::qs_wire::stream_id::StreamId;
use crate::proved::qs_wire::varint::{read_varint, spell, varint_len};
use Part::{Counted, Counts, Identifier, Number, Plain, Ranges};

#[derive(Clone, Copy)]
pub(crate) enum Part<'a> {
    Nothing,
    Number(u64),
    Plain(&'a [u8]),
    Counted(&'a [u8]),
    /// The bytes behind one byte that counts them: a connection ID's length isn't a variable-length integer.
    Identifier(&'a [u8]),
    /// The numbers that the bytes spell, behind the count of pairs that follow the first. They are read and written anew, so that each gets
    /// its shortest spelling.
    Ranges(&'a [u8]),
    Counts(Option<EcnCounts>),
}

impl<'a> Part<'a> {
    fn len(self) -> usize {
        match self {
            Part::Nothing | Part::Counts(None) => 0,
            Part::Number(value) => varint_len(value),
            Part::Plain(bytes) => bytes.len(),
            Part::Counted(bytes) => varint_len(bytes.len() as u64) + bytes.len(),
            Part::Identifier(bytes) => 1 + bytes.len(),
            Part::Ranges(numbers) => {
                let (count, len) = shortest(numbers);
                varint_len(count / 2) + len
            }
            Part::Counts(Some(counts)) => counts_len(counts),
        }
    }

    fn put(self, at: usize, out: &mut [u8]) -> usize {
        match self {
            Part::Nothing | Part::Counts(None) => at,
            Part::Number(value) => put_number(value, at, out),
            Part::Plain(bytes) => put_bytes(bytes, at, out),
            Part::Counted(bytes) => put_counted(bytes, at, out),
            Part::Identifier(bytes) => put_counted(bytes, at, out),
            Part::Ranges(numbers) => {
                let (count, _) = shortest(numbers);
                let next = put_number(count / 2, at, out);
                put_shortest(numbers, next, out)
            }
            Part::Counts(Some(counts)) => put_counts(counts, at, out),
        }
    }
}

#[inline]
pub(crate) fn put_number(value: u64, at: usize, out: &mut [u8]) -> usize {
    debug_assert!(value < 1 << 62);
    at + spell(value, &mut out[at..])
}

#[inline]
pub(crate) fn put_numbers(numbers: &[u64], out: &mut [u8]) -> usize {
    let mut at = 0;
    for number in numbers {
        at = put_number(*number, at, out);
    }
    at
}

/// Measured before anything is written, so that `Full` leaves the slice as it was.
fn put_fitting(numbers: &[u64], out: &mut [u8]) -> Result<usize, Full> {
    let mut len = 0;
    for number in numbers {
        let more = varint_len(*number);
        if more > out.len() - len {
            return Err(Full);
        }
        len += more;
    }
    Ok(put_numbers(numbers, out))
}

fn put_bytes(bytes: &[u8], at: usize, out: &mut [u8]) -> usize {
    let end = at + bytes.len();
    out[at..end].copy_from_slice(bytes);
    end
}

fn put_counted(bytes: &[u8], at: usize, out: &mut [u8]) -> usize {
    debug_assert!(bytes.len() < 1 << 62);
    let next = put_number(bytes.len() as u64, at, out);
    put_bytes(bytes, next, out)
}

/// Two pieces, as a ring has them, so that no caller joins them first.
#[inline(always)]
fn put_pieces(front: &[u8], back: &[u8], at: usize, out: &mut [u8]) -> usize {
    let count = front.len() + back.len();
    let next = put_number(count as u64, at, out);
    let next = put_bytes(front, next, out);
    // Mostly so, as few chunks go around a ring's end.
    if back.is_empty() {
        return next;
    }
    put_bytes(back, next, out)
}

fn counts_len(counts: EcnCounts) -> usize {
    varint_len(counts.ect0) + varint_len(counts.ect1) + varint_len(counts.ce)
}

fn put_counts(counts: EcnCounts, at: usize, out: &mut [u8]) -> usize {
    let next = put_number(counts.ect0, at, out);
    let next = put_number(counts.ect1, next, out);
    put_number(counts.ce, next, out)
}

fn shortest(numbers: &[u8]) -> (u64, usize) {
    let mut count = 0;
    let mut shortest_len = 0;
    let mut rest = numbers;
    while let Some((value, len)) = read_varint(rest) {
        count += 1;
        shortest_len += varint_len(value);
        let (_, after) = rest.split_at(len);
        rest = after;
    }
    (count, shortest_len)
}

fn put_shortest(numbers: &[u8], at: usize, out: &mut [u8]) -> usize {
    let mut next = at;
    let mut rest = numbers;
    while let Some((value, len)) = read_varint(rest) {
        next = put_number(value, next, out);
        let (_, after) = rest.split_at(len);
        rest = after;
    }
    next
}

/// Four fields are the most that a frame has here.
fn parts<'a>(
    frame_type: FrameType,
    a: Part<'a>,
    b: Part<'a>,
    c: Part<'a>,
    d: Part<'a>,
) -> [Part<'a>; 5] {
    [Part::Number(frame_type.number()), a, b, c, d]
}

const NONE: Part<'static> = Part::Nothing;

macro_rules! parts {
    ($frame_type:expr $(,)?) => {
        parts($frame_type, NONE, NONE, NONE, NONE)
    };
    ($frame_type:expr, $a:expr $(,)?) => {
        parts($frame_type, $a, NONE, NONE, NONE)
    };
    ($frame_type:expr, $a:expr, $b:expr $(,)?) => {
        parts($frame_type, $a, $b, NONE, NONE)
    };
    ($frame_type:expr, $a:expr, $b:expr, $c:expr $(,)?) => {
        parts($frame_type, $a, $b, $c, NONE)
    };
    ($frame_type:expr, $a:expr, $b:expr, $c:expr, $d:expr $(,)?) => {
        parts($frame_type, $a, $b, $c, $d)
    };
}

fn parts_of<'a>(frame: &Frame<'a>) -> [Part<'a>; 5] {
    match *frame {
        Frame::Padding => parts!(FrameType::Padding),
        Frame::Ping => parts!(FrameType::Ping),
        Frame::Ack {
            largest,
            delay,
            ranges,
            ecn,
        } => parts!(
            FrameType::Ack { ecn: ecn.is_some() },
            Number(largest),
            Number(delay),
            Ranges(ranges),
            Counts(ecn)
        ),
        Frame::ResetStream {
            stream,
            code,
            final_size,
        } => parts!(
            FrameType::ResetStream,
            Number(stream.value()),
            Number(code),
            Number(final_size)
        ),
        Frame::StopSending { stream, code } => parts!(
            FrameType::StopSending,
            Number(stream.value()),
            Number(code)
        ),
        Frame::Crypto { offset, bytes } => parts!(
            FrameType::Crypto,
            Number(offset),
            Counted(bytes)
        ),
        Frame::NewToken { bytes } => parts!(FrameType::NewToken, Counted(bytes)),
        Frame::Stream {
            stream,
            offset,
            fin,
            bytes,
        } => parts!(
            FrameType::Stream {
                off: offset > 0,
                len: true,
                fin
            },
            Number(stream.value()),
            number_if(offset > 0, offset),
            Counted(bytes)
        ),
        Frame::MaxData { maximum } => parts!(FrameType::MaxData, Number(maximum)),
        Frame::MaxStreamData { stream, maximum } => parts!(
            FrameType::MaxStreamData,
            Number(stream.value()),
            Number(maximum)
        ),
        Frame::MaxStreams { dir, count } => parts!(FrameType::MaxStreams { dir }, Number(count)),
        Frame::DataBlocked { limit } => parts!(FrameType::DataBlocked, Number(limit)),
        Frame::StreamDataBlocked { stream, limit } => parts!(
            FrameType::StreamDataBlocked,
            Number(stream.value()),
            Number(limit)
        ),
        Frame::StreamsBlocked { dir, count } => parts!(
            FrameType::StreamsBlocked { dir },
            Number(count)
        ),
        Frame::NewConnectionId {
            sequence,
            retire,
            identifier,
            reset_token,
        } => parts!(
            FrameType::NewConnectionId,
            Number(sequence),
            Number(retire),
            Identifier(identifier),
            Plain(reset_token)
        ),
        Frame::RetireConnectionId { sequence } => parts!(
            FrameType::RetireConnectionId,
            Number(sequence)
        ),
        Frame::PathChallenge { bytes } => parts!(FrameType::PathChallenge, Plain(bytes)),
        Frame::PathResponse { bytes } => parts!(FrameType::PathResponse, Plain(bytes)),
        Frame::ConnectionClose {
            code,
            frame_type,
            reason,
        } => parts!(
            FrameType::ConnectionClose,
            Number(code),
            Number(frame_type),
            Counted(reason)
        ),
        Frame::ApplicationClose { code, reason } => parts!(
            FrameType::ApplicationClose,
            Number(code),
            Counted(reason)
        ),
        Frame::HandshakeDone => parts!(FrameType::HandshakeDone),
    }
}

fn number_if<'a>(there: bool, value: u64) -> Part<'a> {
    debug_assert!(value < 1 << 62);
    if there {
        Part::Number(value)
    } else {
        Part::Nothing
    }
}

/// None as soon as the room is too small, so the sum can't overflow.
#[inline]
pub(crate) fn len_within(parts: &[Part], room: usize) -> Option<usize> {
    let mut len = 0;
    for part in parts {
        let part_len = part.len();
        if part_len > room - len {
            return None;
        }
        len += part_len;
    }
    Some(len)
}

#[inline]
pub(crate) fn put_parts(parts: &[Part], out: &mut [u8]) {
    let mut at = 0;
    for part in parts {
        at = part.put(at, out);
    }
}

fn len_if(there: bool, value: u64) -> usize {
    debug_assert!(value < 1 << 62);
    if there { varint_len(value) } else { 0 }
}

#[inline(always)]
fn put_number_if(there: bool, value: u64, at: usize, out: &mut [u8]) -> usize {
    debug_assert!(value < 1 << 62);
    if there {
        put_number(value, at, out)
    } else {
        at
    }
}

/// Writes the canonical text of a STREAM frame at the slice's front, as `put` does, with the bytes of a front and a back: a ring has them
/// in two pieces (RFC 9000, section 19.8). Most bytes go in such a frame, so it is written without a list of parts.
#[inline]
pub fn put_stream(
    id: StreamId,
    offset: u64,
    fin: bool,
    front: &[u8],
    back: &[u8],
    out: &mut [u8],
) -> Result<usize, Full> {
    let off = offset > 0;
    let frame_type = FrameType::Stream {
        off,
        len: true,
        fin,
    };
    let count = front.len() + back.len();
    let head = 1 + varint_len(id.value()) + len_if(off, offset);
    let len = head + varint_len(count as u64) + count;
    if len > out.len() {
        return Err(Full);
    }
    let next = put_number(frame_type.number(), 0, out);
    let next = put_number(id.value(), next, out);
    let next = put_number_if(off, offset, next, out);
    Ok(put_pieces(front, back, next, out))
}

fn put_any(frame: &Frame, out: &mut [u8]) -> Result<usize, Full> {
    let parts = parts_of(frame);
    let len = len_within(&parts, out.len()).ok_or(Full)?;
    put_parts(&parts, out);
    Ok(len)
}

/// Writes the canonical text of a frame at the slice's front and returns its length in bytes: each number in its shortest spelling; of a
/// STREAM frame the length always, and the offset if that isn't 0. If the text does not fit, nothing is written.
#[inline]
pub fn put(frame: &Frame, out: &mut [u8]) -> Result<usize, Full> {
    match *frame {
        Frame::Stream {
            stream,
            offset,
            fin,
            bytes,
        } => put_stream(stream, offset, fin, bytes, &[], out),
        // What an endpoint sends most often goes without a list of parts.
        Frame::MaxData { maximum } => put_fitting(&[FrameType::MaxData.number(), maximum], out),
        Frame::MaxStreamData { stream, maximum } => put_fitting(
            &[FrameType::MaxStreamData.number(), stream.value(), maximum],
            out,
        ),
        _ => put_any(frame, out),
    }
}
