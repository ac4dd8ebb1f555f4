// Made from crates/qs_text/src/fields.rt by rust/erase; not edited by hand.
//! What a frame holds, as fields with a name and a value.

use crate::shim::String;

use crate::proved::qs_text::largest::Largest;
use crate::proved::qs_text::words::{dir_name, push_code, push_hex, yes_no};
use Field::{Bytes, Code, Number, Word};
use crate::proved::qs_wire::{AckRanges, EcnCounts, Frame};
use crate::shim::alloc::{AllocError, Global};

/// One list for the line that is printed and for its definition.
#[derive(Clone, Copy)]
pub enum Field<'a> {
    Nothing,
    Number(&'static str, u64),
    Code(&'static str, u64),
    Word(&'static str, &'static str),
    Bytes(&'static str, &'a [u8]),
    /// The ranges of an ACK, as the payload spells them below the largest number.
    Ranges(&'static str, Largest, &'a [u8]),
    Ecn(&'static str, EcnCounts),
}

macro_rules! fields {
    ($a:expr $(,)?) => {
        [$a, Field::Nothing, Field::Nothing, Field::Nothing]
    };
    ($a:expr, $b:expr $(,)?) => {
        [$a, $b, Field::Nothing, Field::Nothing]
    };
    ($a:expr, $b:expr, $c:expr $(,)?) => {
        [$a, $b, $c, Field::Nothing]
    };
}

/// In the order in which they are shown.
pub fn fields_of<'a>(frame: &Frame<'a>) -> [Field<'a>; 4] {
    match *frame {
        Frame::Padding | Frame::Ping | Frame::HandshakeDone => [Field::Nothing; 4],
        Frame::Ack {
            largest,
            delay,
            ranges,
            ecn,
        } => ack_fields(largest, delay, ranges, ecn),
        Frame::ResetStream {
            stream,
            code,
            final_size,
        } => {
            fields!(
                Number("stream", stream.value()),
                Number("code", code),
                Number("final", final_size),
            )
        }
        Frame::StopSending { stream, code } => fields!(
            Number("stream", stream.value()),
            Number("code", code)
        ),
        Frame::Crypto { offset, bytes } => fields!(Number("offset", offset), Bytes("bytes", bytes)),
        Frame::NewToken { bytes } => fields!(Bytes("token", bytes)),
        Frame::Stream {
            stream,
            offset,
            fin,
            bytes,
        } => {
            let (fin, bytes) = (Word("fin", yes_no(fin)), Bytes("bytes", bytes));
            [
                Number("stream", stream.value()),
                Number("offset", offset),
                fin,
                bytes,
            ]
        }
        Frame::MaxData { maximum } => fields!(Number("max", maximum)),
        Frame::MaxStreamData { stream, maximum } => fields!(
            Number("stream", stream.value()),
            Number("max", maximum)
        ),
        Frame::MaxStreams { dir, count } | Frame::StreamsBlocked { dir, count } => {
            fields!(Word("dir", dir_name(dir)), Number("count", count))
        }
        Frame::DataBlocked { limit } => fields!(Number("limit", limit)),
        Frame::StreamDataBlocked { stream, limit } => fields!(
            Number("stream", stream.value()),
            Number("limit", limit),
        ),
        Frame::NewConnectionId {
            sequence,
            retire,
            identifier,
            reset_token,
        } => {
            let (id, token) = (Bytes("id", identifier), Bytes("token", reset_token));
            [Number("seq", sequence), Number("retire", retire), id, token]
        }
        Frame::RetireConnectionId { sequence } => fields!(Number("seq", sequence)),
        Frame::PathChallenge { bytes } | Frame::PathResponse { bytes } => fields!(Bytes(
            "bytes", bytes,
        )),
        Frame::ConnectionClose {
            code,
            frame_type,
            reason,
        } => {
            let reason = Bytes("reason", reason);
            fields!(Number("code", code), Code("type", frame_type), reason)
        }
        Frame::ApplicationClose { code, reason } => {
            fields!(Number("code", code), Bytes("reason", reason))
        }
    }
}

fn ack_fields<'a>(
    largest: u64,
    delay: u64,
    ranges: &'a [u8],
    ecn: Option<EcnCounts>,
) -> [Field<'a>; 4] {
    debug_assert!(largest < 1 << 62);
    let largest = Largest::new(largest);
    let counts = match ecn {
        Some(counts) => Field::Ecn("ecn", counts),
        None => Field::Nothing,
    };
    [
        Field::Number("delay", delay),
        Field::Ranges("ranges", largest, ranges),
        counts,
        Field::Nothing,
    ]
}

fn push_field(alloc: Global, text: &mut String, field: Field) -> Result<(), AllocError> {
    match field {
        Field::Nothing => Ok(()),
        Field::Number(name, number) => write!(text, " {name}={number}"),
        Field::Word(name, word) => write!(text, " {name}={word}"),
        Field::Code(name, code) => {
            write!(text, " {name}=")?;
            push_code(text, code)
        }
        Field::Bytes(name, bytes) => {
            write!(text, " {name}=")?;
            push_hex(alloc, text, bytes)
        }
        Field::Ranges(name, largest, ranges) => {
            write!(text, " {name}=")?;
            push_ranges(text, AckRanges::new(largest.number(), ranges))
        }
        Field::Ecn(name, counts) => {
            let (ect0, ect1, ce) = (counts.ect0, counts.ect1, counts.ce);
            write!(text, " {name}={ect0},{ect1},{ce}")
        }
    }
}

/// Appends the fields.
pub fn push_fields(alloc: Global, text: &mut String, fields: &[Field]) -> Result<(), AllocError> {
    for field in fields {
        push_field(alloc, text, *field)?;
    }
    Ok(())
}

fn push_ranges(text: &mut String, ranges: AckRanges) -> Result<(), AllocError> {
    let mut ranges = ranges;
    let Some((smallest, largest)) = ranges.next() else {
        return Ok(());
    };
    write!(text, "{smallest}..{largest}")?;
    while let Some((smallest, largest)) = ranges.next() {
        write!(text, ",{smallest}..{largest}")?;
    }
    Ok(())
}
