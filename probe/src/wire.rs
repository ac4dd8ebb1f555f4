//! The text of frames (RFC 9000, section 19), right or wrong.

use gotsavena::{Dir, Role, StreamId, write_varint};
use std::fmt::Write as _;

/// The greatest number that a frame can hold (RFC 9000, section 16).
pub const MOST: u64 = (1 << 62) - 1;

pub const ACK: u64 = 0x02;
pub const RESET_STREAM: u64 = 0x04;
pub const STOP_SENDING: u64 = 0x05;
pub const CRYPTO: u64 = 0x06;
pub const STREAM: u64 = 0x0e;
pub const FIN: u64 = 0x01;
pub const MAX_DATA: u64 = 0x10;
pub const MAX_STREAM_DATA: u64 = 0x11;
pub const MAX_STREAMS: u64 = 0x12;
pub const DATA_BLOCKED: u64 = 0x14;
pub const STREAM_DATA_BLOCKED: u64 = 0x15;
pub const STREAMS_BLOCKED: u64 = 0x16;

pub fn push_varint(out: &mut Vec<u8>, value: u64) {
    let mut text = [0; 8];
    let len = write_varint(value, &mut text).unwrap_or(0);
    out.extend_from_slice(&text[..len]);
}

/// A number in eight bytes, however small it is.
pub fn push_long(out: &mut Vec<u8>, value: u64) {
    out.extend_from_slice(&(value | 3 << 62).to_be_bytes());
}

/// A frame that is its type and some numbers.
pub fn frame(kind: u64, numbers: &[u64]) -> Vec<u8> {
    let mut out = Vec::new();
    push_varint(&mut out, kind);
    for number in numbers {
        push_varint(&mut out, *number);
    }
    out
}

pub fn stream_frame(stream: u64, offset: u64, bytes: &[u8], fin: bool) -> Vec<u8> {
    let kind = STREAM | if fin { FIN } else { 0 };
    let mut out = frame(kind, &[stream, offset, bytes.len() as u64]);
    out.extend_from_slice(bytes);
    out
}

/// The byte at an offset of a stream, where no application has to read it.
pub fn byte_at(stream: u64, offset: u64) -> u8 {
    (offset as u8).wrapping_add(stream as u8)
}

pub fn stream_number(initiator: Role, dir: Dir, index: u64) -> u64 {
    StreamId::from_parts(initiator, dir, index).map_or(MOST, StreamId::value)
}

/// The name of a type as section 19 has it.
pub fn name(kind: u64) -> &'static str {
    match kind {
        0x00 => "PADDING",
        0x01 => "PING",
        0x02 | 0x03 => "ACK",
        0x04 => "RESET_STREAM",
        0x05 => "STOP_SENDING",
        0x06 => "CRYPTO",
        0x07 => "NEW_TOKEN",
        0x08..=0x0f => "STREAM",
        0x10 => "MAX_DATA",
        0x11 => "MAX_STREAM_DATA",
        0x12 | 0x13 => "MAX_STREAMS",
        0x14 => "DATA_BLOCKED",
        0x15 => "STREAM_DATA_BLOCKED",
        0x16 | 0x17 => "STREAMS_BLOCKED",
        0x18 => "NEW_CONNECTION_ID",
        0x19 => "RETIRE_CONNECTION_ID",
        0x1a => "PATH_CHALLENGE",
        0x1b => "PATH_RESPONSE",
        0x1c | 0x1d => "CONNECTION_CLOSE",
        0x1e => "HANDSHAKE_DONE",
        _ => "a frame of unknown type",
    }
}

/// The name of an error code of QUIC's (section 20.1).
pub fn code_name(code: u64) -> &'static str {
    match code {
        0x00 => "NO_ERROR",
        0x01 => "INTERNAL_ERROR",
        0x02 => "CONNECTION_REFUSED",
        0x03 => "FLOW_CONTROL_ERROR",
        0x04 => "STREAM_LIMIT_ERROR",
        0x05 => "STREAM_STATE_ERROR",
        0x06 => "FINAL_SIZE_ERROR",
        0x07 => "FRAME_ENCODING_ERROR",
        0x08 => "TRANSPORT_PARAMETER_ERROR",
        0x09 => "CONNECTION_ID_LIMIT_ERROR",
        0x0a => "PROTOCOL_VIOLATION",
        0x0b => "INVALID_TOKEN",
        0x0c => "APPLICATION_ERROR",
        0x0d => "CRYPTO_BUFFER_EXCEEDED",
        0x0e => "KEY_UPDATE_ERROR",
        0x0f => "AEAD_LIMIT_REACHED",
        0x10 => "NO_VIABLE_PATH",
        _ => "an unknown code",
    }
}

pub fn hex(bytes: &[u8]) -> String {
    bytes.iter().fold(String::new(), |mut text, byte| {
        _ = write!(text, "{byte:02x}");
        text
    })
}

/// `None` for what isn't hex.
pub fn unhex(text: &str) -> Option<Vec<u8>> {
    let digits = text.as_bytes().chunks(2);
    digits
        .map(|pair| u8::from_str_radix(std::str::from_utf8(pair).ok()?, 16).ok())
        .collect()
}
