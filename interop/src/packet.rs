//! The headers of packets (RFC 9000, section 17): where their parts stand in a datagram, and how they are written.

use crate::bytes::{Reader, push_varint};
use std::fmt;
use std::ops::Range;

pub const VERSION_1: u32 = 1;

/// The length of each connection identifier that is given out here, in bytes.
pub const OWN_ID_LEN: usize = 8;

/// How many bytes of a packet number are written: always as many.
pub const NUMBER_LEN: usize = 4;

pub const TAG_LEN: usize = 16;

const LONG: u8 = 0x80;
const FIXED: u8 = 0x40;
const KEY_PHASE: u8 = 0x04;

/// Who keeps numbers and keys apart: the levels of encryption that are used here, and their number spaces.
#[derive(Clone, Copy, Debug, PartialEq, Eq, PartialOrd, Ord)]
pub enum Level {
    Initial,
    Handshake,
    /// 1-RTT: the application's number space.
    Data,
}

impl Level {
    pub const ALL: [Level; 3] = [Level::Initial, Level::Handshake, Level::Data];
}

#[derive(Clone, Copy, Default, PartialEq, Eq, Hash, PartialOrd, Ord)]
pub struct ConnectionId {
    len: u8,
    bytes: [u8; 20],
}

impl ConnectionId {
    /// `None` for more than 20 bytes.
    pub fn new(from: &[u8]) -> Option<ConnectionId> {
        let mut bytes = [0; 20];
        bytes.get_mut(..from.len())?.copy_from_slice(from);
        Some(ConnectionId {
            len: from.len() as u8,
            bytes,
        })
    }

    pub fn as_slice(&self) -> &[u8] {
        &self.bytes[..usize::from(self.len)]
    }

    pub fn len(&self) -> usize {
        usize::from(self.len)
    }

    pub fn is_empty(&self) -> bool {
        self.len == 0
    }
}

impl fmt::Debug for ConnectionId {
    fn fmt(&self, f: &mut fmt::Formatter<'_>) -> fmt::Result {
        self.as_slice()
            .iter()
            .try_for_each(|byte| write!(f, "{byte:02x}"))
    }
}

#[derive(Clone, Copy, Debug, PartialEq, Eq)]
pub enum Kind {
    Protected(Level),
    ZeroRtt,
    Retry,
    VersionNegotiation,
    /// A long header of another version, of which only the identifiers are known.
    OtherVersion,
}

#[derive(Clone, Debug)]
pub struct Packet {
    pub kind: Kind,
    pub version: u32,
    pub destination: ConnectionId,
    pub source: ConnectionId,
    pub token: Range<usize>,
    pub body: usize,
    pub end: usize,
}

pub fn read_packet(bytes: &[u8]) -> Option<Packet> {
    let mut rest = Reader::new(bytes);
    let first = rest.byte()?;
    if first & LONG == 0 {
        return read_short(first, bytes.len(), rest);
    }
    let version = rest.u32()?;
    let destination = read_id(&mut rest)?;
    let source = read_id(&mut rest)?;
    let at = bytes.len() - rest.rest().len();
    let mut packet = Packet {
        kind: Kind::OtherVersion,
        version,
        destination,
        source,
        token: at..at,
        body: at,
        end: bytes.len(),
    };
    match version {
        0 => packet.kind = Kind::VersionNegotiation,
        VERSION_1 => read_long(first, bytes.len(), rest, &mut packet)?,
        _ => {}
    }
    Some(packet)
}

fn read_short(first: u8, len: usize, mut rest: Reader<'_>) -> Option<Packet> {
    if first & FIXED == 0 {
        return None;
    }
    let destination = ConnectionId::new(rest.take(OWN_ID_LEN)?)?;
    let body = 1 + OWN_ID_LEN;
    Some(Packet {
        kind: Kind::Protected(Level::Data),
        version: VERSION_1,
        destination,
        source: ConnectionId::default(),
        token: body..body,
        body,
        end: len,
    })
}

fn read_id(rest: &mut Reader<'_>) -> Option<ConnectionId> {
    let len = rest.byte()?;
    ConnectionId::new(rest.take(usize::from(len))?)
}

fn read_long(first: u8, len: usize, mut rest: Reader<'_>, packet: &mut Packet) -> Option<()> {
    if first & FIXED == 0 {
        return None;
    }
    packet.kind = match first >> 4 & 3 {
        0 => Kind::Protected(Level::Initial),
        1 => Kind::ZeroRtt,
        2 => Kind::Protected(Level::Handshake),
        _ => Kind::Retry,
    };
    if packet.kind == Kind::Retry {
        return Some(());
    }
    if packet.kind == Kind::Protected(Level::Initial) {
        let token = rest.counted()?;
        let end = len - rest.rest().len();
        packet.token = end - token.len()..end;
    }
    let count = usize::try_from(rest.varint()?).ok()?;
    packet.body = len - rest.rest().len();
    rest.take(count)?;
    packet.end = packet.body + count;
    Some(())
}

/// The number whose lowest bytes were written, as near as can be to the one that is expected (RFC 9000, section A.3).
pub fn full_number(written: u64, len: usize, expected: u64) -> u64 {
    let window = 1u64 << (8 * len);
    let near = expected & !(window - 1) | written;
    if near + window / 2 <= expected && near + window < 1 << 62 {
        near + window
    } else if near > expected + window / 2 && near >= window {
        near - window
    } else {
        near
    }
}

pub struct Header<'a> {
    pub level: Level,
    pub version: u32,
    pub destination: ConnectionId,
    pub source: ConnectionId,
    pub token: &'a [u8],
    pub number: u64,
    pub key_phase: bool,
}

#[derive(Clone, Copy, Debug)]
pub struct Draft {
    pub level: Level,
    pub number: u64,
    pub start: usize,
    pub number_at: usize,
    pub end: usize,
}

impl Draft {
    pub fn payload_at(&self) -> usize {
        self.number_at + NUMBER_LEN
    }

    /// The packet's frames end where the bytes end: room for the tag is put behind them.
    pub fn finish(&mut self, out: &mut Vec<u8>) {
        self.end = out.len();
        out.resize(self.end + TAG_LEN, 0);
    }

    /// Fills the packet, the last one of its datagram, up with PADDING (RFC 9000, section 14.1).
    pub fn pad(&mut self, out: &mut Vec<u8>, len: usize) {
        if out.len() < len {
            out.resize(len, 0);
            self.end = len - TAG_LEN;
        }
    }
}

impl Header<'_> {
    pub fn len(&self) -> usize {
        let mut token = Vec::new();
        if self.level == Level::Initial {
            push_varint(&mut token, self.token.len() as u64);
        }
        let token = token.len() + self.token.len();
        match self.level {
            Level::Data => 1 + self.destination.len() + NUMBER_LEN,
            _ => 7 + self.destination.len() + self.source.len() + token + 2 + NUMBER_LEN,
        }
    }

    pub fn is_empty(&self) -> bool {
        false
    }

    pub fn write(&self, out: &mut Vec<u8>) -> Draft {
        let start = out.len();
        let number_len = NUMBER_LEN as u8 - 1;
        match self.level {
            Level::Data => {
                let phase = if self.key_phase { KEY_PHASE } else { 0 };
                out.push(FIXED | phase | number_len);
                out.extend_from_slice(self.destination.as_slice());
            }
            Level::Initial | Level::Handshake => self.write_long(number_len, out),
        }
        let number_at = out.len();
        out.extend_from_slice(&(self.number as u32).to_be_bytes());
        Draft {
            level: self.level,
            number: self.number,
            start,
            number_at,
            end: out.len(),
        }
    }

    fn write_long(&self, number_len: u8, out: &mut Vec<u8>) {
        let kind = if self.level == Level::Initial { 0 } else { 2 };
        out.push(LONG | FIXED | kind << 4 | number_len);
        out.extend_from_slice(&self.version.to_be_bytes());
        for id in [self.destination, self.source] {
            out.push(id.len);
            out.extend_from_slice(id.as_slice());
        }
        if self.level == Level::Initial {
            push_varint(out, self.token.len() as u64);
            out.extend_from_slice(self.token);
        }
        out.extend_from_slice(&[0; 2]);
    }
}

/// Writes the length of a long header's packet, protection included.
pub fn write_length(out: &mut [u8], draft: &Draft) {
    if draft.level != Level::Data {
        let length = 0x4000 | (draft.end - draft.number_at + TAG_LEN) as u16;
        out[draft.number_at - 2..draft.number_at].copy_from_slice(&length.to_be_bytes());
    }
}

/// A Version Negotiation that answers a packet of a version which isn't spoken here (RFC 9000, section 17.2.1).
pub fn version_negotiation(asked: &Packet) -> Vec<u8> {
    let mut out = vec![LONG | FIXED, 0, 0, 0, 0];
    for id in [asked.source, asked.destination] {
        out.push(id.len);
        out.extend_from_slice(id.as_slice());
    }
    out.extend_from_slice(&VERSION_1.to_be_bytes());
    out
}

#[cfg(test)]
mod tests {
    use super::*;

    #[test]
    fn a_number_is_found_again() {
        assert_eq!(full_number(0x9b32, 2, 0xa82f_30eb), 0xa82f_9b32);
        assert_eq!(full_number(0xff, 1, 0x100), 0xff);
        assert_eq!(full_number(0x00, 1, 0xff), 0x100);
        assert_eq!(full_number(5, 4, 0), 5);
    }

    #[test]
    fn a_long_header_is_read_as_it_was_written() {
        let id = |bytes: &[u8]| ConnectionId::new(bytes).unwrap();
        let header = Header {
            level: Level::Initial,
            version: VERSION_1,
            destination: id(&[1; 17]),
            source: id(&[]),
            token: b"token",
            number: 7,
            key_phase: false,
        };
        let mut out = Vec::new();
        let mut draft = header.write(&mut out);
        assert_eq!(out.len(), header.len());
        draft.finish(&mut out);
        draft.pad(&mut out, 100);
        write_length(&mut out, &draft);
        let packet = read_packet(&out).unwrap();
        assert_eq!(packet.kind, Kind::Protected(Level::Initial));
        assert_eq!((packet.destination, packet.source), (id(&[1; 17]), id(&[])));
        assert_eq!(&out[packet.token.clone()], b"token");
        assert_eq!((packet.body, packet.end), (draft.number_at, out.len()));
    }

    #[test]
    fn what_ends_too_soon_is_no_packet() {
        for bytes in [&[][..], &[0x40], &[0xc0, 0, 0, 0, 1, 21], &[0x00; 40]] {
            assert!(read_packet(bytes).is_none());
        }
    }
}
