//! Packet protection (RFC 9001, sections 5 and 6), over the keys that TLS gives.

use crate::packet::{Draft, NUMBER_LEN, Packet, TAG_LEN, full_number, write_length};
use rustls::quic::{DirectionalKeys, HeaderProtectionKey, Keys, PacketKey, PacketKeySet, Secrets};

pub struct Opened {
    pub number: u64,
    pub payload: std::ops::Range<usize>,
    pub first_byte: u8,
}

pub struct DataKeys {
    local_header: HeaderProtectionKey,
    remote_header: HeaderProtectionKey,
    local: PacketKey,
    remote: PacketKey,
    next: PacketKeySet,
    previous: Option<PacketKey>,
    secrets: Secrets,
    phase: bool,
    first: u64,
    pub updates: u64,
}

const KEY_PHASE: u8 = 0x04;
const RESERVED_LONG: u8 = 0x0c;
const RESERVED_SHORT: u8 = 0x18;

impl Opened {
    /// Whether a bit is set that has to be clear (RFC 9000, section 17).
    pub fn has_reserved_bits(&self) -> bool {
        let reserved = match self.first_byte & 0x80 {
            0 => RESERVED_SHORT,
            _ => RESERVED_LONG,
        };
        self.first_byte & reserved != 0
    }
}

/// The number's length stands under the mask, so the mask goes first.
fn unmask(
    key: &HeaderProtectionKey,
    bytes: &mut [u8],
    packet: &Packet,
    expected: u64,
) -> Option<(u8, u64, usize)> {
    let body = packet.body;
    let (front, sampled) = bytes[..packet.end].split_at_mut_checked(body + NUMBER_LEN)?;
    let sample = sampled.get(..key.sample_len())?;
    let (first, rest) = front.split_first_mut()?;
    key.decrypt_in_place(sample, first, &mut rest[body - 1..])
        .ok()?;
    let first = *first;
    let len = usize::from(first & 3) + 1;
    let written = bytes[body..body + len]
        .iter()
        .fold(0, |number, byte| number << 8 | u64::from(*byte));
    Some((first, full_number(written, len, expected), body + len))
}

fn decrypt(key: &PacketKey, bytes: &mut [u8], at: usize, end: usize, number: u64) -> Option<usize> {
    let (header, rest) = bytes.split_at_mut(at);
    let plain = key
        .decrypt_in_place(number, header, &mut rest[..end - at])
        .ok()?;
    Some(at + plain.len())
}

/// In place, so that nothing is copied. `expected` is one more than the largest number that came: a packet has only the lowest bytes of its
/// own.
pub fn open(
    keys: &DirectionalKeys,
    bytes: &mut [u8],
    packet: &Packet,
    expected: u64,
) -> Option<Opened> {
    let (first_byte, number, at) = unmask(&keys.header, bytes, packet, expected)?;
    let end = decrypt(&keys.packet, bytes, at, packet.end, number)?;
    Some(Opened {
        number,
        payload: at..end,
        first_byte,
    })
}

/// Protects a packet in place; the room for its tag stands behind its frames.
pub fn seal(header: &HeaderProtectionKey, key: &PacketKey, out: &mut [u8], draft: &Draft) {
    write_length(out, draft);
    let packet = &mut out[draft.start..draft.end + TAG_LEN];
    let (front, rest) = packet.split_at_mut(draft.payload_at() - draft.start);
    let (payload, room) = rest.split_at_mut(draft.end - draft.payload_at());
    // A packet is never longer than a datagram, and so than the cipher allows.
    let Ok(tag) = key.encrypt_in_place(draft.number, front, payload) else {
        return;
    };
    room.copy_from_slice(tag.as_ref());
    let number_at = draft.number_at - draft.start;
    if let Some((first, number)) = front.split_first_mut() {
        let sample = &rest[..header.sample_len()];
        // The sample and the number have the lengths that are asked for.
        _ = header.encrypt_in_place(sample, first, &mut number[number_at - 1..]);
    }
}

impl DataKeys {
    pub fn new(keys: Keys, mut secrets: Secrets) -> DataKeys {
        DataKeys {
            local_header: keys.local.header,
            remote_header: keys.remote.header,
            local: keys.local.packet,
            remote: keys.remote.packet,
            next: secrets.next_packet_keys(),
            previous: None,
            secrets,
            phase: false,
            first: 0,
            updates: 0,
        }
    }

    pub fn phase(&self) -> bool {
        self.phase
    }

    /// Opens a 1-RTT packet in place. One of the next phase begins that phase here, too (RFC 9001, section 6).
    pub fn open(&mut self, bytes: &mut [u8], packet: &Packet, expected: u64) -> Option<Opened> {
        let (first_byte, number, at) = unmask(&self.remote_header, bytes, packet, expected)?;
        let is_this = (first_byte & KEY_PHASE != 0) == self.phase;
        let is_old = !is_this && self.previous.is_some() && number < self.first;
        let key = match (&self.previous, is_this) {
            (_, true) => &self.remote,
            (Some(previous), false) if is_old => previous,
            _ => &self.next.remote,
        };
        let end = decrypt(key, bytes, at, packet.end, number)?;
        if is_this {
            self.first = self.first.min(number);
        } else if !is_old {
            self.update(number);
        }
        Some(Opened {
            number,
            payload: at..end,
            first_byte,
        })
    }

    fn update(&mut self, first: u64) {
        let after = self.secrets.next_packet_keys();
        let next = std::mem::replace(&mut self.next, after);
        self.previous = Some(std::mem::replace(&mut self.remote, next.remote));
        self.local = next.local;
        self.phase = !self.phase;
        self.first = first;
        self.updates += 1;
    }

    pub fn seal(&self, out: &mut [u8], draft: &Draft) {
        seal(&self.local_header, &self.local, out, draft);
    }
}
