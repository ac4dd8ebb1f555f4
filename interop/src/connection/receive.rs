//! Datagrams come (RFC 9000, section 12.2).

use super::moving::{Path, is_probing};
use super::{Connection, MOST_EARLY, State};
use crate::fault::{Fault, INTERNAL_ERROR, Outcome, PROTOCOL_VIOLATION};
use crate::packet::{Kind, Level, Packet, VERSION_1, read_packet};
use crate::protection::{self, Opened};
use crate::qlog::{self, Dropped};
use gotsavena::{ReceiveFault, Received, Role};
use ring::aead::{AES_128_GCM, Aad, LessSafeKey, Nonce, UnboundKey};
use rustls::quic::{Keys, Version};
use std::time::Instant;

const TOKEN_LEN: usize = 16;

impl Connection {
    /// Takes a datagram in. It is opened in place. Where a packet of it is the newest, and does more than to look whether the address is
    /// there, the peer is where it came from (RFC 9000, section 9.3).
    pub fn receive(&mut self, datagram: &mut [u8], from: Path, now: Instant) {
        let newest = self.moving.newest;
        self.comes(from, datagram.len());
        self.take_datagram(datagram, now);
        if self.moving.newest > newest && matches!(self.state, State::Open) {
            let followed = self.follow(from, datagram.len(), now);
            followed.unwrap_or_else(|fault| self.fail(fault, now));
        }
    }

    fn take_datagram(&mut self, datagram: &mut [u8], now: Instant) {
        match self.state {
            State::Open => {}
            State::Closing { .. } => return self.answer_closing(),
            State::Draining { .. } | State::Gone => return,
        }
        let token = datagram.last_chunk::<TOKEN_LEN>().copied();
        let mut at = 0;
        let mut opened = false;
        while let Some(packet) = read_packet(&datagram[at..]) {
            let end = at + packet.end;
            match self.take_packet(&packet, &mut datagram[at..end], now) {
                Ok(was_opened) => opened |= was_opened,
                Err(fault) => return self.fail(fault, now),
            }
            at = end;
            if at == datagram.len() || !matches!(self.state, State::Open) {
                break;
            }
        }
        self.tell_metrics(now);
        if !opened && token.is_some_and(|token| self.peer_ids.is_reset_token(&token)) {
            self.drain(Outcome::Reset, now);
        }
    }

    fn take_packet(
        &mut self,
        packet: &Packet,
        bytes: &mut [u8],
        now: Instant,
    ) -> Result<bool, Fault> {
        let level = match packet.kind {
            Kind::Protected(Level::Data) if !self.session.is_done() || self.end.is_none() => {
                if self.early.len() < MOST_EARLY {
                    self.early.push(bytes.to_vec());
                }
                return Ok(false);
            }
            Kind::Protected(level) => level,
            Kind::VersionNegotiation => return self.negotiate(packet, bytes, now),
            Kind::Retry => return Ok(self.retry(packet, bytes)),
            Kind::ZeroRtt | Kind::OtherVersion => return Ok(false),
        };
        let Some(opened) = self.open(level, packet, bytes) else {
            return Ok(false);
        };
        if opened.has_reserved_bits() {
            return Err(Fault::new(PROTOCOL_VIOLATION, 0, "a reserved bit is set"));
        }
        self.known.has_opened = true;
        self.last_active = now;
        self.asked_since_active = false;
        let payload = &bytes[opened.payload.clone()];
        if let Some(trace) = &mut self.trace {
            let told = qlog::Packet::new(level, opened.number, bytes.len(), payload);
            trace.received(&told, now);
        }
        if level == Level::Data {
            self.take_data(opened.number, payload, now)?;
        } else {
            self.take_handshake(level, packet, opened.number, payload, now)?;
            self.take_early(now)?;
        }
        Ok(true)
    }

    fn open(&mut self, level: Level, packet: &Packet, bytes: &mut [u8]) -> Option<Opened> {
        if level == Level::Data {
            return self.data_keys.as_mut()?.open(bytes, packet, self.expected);
        }
        let space = &self.spaces[level as usize];
        protection::open(
            &space.keys.as_ref()?.remote,
            bytes,
            packet,
            space.received.end(),
        )
    }

    fn take_handshake(
        &mut self,
        level: Level,
        packet: &Packet,
        number: u64,
        payload: &[u8],
        now: Instant,
    ) -> Result<(), Fault> {
        if self.space(level).received.has(number) {
            return self.tell_dropped(level, number, Dropped::Duplicate, now);
        }
        if !self.known.has_peer_id {
            self.known.has_peer_id = true;
            self.peer_ids.replace_first(packet.source);
        }
        if level == Level::Handshake && self.role == Role::Server {
            self.known.is_validated = true;
            self.discard(Level::Initial);
        }
        // Its number is noted before its frames, since these may end the level.
        self.space(level).received.insert(number);
        self.take_handshake_frames(level, payload, now)
    }

    // The stream layer takes the payload in first; the frames that aren't its own are the transport's.
    pub(super) fn take_data(
        &mut self,
        number: u64,
        payload: &[u8],
        now: Instant,
    ) -> Result<(), Fault> {
        super::probing::note(&mut self.heard, number, payload);
        let Some(end) = &mut self.end else {
            return Ok(());
        };
        if end.noted() > self.windows.most_runs() {
            return Err(Fault::new(
                PROTOCOL_VIOLATION,
                0x08,
                "too many gaps on streams",
            ));
        }
        if number >= self.expected && !is_probing(payload) {
            self.moving.newest = Some(number);
        }
        self.expected = self.expected.max(number + 1);
        match end.receive(number, payload) {
            Ok(Received::Done | Received::PeerClosed(_)) => self.take_data_frames(payload, now),
            Ok(Received::Duplicate) => {
                self.tell_dropped(Level::Data, number, Dropped::Duplicate, now)
            }
            Ok(Received::BelowFloor) => {
                self.tell_dropped(Level::Data, number, Dropped::BelowFloor, now)
            }
            Ok(Received::NoMemory) => {
                self.tell_dropped(Level::Data, number, Dropped::NoMemory, now)
            }
            Ok(other) => Err(Fault::new(INTERNAL_ERROR, 0, &format!("{other:?}"))),
            Err(ReceiveFault::Closing(closing)) => {
                let reason = "the stream layer refuses a frame";
                Err(Fault::new(closing.code, closing.frame_type, reason))
            }
            Err(fault) => Err(Fault::new(INTERNAL_ERROR, 0, &fault.to_string())),
        }
    }

    fn tell_dropped(
        &mut self,
        level: Level,
        number: u64,
        why: Dropped,
        now: Instant,
    ) -> Result<(), Fault> {
        if let Some(trace) = &mut self.trace {
            trace.dropped(level, number, why, now);
        }
        Ok(())
    }

    // Packets may overtake the handshake, and would be lost otherwise.
    fn take_early(&mut self, now: Instant) -> Result<(), Fault> {
        if !self.session.is_done() || self.end.is_none() {
            return Ok(());
        }
        for mut bytes in std::mem::take(&mut self.early) {
            if let Some(packet) = read_packet(&bytes) {
                self.take_packet(&packet, &mut bytes, now)?;
            }
        }
        Ok(())
    }

    // A server that doesn't speak this version (RFC 9000, section 6.2).
    fn negotiate(&mut self, packet: &Packet, bytes: &[u8], now: Instant) -> Result<bool, Fault> {
        let (Some(setup), false) = (&self.client, self.known.has_peer_id) else {
            return Ok(false);
        };
        let versions = bytes[packet.body..].chunks_exact(4);
        let mut versions =
            versions.map(|bytes| u32::from_be_bytes([bytes[0], bytes[1], bytes[2], bytes[3]]));
        if packet.destination != self.own_id
            || versions.clone().any(|version| version == self.version)
        {
            return Ok(false);
        }
        if !versions.any(|version| version == VERSION_1) {
            self.drain(Outcome::NoVersion, now);
            return Ok(true);
        }
        let mut setup = setup.clone();
        setup.version = VERSION_1;
        *self = Connection::client(setup, self.config, now)?;
        Ok(true)
    }

    // A server asks for a token to come back (RFC 9000, section 17.2.5).
    fn retry(&mut self, packet: &Packet, bytes: &[u8]) -> bool {
        let is_first =
            self.role == Role::Client && !self.known.has_peer_id && self.retry_source.is_none();
        let Some((body, tag)) = bytes.split_last_chunk::<TOKEN_LEN>() else {
            return false;
        };
        if !is_first || body.len() <= packet.body || packet.destination != self.own_id {
            return false;
        }
        if retry_tag(self.first_destination.as_slice(), body).as_ref() != Some(tag) {
            return false;
        }
        self.retry_source = Some(packet.source);
        self.token = body[packet.body..].to_vec();
        self.peer_ids.replace_first(packet.source);
        self.recovery.forget_all();
        let initial = self.space(Level::Initial);
        initial.keys = Some(Keys::initial(Version::V1, packet.source.as_slice(), true));
        initial.out.again();
        true
    }
}

// Shows that a Retry answers the first Initial, which only the server saw (RFC 9001, section 5.8).
fn retry_tag(destination: &[u8], body: &[u8]) -> Option<[u8; TOKEN_LEN]> {
    const KEY: [u8; 16] = [
        0xbe, 0x0c, 0x69, 0x0b, 0x9f, 0x66, 0x57, 0x5a, 0x1d, 0x76, 0x6b, 0x54, 0xe3, 0x68, 0xc8,
        0x4e,
    ];
    const NONCE: [u8; 12] = [
        0x46, 0x15, 0x99, 0xd3, 0x5d, 0x63, 0x2b, 0xf2, 0x23, 0x98, 0x25, 0xbb,
    ];
    let key = LessSafeKey::new(UnboundKey::new(&AES_128_GCM, &KEY).ok()?);
    let mut text = vec![destination.len() as u8];
    text.extend_from_slice(destination);
    text.extend_from_slice(body);
    let nonce = Nonce::assume_unique_for_key(NONCE);
    let tag = key
        .seal_in_place_separate_tag(nonce, Aad::from(text), &mut [])
        .ok()?;
    tag.as_ref().try_into().ok()
}

#[cfg(test)]
mod tests {
    use super::retry_tag;

    #[test]
    fn the_tag_of_a_retry_is_that_of_the_standard() {
        // RFC 9001, section A.4.
        let destination = [0x83, 0x94, 0xc8, 0xf0, 0x3e, 0x51, 0x57, 0x08];
        let body =
            b"\xff\x00\x00\x00\x01\x00\x08\xf0\x67\xa5\x50\x2a\x42\x62\xb5\x74\x6f\x6b\x65\x6e";
        let tag = retry_tag(&destination, body).unwrap();
        assert_eq!(
            tag,
            *b"\x04\xa2\x65\xba\x2e\xff\x4d\x82\x90\x58\xfb\x3f\x0f\x24\x96\xba"
        );
    }
}
