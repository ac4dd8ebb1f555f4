//! Datagrams go: packets of several levels in one (RFC 9000, section 12.2).

use super::moving::{Path, QUESTIONS};
use super::{Connection, DATAGRAM, State, stream_behind};
use crate::crypto::push_frame;
use crate::fault::{Fault, INTERNAL_ERROR};
use crate::packet::{Draft, Header, Level, TAG_LEN};
use crate::protection::seal;
use crate::qlog;
use crate::recovery::{Control, Sent};
use gotsavena::{Endpoint, Frame, MIN_ROOM, Made, MakeFault, Role, frames, last_stream, put_ack};
use std::time::Instant;

/// Below it a packet would be nearly all header and tag.
const LEAST_ROOM: usize = 64;

/// Left free, so that an ACK never keeps the handshake's bytes out.
const ACK_LEN: usize = 300;

/// A packet is noted as sent only when its datagram is whole.
pub(super) struct Planned {
    pub draft: Draft,
    pub sent: Sent,
}

#[derive(Default)]
struct OwnFrames {
    payload: Vec<u8>,
    controls: Vec<Control>,
    crypto: Vec<std::ops::Range<usize>>,
}

impl Connection {
    /// Makes the next datagram, in a vector that is empty. Answers where it goes to, where there is one.
    pub fn send(&mut self, out: &mut Vec<u8>, now: Instant) -> Option<Path> {
        out.clear();
        let is_open = matches!(self.state, State::Open);
        if let Some(to) = is_open.then(|| self.send_of_paths(out, now)).flatten() {
            return Some(to);
        }
        let is_sent = match self.standing().is_held_back {
            true => is_open && self.acknowledge_within_bound(out, now),
            false => self.send_usual(out, now),
        };
        is_sent.then_some(self.moving.at)
    }

    fn send_usual(&mut self, out: &mut Vec<u8>, now: Instant) -> bool {
        if let (Some(trace), Some(end)) = (&mut self.trace, &self.end) {
            trace.moves(end, now);
        }
        // (what came was read since the datagram before, so windows may grow, and this one tells it)
        if let Some(end) = &mut self.end {
            self.windows.look(end, self.recovery.smoothed(), now);
        }
        let planned = match self.state {
            State::Open => self.plan(out, now),
            State::Closing { .. } => self.plan_closing(out, now),
            State::Draining { .. } | State::Gone => return false,
        };
        let planned = match planned {
            Ok(planned) if planned.is_empty() => return false,
            Ok(planned) => planned,
            Err(fault) => {
                self.fail(fault, now);
                return false;
            }
        };
        self.finish(planned, out);
        self.tell_metrics(now);
        true
    }

    fn plan(&mut self, out: &mut Vec<u8>, now: Instant) -> Result<Vec<Planned>, Fault> {
        let mut planned = Vec::new();
        for level in [Level::Initial, Level::Handshake] {
            planned.extend(self.plan_handshake(level, out, now));
        }
        planned.extend(self.plan_data(out, now)?);
        Ok(planned)
    }

    // Pads a datagram that has an Initial (RFC 9000, section 14.1), protects the packets, and notes them as sent.
    fn finish(&mut self, mut planned: Vec<Planned>, out: &mut Vec<u8>) {
        let has_initial = planned
            .iter()
            .any(|plan| plan.draft.level == Level::Initial);
        if let (Some(last), true) = (planned.last_mut(), has_initial) {
            last.draft.pad(out, DATAGRAM);
        }
        let has_handshake = planned
            .iter()
            .any(|plan| plan.draft.level == Level::Handshake);
        for plan in planned {
            self.note_sent(plan, out);
        }
        self.bytes_out += out.len();
        // A client needs its Initial keys no more once it sends a Handshake packet (RFC 9001, section 4.9.1).
        if has_handshake && self.role == Role::Client {
            self.discard(Level::Initial);
        }
    }

    pub(super) fn note_sent(&mut self, plan: Planned, out: &mut [u8]) {
        let Planned { draft, mut sent } = plan;
        if let Some(trace) = &mut self.trace {
            let len = draft.end + TAG_LEN - draft.start;
            let payload = &out[draft.payload_at()..draft.end];
            let told = qlog::Packet::new(draft.level, draft.number, len, payload);
            trace.sent(&told, sent.at);
        }
        match (
            draft.level,
            &self.data_keys,
            &self.spaces[draft.level as usize].keys,
        ) {
            (Level::Data, Some(keys), _) => keys.seal(out, &draft),
            (_, _, Some(keys)) => seal(&keys.local.header, &keys.local.packet, out, &draft),
            _ => return,
        }
        if !sent.asks {
            return;
        }
        if !self.asked_since_active {
            self.asked_since_active = true;
            self.last_active = sent.at;
        }
        sent.size = draft.end + TAG_LEN - draft.start;
        self.recovery.sent(draft.level, draft.number, sent);
    }

    pub(super) fn header(&self, level: Level, number: u64) -> Header<'_> {
        Header {
            level,
            version: self.version,
            destination: self.peer_ids.current(),
            source: self.own_id,
            token: &self.token,
            number,
            key_phase: self.data_keys.as_ref().is_some_and(|keys| keys.phase()),
        }
    }

    /// What is in the datagram already counts, as it may hold packets of several levels.
    fn room(&self, header: &Header<'_>, out: &[u8]) -> usize {
        let size = self.recovery.path.size().min(self.bound());
        size.saturating_sub(out.len() + header.len() + TAG_LEN)
    }

    fn plan_handshake(&mut self, level: Level, out: &mut Vec<u8>, now: Instant) -> Option<Planned> {
        let space = &self.spaces[level as usize];
        space.keys.as_ref()?;
        let may_ask = self.recovery.allows(now) || space.probes > 0;
        if !(space.is_ack_due || may_ask && (space.out.is_due() || space.probes > 0)) {
            return None;
        }
        let header = self.header(level, space.next_number);
        let room = self.room(&header, out);
        if room < LEAST_ROOM {
            return None;
        }
        let mut draft = header.write(out);
        let space = &mut self.spaces[level as usize];
        let before = out.len();
        put_ranges(space.received.as_slice(), out, room);
        space.is_ack_due = false;
        let mut crypto = Vec::new();
        if may_ask {
            let left = room - (out.len() - before);
            crypto.extend(space.out.put(out, left));
            if crypto.is_empty() && space.probes > 0 {
                push_frame(out, &Frame::Ping);
            }
        }
        if out.len() == before {
            out.truncate(draft.start);
            return None;
        }
        let asks = !crypto.is_empty() || space.probes > 0;
        space.probes = space.probes.saturating_sub(1);
        space.next_number += 1;
        draft.finish(out);
        let sent = sent_now(now, asks, crypto, Vec::new());
        Some(Planned { draft, sent })
    }

    fn plan_data(&mut self, out: &mut Vec<u8>, now: Instant) -> Result<Option<Planned>, Fault> {
        let Some(end) = self.end.as_ref().filter(|_| self.session.is_done()) else {
            return Ok(None);
        };
        let header = self.header(Level::Data, end.next_number());
        let room = self.room(&header, out);
        if room <= MIN_ROOM {
            return Ok(None);
        }
        let draft = header.write(out);
        let probes = self.space(Level::Data).probes;
        let may_ask = self.recovery.allows(now);
        let may_probe = may_ask && probes == 0 && self.known.is_confirmed;
        if let (true, Some(size)) = (may_probe, self.recovery.path_probe()) {
            return self.probe_path(draft, size, out, now).map(Some);
        }
        if may_ask || probes > 0 {
            return self.fill_data(draft, room, out, now);
        }
        self.acknowledge(draft, room, out, now)
    }

    // Alone: if it is too large for the path only the probe is lost.
    fn probe_path(
        &mut self,
        mut draft: Draft,
        size: usize,
        out: &mut Vec<u8>,
        now: Instant,
    ) -> Result<Planned, Fault> {
        draft.number = self.claim()?;
        push_frame(out, &Frame::Ping);
        draft.finish(out);
        draft.pad(out, size);
        self.recovery.path.sent(draft.number);
        let sent = sent_now(now, true, Vec::new(), Vec::new());
        Ok(Planned { draft, sent })
    }

    // A 1-RTT packet: what the stream layer has to say, and behind it the transport's own frames. Where the stream layer has
    // nothing to say, the transport claims the number.
    fn fill_data(
        &mut self,
        mut draft: Draft,
        room: usize,
        out: &mut Vec<u8>,
        now: Instant,
    ) -> Result<Option<Planned>, Fault> {
        let probes = self.space(Level::Data).probes;
        let own = self.own_frames(room - MIN_ROOM - 1);
        let made = self.make(out, room - own.payload.len() - 1)?;
        if !made && own.payload.is_empty() && probes == 0 {
            self.recovery.rest();
            out.truncate(draft.start);
            return Ok(None);
        }
        let mut asks = asks_for_ack(&out[draft.payload_at()..]) || !own.payload.is_empty();
        out.extend_from_slice(&own.payload);
        if probes > 0 && !asks {
            push_frame(out, &Frame::Ping);
            asks = true;
        }
        if !made {
            draft.number = self.claim()?;
        }
        self.space(Level::Data).probes = probes.saturating_sub(1);
        draft.finish(out);
        let sent = sent_now(now, asks, own.crypto, own.controls);
        Ok(Some(Planned { draft, sent }))
    }

    // To an address that isn't validated an ACK goes as long as questions have room, too.
    fn acknowledge_within_bound(&mut self, out: &mut Vec<u8>, now: Instant) -> bool {
        let Some(end) = self.end.as_ref().filter(|_| self.session.is_done()) else {
            return false;
        };
        let header = self.header(Level::Data, end.next_number());
        if header.len() + MIN_ROOM + TAG_LEN + QUESTIONS > self.bound() {
            return false;
        }
        let draft = header.write(out);
        match self.acknowledge(draft, MIN_ROOM, out, now) {
            Ok(Some(planned)) => self.finish(vec![planned], out),
            Ok(None) => return false,
            Err(fault) => {
                self.fail(fault, now);
                return false;
            }
        }
        true
    }

    // Where the window is full an ACK goes nevertheless, alone, if one is due (RFC 9002, section 7).
    fn acknowledge(
        &mut self,
        mut draft: Draft,
        room: usize,
        out: &mut Vec<u8>,
        now: Instant,
    ) -> Result<Option<Planned>, Fault> {
        if !self.put_made(out, room, |end, room| end.make_ack(0, room))? {
            out.truncate(draft.start);
            return Ok(None);
        }
        draft.finish(out);
        let sent = sent_now(now, false, Vec::new(), Vec::new());
        Ok(Some(Planned { draft, sent }))
    }

    // The stream layer writes what is due behind the header, bytes of the most urgent stream first, or of the one behind that which sent
    // last. Answers whether it had something.
    fn make(&mut self, out: &mut Vec<u8>, room: usize) -> Result<bool, Fault> {
        let at = out.len();
        let next = |end: &Endpoint| self.priorities.next(end, self.turn);
        let first = self.end.as_ref().map_or(self.turn, next);
        let made = self.put_made(out, room, |end, room| end.make_packet_from(first, 0, room))?;
        if let Some(last) = last_stream(&out[at..]) {
            self.turn = stream_behind(Some(last));
        }
        Ok(made)
    }

    fn put_made(
        &mut self,
        out: &mut Vec<u8>,
        room: usize,
        make: impl FnOnce(&mut Endpoint, &mut [u8]) -> Result<Option<Made>, MakeFault>,
    ) -> Result<bool, Fault> {
        let at = out.len();
        out.resize(at + room, 0);
        let made = match &mut self.end {
            Some(end) => make(end, &mut out[at..]),
            None => Ok(None),
        };
        let len = made.ok().flatten().map(|made| made.len);
        out.truncate(at + len.unwrap_or(0));
        match made {
            // Where memory is refused, nothing goes for now.
            Ok(_) | Err(MakeFault::NoMemory) => Ok(len.is_some()),
            Err(fault) => Err(Fault::new(INTERNAL_ERROR, 0, &fault.to_string())),
        }
    }

    /// The stream layer gives all numbers of the space, so that none is used twice.
    pub(super) fn claim(&mut self) -> Result<u64, Fault> {
        let claimed = self.end.as_mut().map(|end| end.claim_number());
        claimed
            .unwrap_or(Ok(0))
            .map_err(|fault| Fault::new(INTERNAL_ERROR, 0, &fault.to_string()))
    }

    fn own_frames(&mut self, room: usize) -> OwnFrames {
        let mut own = OwnFrames::default();
        while own.payload.len() + LEAST_ROOM <= room {
            let Some(control) = self.controls.pop_front() else {
                break;
            };
            push_frame(&mut own.payload, &frame_of(&control));
            own.controls.push(control);
        }
        let left = room.saturating_sub(own.payload.len());
        let put = self.space(Level::Data).out.put(&mut own.payload, left);
        own.crypto.extend(put);
        own
    }

    fn plan_closing(&mut self, out: &mut Vec<u8>, now: Instant) -> Result<Vec<Planned>, Fault> {
        if !self.takes_closing() {
            return Ok(Vec::new());
        }
        let mut planned = Vec::new();
        for level in Level::ALL {
            let number = match level {
                Level::Data if self.data_keys.is_some() && self.session.is_done() => {
                    self.claim()?
                }
                _ if self.space(level).keys.is_some() => {
                    self.space(level).next_number += 1;
                    self.space(level).next_number - 1
                }
                _ => continue,
            };
            let mut draft = self.header(level, number).write(out);
            self.put_close(level, out);
            draft.finish(out);
            let sent = sent_now(now, false, Vec::new(), Vec::new());
            planned.push(Planned { draft, sent });
        }
        Ok(planned)
    }
}

pub(super) fn sent_now(
    at: Instant,
    asks: bool,
    crypto: Vec<std::ops::Range<usize>>,
    controls: Vec<Control>,
) -> Sent {
    Sent {
        at,
        size: 0,
        asks,
        crypto,
        controls,
    }
}

fn frame_of(control: &Control) -> Frame<'_> {
    match control {
        Control::HandshakeDone => Frame::HandshakeDone,
        Control::RetireId(sequence) => Frame::RetireConnectionId {
            sequence: *sequence,
        },
        Control::NewId {
            sequence,
            id,
            token,
        } => Frame::NewConnectionId {
            sequence: *sequence,
            retire: 0,
            identifier: id.as_slice(),
            reset_token: token,
        },
    }
}

// As many as fit, the highest first: older ones were in earlier ACKs.
fn put_ranges(ranges: &[(u64, u64)], out: &mut Vec<u8>, room: usize) {
    let at = out.len();
    out.resize(at + room.min(ACK_LEN), 0);
    let len = put_ack(ranges, 0, &mut out[at..]).map_or(0, |(_, len)| len);
    out.truncate(at + len);
}

// Whether a payload asks for an ACK (RFC 9002, section 2).
pub(super) fn asks_for_ack(payload: &[u8]) -> bool {
    let mut found = frames(payload).flatten();
    found.any(|placed| !matches!(placed.frame, Frame::Ack { .. } | Frame::Padding))
}
