//! What is to come of a payload, said by the proved layer: an endpoint that stands where the peer does. It takes in what the peer gets,
//! and follows what the peer sends: its limits, its streams, its aborts, its packet numbers.
//!
//! Variants of it widen what is permitted: two faults at once may be told by either code, a frame without bytes may touch its offset or
//! not, and a stream that is over need not be remembered. Each is made by playing all again, since an endpoint can't be copied.

use crate::verdicts::{Closes, Permit, Word, by_hand, row_of};
use crate::wire::{self, byte_at, frame, stream_frame};
use gotsavena::{
    AckRanges, Endpoint, Frame, PeerLimits, Read, ReceiveFault, RecvState, Role, SendState,
    Settings, StreamId, frames,
};

/// So many streams an endpoint may grant at first, and in all.
const STREAMS: (u64, u64) = (1 << 17, 1 << 21);
/// The widest windows. No case goes near a limit that was cut to these.
pub const CONN_WINDOW: u64 = 1 << 40;
pub const STREAM_WINDOW: u64 = 1 << 30;

/// Where the endpoint stands, what it grants, and what its peer does.
#[derive(Clone, Copy, Debug)]
pub struct Place {
    pub role: Role,
    pub grants: PeerLimits,
    pub peer: PeerLimits,
    /// How many identifiers of its peer it keeps (RFC 9000, section 18.2).
    pub active_ids: u64,
}

#[derive(Clone, Debug)]
enum Event {
    /// It got this payload under this number.
    Came(u64, Vec<u8>),
    /// It sent this one, under a number.
    Went(u64, Vec<u8>),
}

impl Event {
    fn went(&mut self) -> Option<(&mut u64, &[u8])> {
        match self {
            Event::Went(number, payload) => Some((number, payload)),
            Event::Came(..) => None,
        }
    }
}

#[derive(Clone, Copy, PartialEq, Eq)]
enum Variant {
    Plain,
    /// No limit matters, the application reads all, and the peer acknowledges all.
    Wide,
    /// No final size is known.
    Endless,
    /// A frame without bytes touches its offset.
    Touching,
}

pub struct Mirror {
    place: Place,
    events: Vec<Event>,
    /// Whether its application reads all that comes.
    reads: bool,
}

impl Mirror {
    pub fn new(place: Place, reads: bool) -> Mirror {
        Mirror {
            place,
            events: Vec::new(),
            reads,
        }
    }

    /// The peer sent this.
    pub fn follow(&mut self, number: u64, payload: &[u8]) {
        self.events.push(Event::Went(number, payload.to_vec()));
    }

    /// It got this.
    pub fn came(&mut self, number: u64, payload: &[u8]) {
        self.events.push(Event::Came(number, payload.to_vec()));
    }

    /// What may come of a payload that the peer gets.
    pub fn take(&mut self, number: u64, payload: &[u8]) -> Permit {
        let permit = self.judge(&self.events, number, payload);
        self.came(number, payload);
        permit
    }

    /// What it closes with if it gets this payload now.
    pub fn would_close(&self, number: u64, payload: &[u8]) -> Option<Closes> {
        let mut end = self.replay(Variant::Plain, &self.events);
        received(&mut end, number, payload)
    }

    /// What may come of the last payload where all that the peer sent behind it was decided before it came: packets cross. From the first
    /// packet on that acknowledges it none had gone by then, so that it may not acknowledge those.
    pub fn take_late(&self) -> Permit {
        let is_came = |event: &Event| matches!(event, Event::Came(..));
        let Some(last) = self.events.iter().rposition(is_came) else {
            return Permit::taken();
        };
        let mut before = self.events.clone();
        let Event::Came(number, payload) = before.remove(last) else {
            return Permit::taken();
        };
        let behind = before[last..].iter_mut().filter_map(Event::went);
        for (own, _) in behind.skip_while(|(_, went)| !acknowledges(went, number)) {
            *own = 0;
        }
        self.judge(&before, number, &payload)
    }

    /// What it closes with as all comes that came, if it does.
    pub fn closes(&self) -> Option<Closes> {
        let mut end = self.endpoint(Variant::Plain);
        self.events
            .iter()
            .find_map(|event| self.play(&mut end, Variant::Plain, event))
    }

    /// The payloads that an endpoint would send that acts in its place: its application reads all, answers each stream that ends, and
    /// gives up each that is reset.
    pub fn acts(&self) -> Vec<Vec<u8>> {
        let mut end = self.endpoint(Variant::Plain);
        let mut made = Vec::new();
        for event in &self.events {
            match event {
                Event::Came(number, payload) => {
                    received(&mut end, *number, payload);
                }
                Event::Went(number, payload) => {
                    while end.next_number() <= *number && end.claim_number().is_ok() {}
                    for placed in frames(payload).flatten() {
                        write(&mut end, self.place.role, &placed.frame);
                    }
                }
            }
            answer_all(&mut end, self.place.role);
            made.extend(packets(&mut end));
        }
        made
    }

    fn judge(&self, before: &[Event], number: u64, payload: &[u8]) -> Permit {
        let come = |variant, payload: &[u8]| {
            let mut end = self.replay(variant, before);
            received(&mut end, number, payload)
        };
        let wide = self.replay(Variant::Wide, before);
        let over = |stream| is_over(&wide, stream);
        let touch = come(Variant::Touching, &rewritten(payload, touching));
        let Some(plain) = come(Variant::Plain, payload) else {
            if let Some(permit) = self.of_transport(before, payload) {
                return permit;
            }
            let touch = touch.filter(|closes| matches!(closes.code, 0x03 | 0x04 | 0x06));
            return match touch.or_else(|| self.joined(before, payload)) {
                Some(closes) => Permit {
                    codes: vec![closes.code],
                    frame_type: closes.frame_type,
                    word: Some(Word::May),
                    section: "4.1, 4.5".to_owned(),
                },
                None => Permit::taken(),
            };
        };
        let mut permit = match row_of(plain, payload, over) {
            Some(row) => Permit::of(row, plain.frame_type),
            None => Permit {
                codes: vec![plain.code],
                frame_type: plain.frame_type,
                word: Some(Word::Must),
                section: "20.1".to_owned(),
            },
        };
        let others = [
            come(Variant::Wide, payload),
            come(Variant::Endless, &rewritten(payload, endless)),
            touch,
        ];
        for closes in others.into_iter().flatten() {
            permit.add(closes.code);
        }
        permit
    }

    // Between two packets an endpoint may count credit as granted that it hasn't told yet: not so within one.
    fn joined(&self, before: &[Event], payload: &[u8]) -> Option<Closes> {
        let (last, rest) = before.split_last()?;
        let Event::Came(number, first) = last else {
            return None;
        };
        let mut end = self.replay(Variant::Plain, rest);
        received(&mut end, *number, &[first, payload].concat())
    }

    fn endpoint(&self, variant: Variant) -> Endpoint {
        let Place {
            role, grants, peer, ..
        } = self.place;
        let cut = |bytes: u64| bytes.clamp(1, STREAM_WINDOW);
        let settings = match variant {
            Variant::Wide => Settings::default()
                .conn_window(CONN_WINDOW)
                .stream_windows(STREAM_WINDOW)
                .streams(STREAMS.0, STREAMS.1),
            _ => Settings::default()
                .conn_window(grants.max_data.clamp(1, CONN_WINDOW))
                .bidi_local_window(cut(grants.bidi_local))
                .bidi_remote_window(cut(grants.bidi_remote))
                .uni_window(cut(grants.uni))
                .bidi_streams(grants.streams_bidi.min(STREAMS.0), STREAMS.1)
                .uni_streams(grants.streams_uni.min(STREAMS.0), STREAMS.1),
        };
        Endpoint::new(role, settings, peer).expect("limits are cut to their ranges")
    }

    fn replay(&self, variant: Variant, events: &[Event]) -> Endpoint {
        let mut end = self.endpoint(variant);
        for event in events {
            self.play(&mut end, variant, event);
        }
        end
    }

    fn play(&self, end: &mut Endpoint, variant: Variant, event: &Event) -> Option<Closes> {
        let closes = match event {
            Event::Came(number, payload) if variant == Variant::Endless => {
                received(end, *number, &rewritten(payload, endless))
            }
            Event::Came(number, payload) if variant == Variant::Touching => {
                received(end, *number, &rewritten(payload, touching))
            }
            Event::Came(number, payload) => received(end, *number, payload),
            Event::Went(number, payload) => {
                while end.next_number() <= *number && end.claim_number().is_ok() {}
                for placed in frames(payload).flatten() {
                    follow(
                        end,
                        self.place.role,
                        &placed.frame,
                        variant == Variant::Wide,
                    );
                }
                None
            }
        };
        if variant == Variant::Wide || self.reads {
            read_all(end);
        }
        if variant == Variant::Wide {
            acknowledge_all(end);
        }
        closes
    }

    // The frames that the layer leaves to the transport.
    fn of_transport(&self, before: &[Event], payload: &[u8]) -> Option<Permit> {
        let mut known = Identifiers::of(before);
        for placed in frames(payload).flatten() {
            let fault = match placed.frame {
                Frame::NewToken { .. } if self.place.role == Role::Server => "of a client",
                Frame::HandshakeDone if self.place.role == Role::Server => "of a client",
                Frame::NewConnectionId {
                    sequence, retire, ..
                } if retire > sequence => "retires more",
                Frame::NewConnectionId { .. } => {
                    known.took(&placed.frame);
                    match known.active() > self.place.active_ids {
                        true => "too many",
                        false => continue,
                    }
                }
                Frame::RetireConnectionId { sequence } if sequence > known.issued => "never issued",
                Frame::RetireConnectionId { sequence: 0 } => "of the packet",
                Frame::PathResponse { .. } => "unasked",
                _ => continue,
            };
            let row = by_hand(wire::name(placed.frame_type), fault);
            return row.map(|row| Permit::of(row, placed.frame_type));
        }
        None
    }
}

/// The identifiers of connections that both gave, by their numbers.
struct Identifiers {
    given: Vec<u64>,
    retired: Vec<u64>,
    issued: u64,
}

impl Identifiers {
    fn of(events: &[Event]) -> Identifiers {
        let mut known = Identifiers {
            given: vec![0],
            retired: Vec::new(),
            issued: 0,
        };
        for event in events {
            match event {
                Event::Came(_, payload) => {
                    for placed in frames(payload).flatten() {
                        known.took(&placed.frame);
                    }
                }
                Event::Went(_, payload) => {
                    for placed in frames(payload).flatten() {
                        known.sent(&placed.frame);
                    }
                }
            }
        }
        known
    }

    fn took(&mut self, frame: &Frame<'_>) {
        match *frame {
            Frame::NewConnectionId { sequence, .. } if !self.given.contains(&sequence) => {
                self.given.push(sequence);
            }
            _ => {}
        }
    }

    fn sent(&mut self, frame: &Frame<'_>) {
        match *frame {
            Frame::RetireConnectionId { sequence } => self.retired.push(sequence),
            Frame::NewConnectionId { sequence, .. } => self.issued = self.issued.max(sequence),
            _ => {}
        }
    }

    fn active(&self) -> u64 {
        let given = self.given.iter();
        given.filter(|id| !self.retired.contains(id)).count() as u64
    }
}

fn acknowledges(payload: &[u8], number: u64) -> bool {
    let has = |frame: &Frame<'_>| match *frame {
        Frame::Ack {
            largest, ranges, ..
        } => {
            let mut ranges = AckRanges::new(largest, ranges).into_iter().flatten();
            ranges.any(|(lowest, highest)| (lowest..=highest).contains(&number))
        }
        _ => false,
    };
    frames(payload).flatten().any(|placed| has(&placed.frame))
}

fn received(end: &mut Endpoint, number: u64, payload: &[u8]) -> Option<Closes> {
    if end.closing().is_some() {
        return None;
    }
    match end.receive(number, payload) {
        Err(ReceiveFault::Closing(closing)) => Some(Closes {
            code: closing.code,
            frame_type: closing.frame_type,
            place: closing.place,
        }),
        _ => None,
    }
}

// What the endpoint is to have done, as a frame that the peer sent tells.
fn follow(end: &mut Endpoint, role: Role, frame: &Frame<'_>, has_ended: bool) {
    match *frame {
        Frame::Stream { stream, fin, .. } => {
            open(end, role, stream);
            if fin && has_ended {
                _ = end.finish(stream);
            }
        }
        Frame::ResetStream { stream, code, .. } => {
            open(end, role, stream);
            _ = end.reset(stream, code);
        }
        Frame::StreamDataBlocked { stream, .. } => open(end, role, stream),
        Frame::StopSending { stream, code } => {
            open(end, role, stream);
            _ = end.stop(stream, code);
        }
        Frame::MaxData { maximum } if maximum > end.granted() => {
            // A window that stands already doesn't move its limit.
            let window = maximum.saturating_sub(end.taken_sum()).min(CONN_WINDOW);
            _ = end.set_conn_window(1);
            _ = end.set_conn_window(window);
        }
        Frame::MaxStreamData { stream, maximum } => {
            open(end, role, stream);
            let recv = end.report(stream).and_then(|report| report.recv);
            if let Some(recv) = recv.filter(|recv| maximum > recv.limit) {
                let taken = end.taken(stream).unwrap_or(recv.read_count);
                _ = end.set_stream_window(stream, 1);
                _ = end.set_stream_window(stream, maximum.saturating_sub(taken).min(STREAM_WINDOW));
            }
        }
        Frame::MaxStreams { dir, count } if count > end.granted_streams(dir) => {
            _ = end.set_grant(dir, count.min(STREAMS.0));
        }
        _ => {}
    }
}

// A stream of the endpoint's own is open as soon as it sends on it.
fn open(end: &mut Endpoint, role: Role, stream: StreamId) {
    while stream.initiator() == role && end.report(stream).is_none() {
        if end.open(stream.dir()).is_err() {
            return;
        }
    }
}

fn read_all(end: &mut Endpoint) {
    let mut buffer = [0; 4096];
    let mut from = StreamId::new(0);
    while let Some(stream) = from.and_then(|from| end.next_readable(from)) {
        while let Ok(Read::Bytes(_)) = end.read(stream, &mut buffer) {}
        from = stream.next();
    }
}

// What it sent on its own streams it wrote there.
fn write(end: &mut Endpoint, role: Role, frame: &Frame<'_>) {
    match *frame {
        Frame::Stream { stream, bytes, .. } if stream.initiator() == role => {
            open(end, role, stream);
            _ = end.write(stream, bytes);
        }
        _ => {}
    }
}

fn answer_all(end: &mut Endpoint, role: Role) {
    let mut buffer = [0; 4096];
    let mut from = StreamId::new(0);
    while let Some(stream) = from.and_then(|from| end.next_readable(from)) {
        from = stream.next();
        loop {
            match end.read(stream, &mut buffer) {
                Ok(Read::Bytes(_)) => continue,
                Ok(Read::End) if stream.initiator() != role => {
                    _ = end.write(stream, b"ok");
                    _ = end.finish(stream);
                }
                Ok(Read::Reset(_)) => {
                    _ = end.reset(stream, 9);
                }
                _ => {}
            }
            break;
        }
    }
}

fn packets(end: &mut Endpoint) -> Vec<Vec<u8>> {
    let mut made = Vec::new();
    let mut out = [0; 1200];
    while let Ok(Some(packet)) = end.make_packet(&mut out) {
        made.push(out[..packet.len].to_vec());
    }
    made
}

// Packets are made of all that is due, and the next one that comes acknowledges them.
fn acknowledge_all(end: &mut Endpoint) {
    packets(end);
    let Some(last) = end.next_number().checked_sub(1) else {
        return;
    };
    if end.closing().is_none() {
        // Its number is that of no packet of the peer's.
        let ack = frame(wire::ACK, &[last, 0, 0, last]);
        _ = end.receive(wire::MOST - (1 << 40) + last, &ack);
    }
}

fn is_over(end: &Endpoint, stream: StreamId) -> bool {
    use RecvState::{DataRead, ResetRead};
    use SendState::{DataRecvd, ResetRecvd};
    end.report(stream).is_some_and(|report| {
        let is_read = |state| matches!(state, DataRead | ResetRead);
        let is_acked = |state| matches!(state, DataRecvd | ResetRecvd);
        report.recv.is_none_or(|recv| is_read(recv.state))
            && report.send.is_none_or(|send| is_acked(send.state))
    })
}

/// The payload with each frame in place of which another stands.
fn rewritten(payload: &[u8], by: fn(&Frame<'_>) -> Option<Vec<u8>>) -> Vec<u8> {
    let mut out = Vec::new();
    let mut at = 0;
    let mut placed = frames(payload).flatten().peekable();
    while let Some(one) = placed.next() {
        let end = placed.peek().map(|next| next.place);
        if let Some(text) = by(&one.frame) {
            out.extend_from_slice(&payload[at..one.place]);
            out.extend(text);
            at = end.unwrap_or_else(|| end_of(payload, one.place));
        }
    }
    out.extend_from_slice(&payload[at..]);
    out
}

// Where the frame ends that begins at a place, and is the last that can be read.
fn end_of(payload: &[u8], place: usize) -> usize {
    let mut rest = frames(&payload[place..]);
    rest.next();
    match rest.next() {
        Some(Err(fault)) => place + fault.place,
        _ => payload.len(),
    }
}

// A frame that has neither a byte nor FIN, as one with the byte before it.
fn touching(frame: &Frame<'_>) -> Option<Vec<u8>> {
    match *frame {
        Frame::Stream {
            stream,
            offset,
            fin: false,
            bytes: [],
        } if offset > 0 => {
            let byte = byte_at(stream.value(), offset - 1);
            Some(stream_frame(stream.value(), offset - 1, &[byte], false))
        }
        _ => None,
    }
}

fn endless(frame: &Frame<'_>) -> Option<Vec<u8>> {
    match *frame {
        Frame::Stream {
            stream,
            offset,
            fin: true,
            bytes,
        } => Some(stream_frame(stream.value(), offset, bytes, false)),
        Frame::ResetStream { .. } => Some(vec![0x01]),
        _ => None,
    }
}

#[cfg(test)]
mod tests {
    use super::*;
    use crate::link::settings;

    // RFC 9000, section 13.1: the next number wasn't sent as its ACK went, though it is by now.
    #[test]
    fn an_ack_crosses_what_went_before_and_not_its_own_answer() {
        let ack = |largest| frame(wire::ACK, &[largest, 0, 0, 0]);
        for (next, word) in [(vec![0x01], None), (ack(5), Some(Word::Should))] {
            let place = Place {
                role: Role::Server,
                grants: settings(false).limits(),
                peer: settings(false).limits(),
                active_ids: 2,
            };
            let mut mirror = Mirror::new(place, false);
            mirror.follow(0, &[0x01]);
            assert_eq!(mirror.take(5, &ack(1)).word, Some(Word::Should));
            mirror.follow(1, &next);
            assert_eq!(mirror.take_late().word, word, "{next:?}");
        }
    }
}
