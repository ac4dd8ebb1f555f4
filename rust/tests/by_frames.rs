//! Random runs of two ends that are driven by frames and tokens, mixed with payloads on the same ends, against a plain model: of each
//! stream the bytes that were written to it, and which of them came and are acknowledged.
//!
//! Beside each end stands its double, which isn't told what is to change nothing; both have to answer the same to the byte.
//!
//! Slips that were planted in a copy of the crate, one at a time, and that this test found: `acked` acknowledges nothing of a lost packet;
//! `acked` doesn't settle the limits, or takes the next number as given; `lost` does nothing; what a lost packet asked isn't asked again;
//! a lost packet isn't kept; `take_frame` doesn't settle, takes ACKs, passes MAX_STREAMS over, loses an end that comes without bytes, or
//! makes an ACK due; an old MAX_DATA lowers the limit; `fill` leaves out STOP_SENDING, carries an ACK, or writes behind its length; `from`
//! or `only` is ignored; items come in a fill of data, streams in one of control; `more` is always true, always false, or asks for all;
//! `last_stream` looks at the front alone. And of the test itself: a packet is acknowledged before its frames were taken.

mod support;

use gotsavena::{
    Dir, Endpoint, Filled, Frame, LostFault, MIN_FILL, Made, Read, Received, Role, SendState,
    Settings, StreamId, Taken, TokenFault, UseFault, put,
};
use std::collections::{BTreeMap, BTreeSet};
use support::Random;
use support::doubled::{
    Doubled, Draft, Fate, Lane, OWN, Packet, STRANGE, UNTOUCHED, Want, all_frames, fill_one,
    is_item, is_ours,
};

const SEEDS: u64 = 1000;
const EVENTS: usize = 200;

/// What all runs saw.
#[derive(Debug, Default)]
struct Counts {
    packets: usize,
    fills: usize,
    payloads: usize,
    frames: usize,
    again: usize,
    foreign: usize,
    lost: usize,
    late: usize,
    read: usize,
}

impl Counts {
    fn add(&mut self, run: &Counts) {
        self.packets += run.packets;
        self.fills += run.fills;
        self.payloads += run.payloads;
        self.frames += run.frames;
        self.again += run.again;
        self.foreign += run.foreign;
        self.lost += run.lost;
        self.late += run.late;
        self.read += run.read;
    }

    fn tell(&self) {
        println!(
            "{SEEDS} runs by frames and tokens: {} packets of {} fills and of payloads, {} payloads and {} frames taken, {} frames again, {} of other kinds, {} packets lost, {} acknowledged late, {} bytes read",
            self.packets,
            self.fills,
            self.payloads,
            self.frames,
            self.again,
            self.foreign,
            self.lost,
            self.late,
            self.read
        );
    }
}

struct Run {
    seed: u64,
    ends: [Doubled; 2],
    windows: [u64; 2],
    /// By the end that made them.
    packets: [Vec<Packet>; 2],
    /// By the end that sends.
    lanes: [BTreeMap<StreamId, Lane>; 2],
    accepted: BTreeSet<StreamId>,
    random: Random,
    counts: Counts,
}

impl Drop for Run {
    fn drop(&mut self) {
        if std::thread::panicking() {
            eprintln!("in the run of seed {}", self.seed);
        }
    }
}

// Settings of an end, and its window: of some bytes, or small, or greater.
fn settings(random: &mut Random, seed: u64) -> (Settings, u64) {
    let (most, most_of_streams, buffer) = match seed % 20 {
        0 => (4, 4, 24),
        1..=15 => (4000, 2000, 3000),
        _ => (60_000, 30_000, 20_000),
    };
    let window = 1 + random.below(most);
    let mut of_streams = || 1 + random.below(most_of_streams);
    let settings = Settings::small()
        .conn_window(window)
        .bidi_local_window(of_streams())
        .bidi_remote_window(of_streams())
        .uni_window(of_streams())
        .send_buffer(1 + random.below(buffer) as usize)
        .bidi_streams(random.below(5), 5 + random.below(5))
        .uni_streams(random.below(5), 5 + random.below(5));
    (settings, window)
}

impl Run {
    fn new(seed: u64) -> Run {
        let mut random = Random::new(seed);
        let (one, other) = (settings(&mut random, seed), settings(&mut random, seed));
        Run {
            seed,
            ends: [
                Doubled::new(Role::Client, one.0, other.0),
                Doubled::new(Role::Server, other.0, one.0),
            ],
            windows: [one.1, other.1],
            packets: [Vec::new(), Vec::new()],
            lanes: [BTreeMap::new(), BTreeMap::new()],
            accepted: BTreeSet::new(),
            random,
            counts: Counts::default(),
        }
    }

    fn event(&mut self) {
        let side = self.random.below(2) as usize;
        match self.random.below(22) {
            0 => self.open(side),
            1 => self.accept(side),
            2..=4 => self.write(side),
            5 => self.finish_or_break(side),
            6..=8 => self.read(side),
            9..=11 => _ = self.fill_packet(side),
            12 | 13 => _ = self.make(side),
            14..=17 => self.deliver(side),
            18 | 19 => self.acknowledge(side),
            20 => self.lose(side),
            _ => self.disturb(side),
        }
        self.look(side);
    }

    fn open(&mut self, side: usize) {
        let dir = [Dir::Bidi, Dir::Uni][self.random.below(2) as usize];
        if let Ok(stream) = self.ends[side].both(|end| end.open(dir)) {
            self.lanes[side].entry(stream).or_default();
            if dir == Dir::Bidi {
                self.lanes[1 - side].entry(stream).or_default();
            }
        }
    }

    fn accept(&mut self, side: usize) {
        let dir = [None, Some(Dir::Bidi), Some(Dir::Uni)][self.random.below(3) as usize];
        let accepted = self.ends[side].both(|end| match dir {
            Some(dir) => end.accept_of(dir),
            None => end.accept(),
        });
        if let Some(stream) = accepted {
            assert!(self.lanes[1 - side].contains_key(&stream), "{stream}");
            assert!(self.accepted.insert(stream), "{stream} was accepted before");
        }
    }

    // A stream on which an end sends, as far as it is known.
    fn a_lane(&mut self, sender: usize) -> Option<StreamId> {
        let known = self.lanes[sender].len() as u64;
        let place = self.random.below(known.max(1)) as usize;
        self.lanes[sender].keys().nth(place).copied()
    }

    fn write(&mut self, side: usize) {
        let Some(stream) = self.a_lane(side) else {
            return;
        };
        let most = if self.random.chance(5) { 9000 } else { 600 };
        let count = self.random.below(most) as usize;
        let bytes = self.random.bytes(count);
        let written = self.ends[side].both(|end| end.write(stream, &bytes));
        let lane = self.lanes[side].get_mut(&stream).expect("known");
        match written {
            Ok(count) => {
                assert!(!lane.finished && lane.reset.is_none(), "{stream}");
                lane.written.extend_from_slice(&bytes[..count]);
            }
            Err(UseFault::Finished) => assert!(lane.finished, "{stream}"),
            Err(UseFault::WasReset) => assert!(lane.is_broken(), "{stream}"),
            // The peer opened it, and this end doesn't know yet.
            Err(UseFault::NoSuchStream) => {}
            Err(fault) => panic!("{stream}: {fault}"),
        }
    }

    fn finish_or_break(&mut self, side: usize) {
        let Some(stream) = self.a_lane(side) else {
            return;
        };
        let code = self.random.below(9);
        let [sender, reader] = [side, 1 - side];
        let lane = self.lanes[side].get_mut(&stream).expect("known");
        match self.random.below(6) {
            0 => {
                if self.ends[sender]
                    .both(|end| end.reset(stream, code))
                    .is_ok()
                {
                    lane.reset = lane.reset.or(Some(code));
                }
            }
            1 => {
                if self.ends[reader].both(|end| end.stop(stream, code)).is_ok() {
                    lane.stopped = lane.stopped.or(Some(code));
                }
            }
            _ => {
                if self.ends[sender].both(|end| end.finish(stream)).is_ok() {
                    lane.finished = true;
                }
            }
        }
    }

    // An end reads what the other one wrote.
    fn read(&mut self, side: usize) {
        if let Some(stream) = self.a_lane(1 - side) {
            let size = self.random.below(1500) as usize;
            self.read_some(side, stream, size);
        }
    }

    // Whether bytes were read, or an end was told for the first time.
    fn read_some(&mut self, side: usize, stream: StreamId, size: usize) -> bool {
        let lane = self.lanes[1 - side].get_mut(&stream).expect("known");
        let before = lane.told;
        let (read, into) = self.ends[side].both(|end| {
            let mut into = vec![0; size];
            (end.read(stream, &mut into), into)
        });
        match read {
            Ok(Read::Bytes(count)) => {
                let next = &lane.written[lane.read..lane.read + count];
                assert_eq!(&into[..count], next, "{stream}");
                assert!(lane.stopped.is_none(), "{stream}");
                lane.read += count;
                self.counts.read += count;
                return count > 0;
            }
            Ok(Read::End) => {
                let is_whole = lane.read == lane.written.len();
                assert!(lane.finished && (is_whole || lane.stopped.is_some()));
                lane.told = Some(Read::End);
            }
            Ok(Read::Reset(code)) => {
                assert!([lane.reset, lane.stopped].contains(&Some(code)), "{stream}");
                lane.told = Some(Read::Reset(code));
            }
            Ok(Read::Wait) => assert_eq!(lane.told, None, "{stream}"),
            Err(fault) => assert_eq!(fault, UseFault::NoSuchStream, "{stream}"),
        }
        lane.told != before
    }

    fn a_room(&mut self) -> usize {
        let room = match self.random.below(8) {
            0 => self.random.below(MIN_FILL as u64),
            1 => MIN_FILL as u64,
            2 => 25 + self.random.below(40),
            3 | 4 => self.random.below(300),
            5 | 6 => self.random.below(1400),
            _ => self.random.below(5000),
        };
        room as usize
    }

    fn a_want(&mut self, side: usize) -> Want {
        let kinds = self.random.below(4);
        let (stream, which) = (self.a_lane(side), self.random.below(4));
        Want {
            items: kinds != 0,
            streams: kinds != 1,
            from: stream.filter(|_| which == 1),
            only: stream.filter(|_| which == 2),
        }
    }

    // A packet of the stack's own frames and of some fills. Whether there was a fill.
    fn fill_packet(&mut self, side: usize) -> bool {
        let mut draft = Draft::default();
        for _ in 0..self.random.below(4).saturating_sub(1) {
            let mut out = [0; 40];
            let frame = &OWN[self.random.below(4) as usize];
            let len = put(frame, &mut out).expect("room");
            draft.text.extend_from_slice(&out[..len]);
        }
        for _ in 0..1 + self.random.below(3) {
            let (want, room) = (self.a_want(side), self.a_room());
            self.fill(side, &want, room, &mut draft);
        }
        self.send(side, draft)
    }

    fn send(&mut self, side: usize, draft: Draft) -> bool {
        let is_sent = !draft.tokens.is_empty();
        if is_sent {
            self.counts.packets += 1;
            self.packets[side].push(Packet::new(draft));
        }
        is_sent
    }

    // Fills in once, and looks at what went in and at what `more` says.
    fn fill(&mut self, side: usize, want: &Want, room: usize, draft: &mut Draft) -> bool {
        let Some((filled, text)) = self.fill_both(side, want, room) else {
            if room >= MIN_FILL {
                self.nothing_goes(side, want);
            }
            return false;
        };
        self.counts.fills += 1;
        self.look_at_text(side, want, &filled, &text);
        draft.tokens.push(filled.token);
        draft.text.extend_from_slice(&text);
        if !filled.more {
            let room = MIN_FILL + self.random.below(200) as usize;
            assert_eq!(self.fill_both(side, want, room), None, "{want:?}");
            self.nothing_goes(side, want);
        } else if self.random.chance(30) {
            let more = self.fill(side, want, MIN_FILL, draft);
            assert!(more, "{want:?}");
        }
        true
    }

    // An end and its double fill: the double at times into a room that is just as long as the text.
    fn fill_both(&mut self, side: usize, want: &Want, room: usize) -> Option<(Filled, Vec<u8>)> {
        let is_exact = self.random.chance(30);
        let Doubled { end, double } = &mut self.ends[side];
        let filled = fill_one(end, want, room);
        let exact = filled.as_ref().map(|(filled, _)| filled.len);
        let room = exact.filter(|_| is_exact).unwrap_or(room);
        assert_eq!(fill_one(double, want, room), filled, "{want:?}, {room}");
        filled
    }

    // Nothing of what is wanted may go.
    fn nothing_goes(&self, side: usize, want: &Want) {
        let end = &self.ends[side].end;
        for &stream in self.lanes[side].keys().filter(|&&s| want.has(s)) {
            // Lost bytes and an end need no credit.
            let needs_none = end.credit_left() > 0 || end.unsent(stream) == 0;
            let is_due = end.next_sendable(stream) == Some(stream);
            assert!(!(is_due && needs_none), "{stream}, {want:?}");
        }
        let zero = StreamId::new(0).expect("a number");
        if want.items && want.streams && want.only.is_none() {
            assert!(!end.is_sendable(), "{want:?}");
        } else if want.items && end.is_sendable() {
            assert!(end.next_sendable(zero).is_some(), "an item is due");
        }
    }

    // Only what is wanted is in the text, in order; bytes are those that were written, and none that were acknowledged.
    fn look_at_text(&self, side: usize, want: &Want, filled: &Filled, text: &[u8]) {
        let mut streams = Vec::new();
        for frame in all_frames(text) {
            if let Frame::Stream { stream, .. } = frame {
                assert!(want.has(stream), "{stream}, {want:?}");
                self.look_at_bytes(side, &frame);
                streams.push(stream);
            } else {
                assert!(want.items && is_item(&frame), "{frame:?}, {want:?}");
                assert!(streams.is_empty(), "items come first");
            }
        }
        assert_eq!(filled.last_stream, streams.last().copied());
        let first = want.from.or(want.only);
        assert!(streams.is_sorted_by_key(|&stream| (Some(stream) < first, stream)));
    }

    fn look_at_bytes(&self, side: usize, frame: &Frame<'_>) {
        let Frame::Stream {
            stream,
            offset,
            fin,
            bytes,
        } = *frame
        else {
            return;
        };
        let lane = &self.lanes[side][&stream];
        let (from, to) = (offset as usize, offset as usize + bytes.len());
        assert_eq!(bytes, &lane.written[from..to], "{stream}");
        assert!(
            !fin || lane.finished && to == lane.written.len(),
            "{stream}"
        );
        assert!(!lane.acked.has_of(from, to), "{stream}, {from}");
    }

    // A packet that the end makes by itself. Whether there was one.
    fn make(&mut self, side: usize) -> bool {
        let room = 128 + self.random.below(1200) as usize;
        let first = self.a_lane(side).filter(|_| self.random.chance(50));
        let (made, out) = self.ends[side].both(|end| {
            let mut out = vec![UNTOUCHED; room];
            let made = match first {
                Some(first) => end.make_packet_from(first, 5, &mut out),
                None => end.make_packet(&mut out),
            };
            (made.expect("open, and with memory"), out)
        });
        let Some(Made { number, len, .. }) = made else {
            return false;
        };
        let token = self.ends[side].end.token_of(number);
        let (tokens, text) = (vec![token], out[..len].to_vec());
        self.send(side, Draft { tokens, text })
    }

    // The place of one of the last packets of an end, most often; or of an older one.
    fn a_packet(&mut self, side: usize) -> Option<usize> {
        let count = self.packets[side].len() as u64;
        let back = if self.random.chance(80) { 4 } else { count };
        let back = self.random.below(back.min(count).max(1));
        (count > 0).then(|| (count - 1 - back) as usize)
    }

    // A packet comes, whole as a payload or by its frames, all of them or some, in any order.
    fn deliver(&mut self, side: usize) {
        let Some(place) = self.a_packet(side) else {
            return;
        };
        match self.random.below(6) {
            0 | 1 => self.receive(side, place),
            2..=4 => self.take_all(side, place),
            _ => {
                let packet = &self.packets[side][place];
                let at = self.random.below(packet.taken.len() as u64);
                self.take(side, place, at as usize);
            }
        }
    }

    fn receive(&mut self, side: usize, place: usize) {
        let packet = &self.packets[side][place];
        let (number, text) = (packet.tokens[0].number, packet.text.clone());
        match self.ends[1 - side].both(|end| end.receive(number, &text)) {
            Ok(Received::Done) => {
                self.counts.payloads += 1;
                self.packets[side][place].taken.fill(true);
                for frame in all_frames(&text) {
                    self.note_taken(side, &frame);
                }
            }
            Ok(Received::Duplicate) => assert!(packet.is_taken()),
            Ok(Received::BelowFloor) => {}
            other => panic!("packet {number}: {other:?}"),
        }
    }

    fn take_all(&mut self, side: usize, place: usize) {
        let count = self.packets[side][place].taken.len();
        let mut order: Vec<usize> = (0..count).collect();
        for at in (1..count).rev() {
            order.swap(at, self.random.below(at as u64 + 1) as usize);
        }
        for at in order {
            self.take(side, place, at);
            if self.random.chance(20) {
                self.tell_again(1 - side);
            }
        }
    }

    // A frame of a packet is handed in. One that was taken, or is of another kind, changes nothing.
    fn take(&mut self, side: usize, place: usize, at: usize) {
        let packet = &mut self.packets[side][place];
        let was_taken = std::mem::replace(&mut packet.taken[at], true);
        let text = packet.text.clone();
        let frame = all_frames(&text)[at];
        if !is_ours(&frame) {
            return self.take_foreign(1 - side, &frame);
        }
        if was_taken {
            self.counts.again += 1;
            let streams = self.streams();
            let taken = self.ends[1 - side].idle(&streams, |end| end.take_frame(&frame));
            assert_eq!(taken, Ok(Taken::Unchanged), "{frame:?}");
        } else {
            self.counts.frames += 1;
            self.ends[1 - side].take(&frame);
            self.note_taken(side, &frame);
        }
    }

    fn take_foreign(&mut self, side: usize, frame: &Frame<'_>) {
        self.counts.foreign += 1;
        let streams = self.streams();
        let taken = self.ends[side].idle(&streams, |end| end.take_frame(frame));
        assert_eq!(taken, Ok(Taken::NotOurs), "{frame:?}");
    }

    fn streams(&self) -> Vec<StreamId> {
        self.lanes
            .iter()
            .flat_map(BTreeMap::keys)
            .copied()
            .collect()
    }

    fn note_taken(&mut self, side: usize, frame: &Frame<'_>) {
        match *frame {
            Frame::Stream {
                stream,
                offset,
                bytes,
                ..
            } => {
                let lane = self.lanes[side].get_mut(&stream).expect("known");
                let end = offset + bytes.len() as u64;
                lane.came.put(offset as usize, end as usize);
                lane.highest = lane.highest.max(end);
            }
            Frame::ResetStream {
                stream, final_size, ..
            } => {
                let lane = self.lanes[side].get_mut(&stream).expect("known");
                lane.highest = lane.highest.max(final_size);
            }
            _ => {}
        }
    }

    // A packet each of whose frames was taken is acknowledged: in time, late, or once more.
    fn acknowledge(&mut self, side: usize) {
        let Some(place) = self.a_packet(side) else {
            return;
        };
        if self.packets[side][place].is_taken() {
            self.acked(side, place);
            if self.random.chance(30) {
                self.tell_again(side);
            }
        }
    }

    fn acked(&mut self, side: usize, place: usize) {
        let packet = &mut self.packets[side][place];
        let was = std::mem::replace(&mut packet.fate, Fate::Acked);
        let (tokens, text) = (packet.tokens.clone(), packet.text.clone());
        self.counts.late += usize::from(was == Fate::Lost);
        let streams = self.streams();
        for &token in tokens.iter().rev() {
            let told = if was == Fate::Acked {
                self.ends[side].idle(&streams, |end| end.acked(token))
            } else {
                self.ends[side].both(|end| end.acked(token))
            };
            assert_eq!(told, Ok(()));
        }
        for frame in all_frames(&text) {
            let Frame::Stream {
                stream,
                offset,
                bytes,
                ..
            } = frame
            else {
                continue;
            };
            let lane = self.lanes[side].get_mut(&stream).expect("known");
            let from = offset as usize;
            lane.acked.put(from, from + bytes.len());
        }
    }

    fn lose(&mut self, side: usize) {
        if let Some(place) = self.a_packet(side) {
            self.lost(side, place);
        }
    }

    // A packet is lost. One that is done stays as it is.
    fn lost(&mut self, side: usize, place: usize) {
        let by_number = self.random.chance(20);
        let packet = &mut self.packets[side][place];
        let (was, tokens) = (packet.fate, packet.tokens.clone());
        if was == Fate::UnderWay {
            packet.fate = Fate::Lost;
            self.counts.lost += 1;
        }
        let streams = self.streams();
        for token in tokens {
            let tell = |end: &mut Endpoint| {
                if by_number {
                    let told = end.declare_lost(token.number);
                    assert!(matches!(told, Ok(()) | Err(LostFault::NotOutstanding)));
                } else {
                    assert_eq!(end.lost(token), Ok(()));
                }
            };
            if was == Fate::UnderWay {
                self.ends[side].both(tell);
            } else {
                self.ends[side].idle(&streams, tell);
            }
        }
    }

    // A frame of the stack's own, a token that was never given, or one of a packet that is done.
    fn disturb(&mut self, side: usize) {
        match self.random.below(4) {
            0 => self.tell_unknown(side),
            1 => self.tell_again(side),
            _ => {
                let all = [&OWN[..], &STRANGE[..]].concat();
                let place = self.random.below(all.len() as u64) as usize;
                self.take_foreign(side, &all[place]);
            }
        }
    }

    // A packet that is done is acknowledged again, or a frame that was taken comes again.
    fn tell_again(&mut self, side: usize) {
        if self.random.chance(50) {
            let done = |packet: &Packet| packet.fate == Fate::Acked;
            if let Some(place) = self.packets[side].iter().position(done) {
                self.acked(side, place);
            }
        } else if let Some(place) = self.a_packet(1 - side) {
            let taken = &self.packets[1 - side][place].taken;
            if let Some(at) = taken.iter().position(|&taken| taken) {
                self.take(1 - side, place, at);
            }
        }
    }

    fn tell_unknown(&mut self, side: usize) {
        let number = self.ends[side].end.next_number() + self.random.below(5);
        let (streams, token) = (self.streams(), self.ends[side].end.token_of(number));
        self.ends[side].idle(&streams, |end| {
            assert_eq!(end.acked(token), Err(TokenFault::NotGiven));
            assert_eq!(end.lost(token), Err(TokenFault::NotGiven));
            let lost = end.declare_lost(number);
            assert_eq!(lost, Err(LostFault::NotOutstanding));
        });
    }

    // What stands after every call.
    fn look(&self, side: usize) {
        let end = &self.ends[side].end;
        assert_eq!((end.closing(), end.peer_closed()), (None, None));
        let incoming = self.lanes[1 - side].values();
        let (read, spent) = incoming.fold((0, 0), |(read, spent), lane| {
            (read + lane.read as u64, spent + lane.highest)
        });
        assert_eq!(end.spent(), spent);
        assert!(end.stored() <= self.windows[side] && end.stored() + read <= spent);
        assert!(spent <= end.granted());
        for (&stream, lane) in &self.lanes[side] {
            let below = end.acked_below(stream).unwrap_or(0) as usize;
            if end
                .report(stream)
                .and_then(|report| report.send)
                .is_none_or(|half| half.reset_code.is_none())
            {
                assert!(below >= lane.acked.low, "{stream}: {below}");
                assert!(below <= lane.came.low, "{stream}: {below}");
            }
        }
    }
}

/// How a run comes to its end.
impl Run {
    // All that isn't acknowledged is lost; from then on each packet comes and is acknowledged, and readers read on.
    fn drain(&mut self) {
        for side in 0..2 {
            if self.random.chance(50) {
                self.finish_all(side);
            }
            for place in 0..self.packets[side].len() {
                self.lost(side, place);
            }
        }
        loop {
            let moved = [0, 1].map(|side| self.send_all(side) | self.read_all(side));
            if moved == [false; 2] {
                break;
            }
        }
    }

    fn finish_all(&mut self, side: usize) {
        for (&stream, lane) in &mut self.lanes[side] {
            if self.ends[side].both(|end| end.finish(stream)).is_ok() {
                lane.finished = true;
            }
        }
    }

    fn send_all(&mut self, side: usize) -> bool {
        let mut moved = false;
        while self.send_next(side) {
            let place = self.packets[side].len() - 1;
            assert!(place < 20_000, "it doesn't end");
            if self.random.chance(50) {
                self.receive(side, place);
            } else {
                self.take_all(side, place);
            }
            if self.packets[side][place].is_taken() {
                self.acked(side, place);
            } else {
                self.lost(side, place);
            }
            moved = true;
        }
        moved
    }

    fn send_next(&mut self, side: usize) -> bool {
        if self.random.chance(30) {
            return self.make(side);
        }
        let mut draft = Draft::default();
        let room = MIN_FILL + self.random.below(1200) as usize;
        self.fill(side, &Want::all(), room, &mut draft);
        self.send(side, draft)
    }

    fn read_all(&mut self, side: usize) -> bool {
        self.accept(side);
        let mut moved = false;
        for stream in self.lanes[1 - side].keys().copied().collect::<Vec<_>>() {
            while self.read_some(side, stream, 700) {
                moved = true;
            }
        }
        self.look(side);
        moved
    }

    // Nothing is left to send, and each finished stream is whole at both ends.
    fn look_at_end(&self) {
        let streams = self.streams();
        for side in 0..2 {
            self.ends[side].compare(&streams);
            let end = &self.ends[side].end;
            assert!(!end.is_sendable());
            self.nothing_goes(side, &Want::all());
            for (&stream, lane) in &self.lanes[side] {
                let half = end.report(stream).and_then(|report| report.send);
                if let Some(half) = half {
                    look_at_rest(lane, half.state);
                    assert!(lane.is_broken() || end.unsent(stream) == 0, "{stream}");
                }
            }
        }
    }
}

// What both ends know of a stream whose run is drained.
fn look_at_rest(lane: &Lane, state: SendState) {
    if lane.is_broken() {
        assert!(matches!(
            state,
            SendState::DataRecvd | SendState::ResetRecvd
        ));
        assert!(lane.told.is_some());
        return;
    }
    assert_eq!(lane.read, lane.written.len());
    assert_eq!(lane.told, lane.finished.then_some(Read::End));
    assert_eq!(state == SendState::DataRecvd, lane.finished);
}

#[test]
fn random_runs_by_frames_and_tokens_keep_to_the_model() {
    let mut all = Counts::default();
    for seed in 0..SEEDS {
        let mut run = Run::new(seed);
        for _ in 0..EVENTS {
            run.event();
        }
        run.drain();
        run.look_at_end();
        all.add(&run.counts);
    }
    all.tell();
    assert!(all.read > 500_000 && all.late > 1000 && all.again > 10_000);
}
