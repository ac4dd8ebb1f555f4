//! Random runs of two ends, each led to rest by laps, whose number is held against the bound of the law `rest_comes` (docs/PROOF.md): by
//! payloads, by frames and tokens, and by both. A lap ends here as soon as it is one, so that there are as many as can be.
//!
//! Slips that were planted in a copy, one at a time, and that these tests found: MAX_DATA, MAX_STREAM_DATA, MAX_STREAMS, STREAMS_BLOCKED,
//! RESET_STREAM, DATA_BLOCKED or STREAM_DATA_BLOCKED is told again though it was acknowledged. And of the tests themselves: packets are lost
//! in a lap, or it ends while one is outstanding, an end never had nothing more to send, or its readers nothing more to read; the
//! bound leaves out the bytes.

mod support;

use gotsavena::{
    Dir, Endpoint, Frame, LostFault, OpenFault, Read, Received, SendState, Settings, StreamId,
    Taken, Token, UseFault,
};
use support::doubled::{Want, all_frames, fill_one, is_ours};
use support::{Random, two_ends};

const SEEDS: u64 = 300;
const EVENTS: usize = 60;
/// How often anything happens between the laps of a run.
const STRETCHES: u64 = 3;
/// A lap that isn't one after so many calls never ends.
const MOST_CALLS: usize = 20_000;

/// How packets come, and how they are acknowledged.
#[derive(Clone, Copy, PartialEq)]
enum By {
    Payloads,
    Frames,
    Both,
}

/// A packet: its token, its bytes, which of its frames the peer took, and whether it came too late to be taken as a payload.
struct Packet {
    token: Token,
    text: Vec<u8>,
    taken: Vec<bool>,
    is_late: bool,
}

struct Run {
    by: By,
    ends: [Endpoint; 2],
    /// The windows of the connection and of each stream, each less its step of a half.
    widths: (u64, u64),
    packets: [Vec<Packet>; 2],
    streams: Vec<StreamId>,
    /// Bytes that were written and streams that were opened, at both ends.
    written: u64,
    opened: u64,
    random: Random,
    /// Whether readers read at any time, or only where nothing else is left to do in a lap; and whether they may now.
    reads_late: bool,
    may_read: bool,
    calls: usize,
    laps: u64,
    stretches: u64,
    what: String,
}

// Windows of some bytes, or small ones, or greater; each is moved by half.
fn settings(random: &mut Random, seed: u64) -> (Settings, (u64, u64)) {
    let most = [1, 4, 64, 1024][(seed / 3 % 4) as usize];
    let at_first = random.below(3);
    let (conn, stream) = (1 + random.below(most), 1 + random.below(most));
    let settings = Settings::small()
        .conn_window(conn)
        .stream_windows(stream)
        .send_buffer(1 + random.below(2 * most) as usize)
        .streams(at_first, at_first + 1 + random.below(4));
    (settings, (width(conn), width(stream)))
}

// A window less its step, of a half.
fn width(window: u64) -> u64 {
    window - (window / 2).max(1)
}

impl Run {
    fn new(seed: u64) -> Run {
        let mut random = Random::new(seed);
        let (settings, widths) = settings(&mut random, seed);
        Run {
            by: [By::Payloads, By::Frames, By::Both][(seed % 3) as usize],
            ends: two_ends(settings),
            widths,
            packets: [Vec::new(), Vec::new()],
            streams: Vec::new(),
            written: 0,
            opened: 0,
            random,
            reads_late: seed / 12 % 2 == 1,
            may_read: true,
            calls: 0,
            laps: 0,
            stretches: 0,
            what: format!("seed {seed}"),
        }
    }

    /// What can be done for good. No window and no grant is set here, so nothing is added for those.
    fn most(&self) -> u64 {
        9 * self.written + 20 * self.opened + 6
    }

    /// The bound of `rest_comes`.
    fn bound(&self) -> u64 {
        2 * self.most() + self.stretches + 1
    }

    // How many bytes of a stream an end sent.
    fn sent(&self, side: usize, stream: StreamId) -> u64 {
        let half = self.ends[side]
            .report(stream)
            .and_then(|report| report.send);
        half.map_or(0, |half| match half.state {
            SendState::ResetSent | SendState::ResetRecvd => half.final_size.expect("declared"),
            _ => half.written - self.ends[side].unsent(stream),
        })
    }

    /// Three times as many as the law `rest_comes_in_rounds` allows rounds, by the widths that were filled: no law of laps.
    fn by_windows(&self) -> u64 {
        let (conn, stream) = self.widths;
        let filled = |side| {
            let sent = self.streams.iter().map(|&s| self.sent(side, s));
            let each: u64 = sent.clone().map(|sent| sent / (stream + 1)).sum();
            sent.sum::<u64>() / (conn + 1) + each
        };
        3 * (2 * (filled(0) + filled(1)) + 5 * self.stretches + 5)
    }

    // Nothing is lost, asked for, set or closed.
    fn calm_call(&mut self) {
        let side = self.random.below(2) as usize;
        match self.random.below(9) {
            0 | 1 => self.make(side),
            2..=4 => self.deliver(side),
            5 if self.may_read => self.read(side),
            5 => {}
            6 if self.by != By::Frames => self.make_ack(side),
            6 | 7 => self.acknowledge(side),
            _ => _ = self.ends[side].accept(),
        }
        self.calls += 1;
    }

    fn any_call(&mut self) {
        let side = self.random.below(2) as usize;
        match self.random.below(12) {
            0 | 1 => self.open(side),
            2 | 3 => self.write(side),
            4 => self.end_stream(side),
            5 => self.lose(side),
            _ => self.calm_call(),
        }
    }

    fn open(&mut self, side: usize) {
        let dir = [Dir::Bidi, Dir::Uni][self.random.below(2) as usize];
        match self.ends[side].open(dir) {
            Ok(stream) => {
                self.streams.push(stream);
                self.opened += 1;
            }
            Err(fault) => assert!(matches!(fault, OpenFault::Blocked(_)), "{}", self.what),
        }
    }

    fn a_stream(&mut self) -> Option<StreamId> {
        let place = self.random.below(self.streams.len().max(1) as u64);
        self.streams.get(place as usize).copied()
    }

    fn write(&mut self, side: usize) {
        let Some(stream) = self.a_stream() else {
            return;
        };
        let bytes = vec![7; 1 + self.random.below(60) as usize];
        match self.ends[side].write(stream, &bytes) {
            Ok(count) => self.written += count as u64,
            Err(fault) => assert_ne!(fault, UseFault::Closed, "{}", self.what),
        }
    }

    fn end_stream(&mut self, side: usize) {
        let Some(stream) = self.a_stream() else {
            return;
        };
        let code = self.random.below(9);
        match self.random.below(6) {
            0 => _ = self.ends[side].reset(stream, code),
            1 => _ = self.ends[side].stop(stream, code),
            _ => _ = self.ends[side].finish(stream),
        }
    }

    fn lose(&mut self, side: usize) {
        let number = self.random.below(self.packets[side].len() as u64 + 1);
        match self.ends[side].declare_lost(number) {
            Ok(()) | Err(LostFault::NotOutstanding) => {}
            Err(fault) => panic!("{}: {fault}", self.what),
        }
    }

    // A packet, by a payload that the end makes or by a fill.
    fn make(&mut self, side: usize) {
        let by_payload = match self.by {
            By::Payloads => true,
            By::Frames => false,
            By::Both => self.random.chance(50),
        };
        let room = 64 + self.random.below(600) as usize;
        if by_payload {
            let mut out = vec![0; 64 + room];
            let made = self.ends[side].make_packet(&mut out).expect("open");
            let text = made.map(|made| out[..made.len].to_vec());
            self.keep(side, text);
        } else {
            self.fill(side, room);
        }
    }

    fn fill(&mut self, side: usize, room: usize) {
        let filled = fill_one(&mut self.ends[side], &Want::all(), room);
        self.keep(side, filled.map(|(_, text)| text));
    }

    fn make_ack(&mut self, side: usize) {
        let mut out = [0; 1200];
        let made = self.ends[side].make_ack(0, &mut out).expect("open");
        self.keep(side, made.map(|made| out[..made.len].to_vec()));
    }

    // Numbers and tokens are one count.
    fn keep(&mut self, side: usize, text: Option<Vec<u8>>) {
        if let Some(text) = text {
            let number = self.packets[side].len() as u64;
            assert_eq!(self.ends[side].next_number(), number + 1);
            self.packets[side].push(Packet {
                token: self.ends[side].token_of(number),
                taken: vec![false; all_frames(&text).len()],
                text,
                is_late: false,
            });
        }
    }

    // The first packet that didn't come, most often; or any, which may have come before, or be lost.
    fn deliver(&mut self, side: usize) {
        let first = self.packets[side].iter().position(|p| !p.has_landed());
        let any = self.random.below(self.packets[side].len().max(1) as u64) as usize;
        let place = first.filter(|_| self.random.chance(70)).unwrap_or(any);
        let by_payload = match self.by {
            By::Payloads => true,
            By::Frames => false,
            By::Both => self.random.chance(50),
        };
        match self.packets[side].get(place) {
            Some(packet) if by_payload && !packet.is_late => self.receive(side, place),
            Some(_) => self.take(side, place),
            None => {}
        }
    }

    fn receive(&mut self, side: usize, place: usize) {
        let packet = &mut self.packets[side][place];
        match self.ends[1 - side].receive(place as u64, &packet.text) {
            Ok(Received::Done | Received::Duplicate) => packet.taken.fill(true),
            Ok(Received::BelowFloor) => packet.is_late = true,
            other => panic!("{}: packet {place}: {other:?}", self.what),
        }
    }

    // Frames of a packet, from one of them on.
    fn take(&mut self, side: usize, place: usize) {
        let packet = &mut self.packets[side][place];
        let frames = all_frames(&packet.text);
        let from = self.random.below(frames.len() as u64) as usize;
        for (at, frame) in frames.iter().enumerate().skip(from) {
            let told = self.ends[1 - side].take_frame(frame);
            assert!(told.is_ok(), "{}: {frame:?}", self.what);
            assert_eq!(told == Ok(Taken::NotOurs), !is_ours(frame));
            packet.taken[at] = true;
        }
    }

    // The first outstanding packet, or any other one, is acknowledged by its token, if all of it came: where ACKs come, only one that was
    // late.
    fn acknowledge(&mut self, side: usize) {
        let first = self.ends[side].next_outstanding(0).map(|k| k as usize);
        let any = self.random.below(self.packets[side].len().max(1) as u64) as usize;
        let place = first.filter(|_| self.random.chance(50)).unwrap_or(any);
        let packet = self.packets[side].get(place);
        let is_told =
            |packet: &&Packet| packet.has_landed() && (packet.is_late || self.by != By::Payloads);
        if let Some(packet) = packet.filter(is_told) {
            assert_eq!(self.ends[side].acked(packet.token), Ok(()));
        }
    }

    fn read(&mut self, side: usize) {
        let first = StreamId::new(0).expect("a number");
        if let Some(stream) = self.ends[side].next_readable(first) {
            let mut into = vec![0; 1 + self.random.below(40) as usize];
            let read = self.ends[side].read(stream, &mut into);
            assert!(!matches!(read, Ok(Read::Wait) | Err(_)), "{}", self.what);
        }
    }
}

impl Packet {
    fn has_landed(&self) -> bool {
        self.taken.iter().all(|&taken| taken)
    }
}

fn is_spent(end: &Endpoint) -> bool {
    !end.is_sendable()
}

fn is_read(end: &Endpoint) -> bool {
    let first = StreamId::new(0).expect("a number");
    end.next_readable(first).is_none()
}

fn is_at_rest(end: &Endpoint) -> bool {
    is_spent(end) && is_read(end) && end.next_outstanding(0).is_none()
}

impl Run {
    // A lap as the law has it: calm calls, until all that was outstanding as it began is acknowledged, and each end had nothing more to
    // send, and its readers nothing more to read, after some call of it.
    fn lap(&mut self) {
        let began = [0, 1].map(|side| self.ends[side].next_number());
        let (mut spent, mut read) = ([false; 2], [false; 2]);
        let (calls, mut has_landed) = (self.calls, false);
        loop {
            self.may_read = !self.reads_late || has_landed && spent == [true; 2];
            self.calm_call();
            has_landed = true;
            for side in 0..2 {
                let end = &self.ends[side];
                spent[side] |= is_spent(end);
                read[side] |= is_read(end);
                has_landed &= end.next_outstanding(0).is_none_or(|k| k >= began[side]);
            }
            if has_landed && spent == [true; 2] && read == [true; 2] {
                self.laps += 1;
                let what = &self.what;
                assert!(self.laps <= self.bound(), "{what}: {} laps", self.laps);
                return;
            }
            assert!(self.calls - calls < MOST_CALLS, "{}: no lap", self.what);
        }
    }

    // As slow a lap: what each end had to send, its readers to read and the layer beneath to deliver as it began is done, in this order, and
    // nothing that follows from it.
    fn lazy_lap(&mut self) {
        let out = [0, 1].map(|side| self.outstanding(side));
        let may_send = [0, 1].map(|side| !is_spent(&self.ends[side]));
        let may_read = [0, 1].map(|side| !is_read(&self.ends[side]));
        for (side, may_send) in may_send.into_iter().enumerate() {
            while may_send && self.ends[side].is_sendable() {
                self.fill(side, 600);
            }
        }
        for (side, may_read) in may_read.into_iter().enumerate() {
            while may_read && !is_read(&self.ends[side]) {
                self.read(side);
            }
        }
        for (side, out) in out.into_iter().enumerate() {
            for place in out {
                let packet = &self.packets[side][place];
                let frames = all_frames(&packet.text);
                assert!(self.ends[1 - side].take_frames(&frames).is_ok());
                assert_eq!(self.ends[side].acked(packet.token), Ok(()));
            }
        }
        self.laps += 1;
    }

    fn outstanding(&self, side: usize) -> Vec<usize> {
        let next = |from| self.ends[side].next_outstanding(from);
        let all = std::iter::successors(next(0), |&number| next(number + 1));
        all.map(|number| number as usize).collect()
    }

    // Laps, of which none begins at rest, and between them stretches in which anything happens.
    fn course(&mut self, lap: fn(&mut Run)) {
        for _ in 0..EVENTS {
            self.any_call();
        }
        for _ in 0..STRETCHES {
            for _ in 0..self.random.below(40) {
                if self.ends.iter().all(is_at_rest) {
                    break;
                }
                lap(self);
            }
            self.may_read = true;
            for _ in 0..self.random.below(EVENTS as u64) {
                self.any_call();
            }
            self.stretches += 1;
        }
        while !self.ends.iter().all(is_at_rest) {
            lap(self);
        }
    }
}

// A run by frames is led to rest by laps that are as slow as they can be.
fn lazy_run(seed: u64) -> Run {
    let mut run = Run::new(seed / 3 * 3 + 1);
    assert!(run.by == By::Frames);
    run.course(Run::lazy_lap);
    run
}

/// Lazy laps need more than others, and no more than three times as many as rounds may be.
#[test]
fn lazy_laps_lead_to_rest() {
    let seeds = seeds();
    let (mut laps, mut nearest) = (0, 0.0_f64);
    for seed in 0..seeds {
        let run = lazy_run(3 * seed);
        let most = run.by_windows();
        assert!(
            run.laps <= most.min(run.bound()),
            "{}: {} laps of {most}",
            run.what,
            run.laps
        );
        nearest = nearest.max(run.laps as f64 / most as f64);
        laps += run.laps;
    }
    println!(
        "{seeds} runs: {laps} lazy laps, {nearest:.3} of three times the bound by windows at most"
    );
    // One window after another takes five laps.
    let mut run = Run::new(1);
    (run.ends, run.widths) = (
        two_ends(Settings::small().conn_window(1000).stream_windows(16)),
        (500, 8),
    );
    let stream = run.ends[0].open(Dir::Uni).expect("granted");
    run.streams.push(stream);
    assert_eq!(run.ends[0].write(stream, &[7; 160]), Ok(160));
    run.written = 160;
    while !run.ends.iter().all(is_at_rest) {
        run.lazy_lap();
    }
    assert!(
        run.laps > 2 * (160 / 9) && run.laps <= run.by_windows(),
        "{} laps",
        run.laps
    );
}

fn seeds() -> u64 {
    std::env::var("LAPS_SEEDS").map_or(SEEDS, |seeds| seeds.parse().expect("a number"))
}

#[test]
fn laps_lead_every_run_to_rest_within_the_bound() {
    let seeds = seeds();
    let (mut laps, mut calls, mut bound, mut stretches) = (0, 0, 0, 0);
    let (mut nearest, mut by_windows) = (0.0_f64, 0.0_f64);
    for seed in 0..seeds {
        let mut run = Run::new(seed);
        run.course(Run::lap);
        laps += run.laps;
        calls += run.calls;
        bound += run.bound();
        stretches += run.stretches;
        nearest = nearest.max(run.laps as f64 / run.bound() as f64);
        let ratio = run.laps as f64 / run.by_windows() as f64;
        assert!(
            ratio <= 1.0,
            "seed {seed}: {} laps, by windows {}",
            run.laps,
            run.by_windows()
        );
        by_windows = by_windows.max(ratio);
    }
    println!(
        "{seeds} runs: {laps} laps of {calls} calls, and {stretches} stretches; {bound} laps may be; {nearest:.3} of these at most, {by_windows:.3} of three times the bound by windows"
    );
    // The runs need more laps than one for each stretch.
    assert!(laps > 2 * stretches, "{laps} laps");
}

/// An end that is blocked says so, and not again once that is acknowledged, though it stays blocked.
#[test]
fn a_blocked_end_says_so_once() {
    for (conn, stream, streams) in [(10, 100, 2), (100, 10, 2), (100, 100, 1)] {
        let [mut client, mut server] = two_ends(
            Settings::small()
                .conn_window(conn)
                .stream_windows(stream)
                .streams(streams, 2),
        );
        let first = client.open(Dir::Bidi).expect("granted");
        assert_eq!(client.open(Dir::Bidi).is_err(), streams == 1);
        assert_eq!(client.write(first, &[7; 50]), Ok(50));
        let mut out = [0; 1200];
        for round in 0..3 {
            let mut said = 0;
            while let Some(made) = client.make_packet(&mut out).expect("open") {
                let text = &out[..made.len];
                said += all_frames(text).iter().filter(|f| is_blocked(f)).count();
                assert_eq!(server.receive(made.number, text), Ok(Received::Done));
            }
            assert_eq!(said, usize::from(round == 0));
            assert!(!client.is_sendable());
            while let Some(made) = server.make_packet(&mut out).expect("open") {
                let text = &out[..made.len];
                assert_eq!(client.receive(made.number, text), Ok(Received::Done));
            }
            assert_eq!(client.next_outstanding(0), None);
        }
    }
}

fn is_blocked(frame: &Frame) -> bool {
    matches!(
        frame,
        Frame::DataBlocked { .. } | Frame::StreamDataBlocked { .. } | Frame::StreamsBlocked { .. }
    )
}
