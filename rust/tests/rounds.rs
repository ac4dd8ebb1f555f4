//! Random courses of rounds, by packets and by tokens, with stretches between them in which anything happens, held against the bounds of the laws
//! `rest_comes_in_rounds` and `all_is_read_in_rounds` (docs/PROOF.md): how many rounds begin before both ends are at rest, and before all
//! that was written was read, by the windows that it fills. And runs that refute less: a term left out, or the fullest stream in place of
//! the sum.

#[path = "support/refusing.rs"]
mod refusing;
mod support;

use gotsavena::{
    Dir, Endpoint, Frame, Received, Role, SendState, Settings, Share, StreamId, Token, Tuning,
};
use refusing::refused;
use std::collections::{HashMap, HashSet};
use support::Random;
use support::doubled::{Want, all_frames, fill_one, is_ours};

const SEEDS: u64 = 300;
/// So many rounds for each stretch, and as many, until all was read, and until both ends are at rest.
const READ: u64 = 3;
const REST: u64 = 5;

/// A window as its reader keeps it, and its steps: that of the connection, or of a stream.
type Window = Option<StreamId>;

/// What the ends exchange: packets with their numbers and ACKs, or frames and tokens.
#[derive(Clone, Copy, PartialEq)]
enum Way {
    Packets,
    Tokens,
}

struct Course {
    way: Way,
    /// What is done in a round at no cost: streams are accepted, events are asked for, and tokens told at once or late.
    random: Random,
    /// The frames that each end took, by their texts.
    taken: [HashSet<String>; 2],
    ends: [Endpoint; 2],
    share: [u64; 2],
    /// The windows of each end as a reader, those in force and the least of the course, each less its step.
    windows: [HashMap<Window, u64>; 2],
    least: [HashMap<Window, u64>; 2],
    streams: Vec<StreamId>,
    packets: [Vec<(Token, Vec<u8>)>; 2],
    /// What each end had sent as the course began.
    began: [HashMap<Window, u64>; 2],
    broken: [Vec<StreamId>; 2],
    /// Rounds that begin before all was read, and those that don't begin at rest.
    unread: u64,
    busy: u64,
    stretches: u64,
}

// A window less its step.
fn width(window: u64, share: u64) -> u64 {
    window - (window / share).max(1)
}

fn share(random: &mut Random) -> (Share, u64) {
    [
        (Share::Half, 2),
        (Share::Quarter, 4),
        (Share::Eighth, 8),
        (Share::Sixteenth, 16),
    ][random.below(4) as usize]
}

fn first() -> StreamId {
    StreamId::new(0).expect("a number")
}

// Whether a frame has to land: of streams and of flow control all but those that tell of a count or of credit that holds an end back.
fn must_land(frame: &Frame) -> bool {
    let tells = matches!(
        frame,
        Frame::DataBlocked { .. } | Frame::StreamsBlocked { .. }
    );
    is_ours(frame) && !tells
}

fn is_at_rest(end: &Endpoint) -> bool {
    !end.is_sendable() && end.next_readable(first()).is_none() && end.next_outstanding(0).is_none()
}

impl Course {
    fn new(settings: Settings, shares: [(Share, u64); 2]) -> Course {
        let end = |role, (share, _)| {
            let tuning = Tuning::default().credit_step(share);
            Endpoint::with_tuning(role, settings, tuning, settings.limits()).expect("they fit")
        };
        let limits = settings.limits();
        Course {
            way: Way::Packets,
            random: Random::new(0),
            taken: [HashSet::new(), HashSet::new()],
            ends: [end(Role::Client, shares[0]), end(Role::Server, shares[1])],
            share: shares.map(|(_, share)| share),
            windows: [0, 1].map(|_| HashMap::from([(None, limits.max_data)])),
            least: [HashMap::new(), HashMap::new()],
            streams: Vec::new(),
            packets: [Vec::new(), Vec::new()],
            began: [HashMap::new(), HashMap::new()],
            broken: [Vec::new(), Vec::new()],
            unread: 0,
            busy: 0,
            stretches: 0,
        }
    }

    fn open(&mut self, side: usize, dir: Dir, window: u64) {
        if let Ok(stream) = self.ends[side].open(dir) {
            self.streams.push(stream);
            for reader in &mut self.windows {
                reader.insert(Some(stream), window);
            }
        }
    }

    // How many bytes of a stream an end sent.
    fn sent(&self, side: usize, stream: StreamId) -> u64 {
        let half = self.ends[side]
            .report(stream)
            .and_then(|report| report.send);
        half.map_or(0, |half| match half.state {
            SendState::ResetSent | SendState::ResetRecvd => half.final_size.expect("declared"),
            _ => half.written - self.ends[side].unsent(stream),
        })
    }

    // The course begins here.
    fn begin(&mut self) {
        for side in 0..2 {
            let each: Vec<(Window, u64)> = self
                .streams
                .iter()
                .map(|&s| (Some(s), self.sent(side, s)))
                .collect();
            let all = each.iter().map(|(_, sent)| sent).sum();
            self.began[side] = each.into_iter().chain([(None, all)]).collect();
        }
        self.least = [HashMap::new(), HashMap::new()];
        (self.unread, self.busy, self.stretches) = (0, 0, 0);
    }

    // The widths that each end's sendings filled: of the connection, and of its streams.
    fn filled(&self, side: usize) -> (u64, Vec<u64>) {
        let sent: Vec<u64> = self.streams.iter().map(|&s| self.sent(side, s)).collect();
        let each = self.streams.iter().zip(&sent);
        let streams = each
            .map(|(&s, &sent)| self.fills(side, Some(s), sent))
            .collect();
        (self.fills(side, None, sent.iter().sum()), streams)
    }

    fn fills(&self, side: usize, window: Window, sent: u64) -> u64 {
        let began = self.began[side].get(&window).copied().unwrap_or(0);
        let least = self.least[1 - side].get(&window).copied();
        (sent - began) / (least.unwrap_or(u64::MAX - 1) + 1)
    }

    fn bound(&self, each: u64) -> u64 {
        let filled = [0, 1].map(|side| self.filled(side));
        let widths: u64 = filled
            .iter()
            .map(|(conn, streams)| conn + streams.iter().sum::<u64>())
            .sum();
        2 * widths + each * self.stretches + each
    }

    fn turn(&mut self, side: usize, room: usize) {
        match self.way {
            Way::Packets => self.turn_by_packets(side, room),
            Way::Tokens => self.turn_by_tokens(side, room),
        }
    }

    // Streams are accepted and events asked for, of either end, at no cost.
    fn idle(&mut self) {
        let side = self.random.below(2) as usize;
        match self.random.below(6) {
            0 => _ = self.ends[side].accept(),
            1 => _ = self.ends[side].next_event().expect("there is memory"),
            _ => {}
        }
    }

    fn turn_by_packets(&mut self, side: usize, room: usize) {
        while let Some(number) = self.ends[side].next_outstanding(0) {
            assert_eq!(self.ends[side].declare_lost(number), Ok(()));
        }
        while let Some((token, text)) = self.next(side, room) {
            let came = self.ends[1 - side].receive(token.number, &text);
            assert_eq!(came, Ok(Received::Done));
            self.packets[side].push((token, text));
            self.idle();
        }
    }

    // Fills, of which the frames are taken at once; what landed is told at once or late, and all of the peer's by the end of the turn.
    fn turn_by_tokens(&mut self, side: usize, room: usize) {
        while let Some(number) = self.ends[side].next_outstanding(0) {
            let token = self.ends[side].token_of(number);
            assert_eq!(self.ends[side].lost(token), Ok(()));
        }
        while let Some((filled, text)) = fill_one(&mut self.ends[side], &Want::all(), room) {
            self.take(side, &text);
            self.packets[side].push((filled.token, text));
            self.idle();
            for told in 0..2 {
                if self.random.chance(30) {
                    self.tell(told);
                }
            }
        }
        self.tell(1 - side);
        assert!(!self.ends[side].is_sendable());
    }

    // All frames of a packet come to the other end.
    fn take(&mut self, side: usize, text: &[u8]) {
        let frames = all_frames(text);
        let took = self.ends[1 - side].take_frames(&frames);
        assert!(took.is_ok(), "{took:?}");
        self.taken[1 - side].extend(frames.iter().map(|frame| format!("{frame:?}")));
    }

    // Each packet of an end that landed, as the premise on tokens has it, is told to be acknowledged.
    fn tell(&mut self, side: usize) {
        let mut from = 0;
        while let Some(number) = self.ends[side].next_outstanding(from) {
            let of = |(token, _): &&(Token, Vec<u8>)| token.number == number;
            let (token, text) = self.packets[side].iter().rev().find(of).expect("kept");
            let taken = &self.taken[1 - side];
            let has = |frame: &Frame| !must_land(frame) || taken.contains(&format!("{frame:?}"));
            if all_frames(text).iter().all(has) {
                assert_eq!(self.ends[side].acked(*token), Ok(()));
            }
            from = number + 1;
        }
    }

    // The next packet of an end, if something may go: by its number an ACK alone, a fill or any.
    fn next(&mut self, side: usize, room: usize) -> Option<(Token, Vec<u8>)> {
        let end = &mut self.ends[side];
        let mut out = vec![0; room];
        let ack = match end.next_number() % 3 {
            0 => end.make_ack(0, &mut out).expect("open"),
            1 => match fill_one(end, &Want::all(), room) {
                Some((filled, text)) => return Some((filled.token, text)),
                None => None,
            },
            _ => None,
        };
        let made = ack.or_else(|| end.make_packet(&mut out).expect("open"))?;
        out.truncate(made.len);
        Some((end.token_of(made.number), out))
    }

    fn read_all(&mut self, side: usize) {
        let mut into = [0; 4096];
        while let Some(stream) = self.ends[side].next_readable(first()) {
            _ = self.ends[side].read(stream, &mut into).expect("readable");
            self.idle();
        }
    }

    fn is_all_read(&self) -> bool {
        (0..2).all(|side| {
            self.streams.iter().all(|&stream| {
                let half = self.ends[side]
                    .report(stream)
                    .and_then(|report| report.send);
                let reader = self.ends[1 - side]
                    .report(stream)
                    .and_then(|report| report.recv);
                let broken = self.broken.iter().any(|broken| broken.contains(&stream));
                broken
                    || half.map_or(0, |half| half.written)
                        == reader.map_or(0, |half| half.read_count)
            })
        })
    }

    fn round(&mut self, room: usize) {
        if !self.is_all_read() {
            self.unread += 1;
        }
        self.busy += u64::from(!self.ends.iter().all(is_at_rest));
        self.turn(0, room);
        self.turn(1, room);
        self.read_all(0);
        self.read_all(1);
        for side in 0..2 {
            for (&window, &size) in &self.windows[side] {
                let now = width(size, self.share[side]);
                let least = self.least[side].entry(window).or_insert(now);
                *least = now.min(*least);
            }
        }
    }

    // To rest, and in how many rounds.
    fn rest(&mut self) -> u64 {
        let before = self.busy;
        while !self.ends.iter().all(is_at_rest) {
            self.round(1200);
        }
        self.busy - before
    }

    fn write(&mut self, side: usize, stream: StreamId, count: usize) {
        _ = self.ends[side].write(stream, &vec![7; count]);
    }

    fn anything(&mut self, random: &mut Random, most: u64) {
        let side = random.below(2) as usize;
        let place = random.below(self.streams.len().max(1) as u64) as usize;
        match self.streams.get(place) {
            Some(&stream) if random.chance(70) => self.ask(side, stream, random, most),
            Some(&stream) if random.chance(30) => self.without_memory(side, stream, random),
            Some(_) if random.chance(80) => self.pass(side, random),
            _ => self.open(side, [Dir::Bidi, Dir::Uni][random.below(2) as usize], most),
        }
    }

    // What an application may ask of a stream, and set.
    fn ask(&mut self, side: usize, stream: StreamId, random: &mut Random, most: u64) {
        match random.below(24) {
            0..=9 => self.write(side, stream, 1 + random.below(2 * most) as usize),
            10..=12 => _ = self.ends[side].finish(stream),
            13 => {
                let dir = [Dir::Bidi, Dir::Uni][random.below(2) as usize];
                _ = self.ends[side].set_grant(dir, random.below(9));
            }
            14..=17 => self.read_all(side),
            18 | 19 => self.break_off(side, stream, random.chance(50)),
            _ => {
                let window = [None, Some(stream)][random.below(2) as usize];
                self.set(side, window, 1 + random.below(most));
            }
        }
    }

    fn break_off(&mut self, side: usize, stream: StreamId, resets: bool) {
        let end = &mut self.ends[side];
        let done = if resets {
            end.reset(stream, 1)
        } else {
            end.stop(stream, 1)
        };
        if done.is_ok() {
            self.broken[side].push(stream);
        }
    }

    fn set(&mut self, side: usize, window: Window, size: u64) {
        let end = &mut self.ends[side];
        let done = match window {
            None => end.set_conn_window(size),
            Some(stream) => end.set_stream_window(stream, size),
        };
        if done.is_ok() {
            self.windows[side].insert(window, size);
        }
    }

    // A call that is refused an allocation: of a packet that comes, whenever it was made, of one that is made, of a write, or of a token.
    fn without_memory(&mut self, side: usize, stream: StreamId, random: &mut Random) {
        let place = random.below(self.packets[side].len().max(1) as u64) as usize;
        let number = random.below(3);
        match (random.below(4), self.packets[side].get(place)) {
            (0, Some((token, text))) if self.way == Way::Packets => {
                _ = refused(number, || self.ends[1 - side].receive(token.number, text));
            }
            (1, Some((token, text))) => {
                let (token, text) = (*token, text.clone());
                self.take(side, &text);
                _ = refused(number, || self.ends[side].acked(token));
            }
            (2, _) => {
                let mut out = [0; 300];
                let made = refused(number, || self.ends[side].make_packet(&mut out)).0;
                if let Ok(Some(made)) = made {
                    let token = self.ends[side].token_of(made.number);
                    self.packets[side].push((token, out[..made.len].to_vec()));
                }
            }
            _ => _ = refused(number, || self.ends[side].write(stream, &[7; 9])),
        }
    }

    // A packet is made, by payload or by fill, or comes by its frames and its token.
    fn pass(&mut self, side: usize, random: &mut Random) {
        match random.below(3) {
            0 => {
                let mut out = [0; 300];
                if let Some(made) = self.ends[side].make_packet(&mut out).expect("open") {
                    let token = self.ends[side].token_of(made.number);
                    self.packets[side].push((token, out[..made.len].to_vec()));
                }
            }
            1 => {
                if let Some((filled, text)) = fill_one(&mut self.ends[side], &Want::all(), 200) {
                    self.packets[side].push((filled.token, text));
                }
            }
            _ => self.by_token(side, random),
        }
    }

    // A packet comes frame by frame, and is acknowledged by its token.
    fn by_token(&mut self, side: usize, random: &mut Random) {
        let place = random.below(self.packets[side].len().max(1) as u64) as usize;
        if let Some((token, text)) = self.packets[side].get(place).cloned() {
            self.take(side, &text);
            assert_eq!(self.ends[side].acked(token), Ok(()));
        }
    }
}

fn random_course(seed: u64, way: Way) -> Course {
    let mut random = Random::new(seed);
    let most = [1, 3, 16, 100, 512][(seed % 5) as usize];
    let window = 1 + random.below(most);
    let conn = if random.chance(10) {
        1 << 40
    } else {
        1 + random.below(most)
    };
    let settings = Settings::small()
        .conn_window(conn)
        .stream_windows(window)
        .send_buffer(2048)
        .streams(1 + random.below(8), 64);
    let shares = [share(&mut random), share(&mut random)];
    let mut course = Course::new(settings, shares);
    (course.way, course.random) = (way, Random::new(seed));
    for _ in 0..random.below(60) {
        course.anything(&mut random, window);
    }
    course.begin();
    for _ in 0..random.below(20) {
        for _ in 0..random.below(12) {
            if course.ends.iter().all(is_at_rest) {
                break;
            }
            course.round(128 + random.below(300) as usize);
        }
        for _ in 0..random.below(12) {
            course.anything(&mut random, window);
        }
        course.stretches += 1;
    }
    course.rest();
    course
}

#[test]
fn rest_comes_within_the_bound() {
    for (way, how) in [(Way::Packets, "packets"), (Way::Tokens, "tokens")] {
        within_the_bound(way, how);
    }
}

fn within_the_bound(way: Way, how: &str) {
    let seeds =
        std::env::var("ROUNDS_SEEDS").map_or(SEEDS, |seeds| seeds.parse().expect("a number"));
    let (mut rounds, mut stretches, mut nearest) = (0, 0, [0.0_f64; 2]);
    for seed in 0..seeds {
        let course = random_course(seed, way);
        let seen = [(course.unread, READ), (course.busy, REST)];
        for (near, (seen, each)) in nearest.iter_mut().zip(seen) {
            let bound = course.bound(each);
            assert!(seen <= bound, "{how}, seed {seed}: {seen} rounds, {bound}");
            *near = near.max(seen as f64 / bound as f64);
        }
        rounds += course.busy;
        stretches += course.stretches;
    }
    let [read, rest] = nearest;
    println!(
        "{seeds} runs by {how}: {rounds} rounds and {stretches} stretches; {read:.3} of those until all is read that may be at most, {rest:.3} until rest"
    );
    assert!(rounds > stretches);
}

// A client with windows of the connection and of each stream, moved by half, and some streams that it opened.
fn client(conn: u64, stream: u64, streams: usize) -> Course {
    client_by(conn, stream, streams, (Share::Half, 2))
}

fn client_by(conn: u64, stream: u64, streams: usize, share: (Share, u64)) -> Course {
    let settings = Settings::small()
        .conn_window(conn)
        .stream_windows(stream)
        .send_buffer(1 << 26)
        .streams(1000, 2000);
    let mut course = Course::new(settings, [share; 2]);
    for _ in 0..streams {
        course.open(0, Dir::Uni, stream);
    }
    course
}

// Each of some streams is written to, one after another.
fn write_each(course: &mut Course, count: usize) {
    course.begin();
    for stream in course.streams.clone() {
        course.write(0, stream, count);
        course.stretches += 1;
        course.rest();
    }
}

/// Each term of the bound is needed, for some run has more rounds than the others say: the connection's, where only its window is filled, and
/// a stream's.
#[test]
fn windows_count() {
    for (conn, stream) in [(10, 1 << 20), (1 << 20, 10)] {
        let mut course = client(conn, stream, 1);
        course.begin();
        course.write(0, course.streams[0], 1000);
        course.rest();
        let (connection, streams) = course.filled(0);
        assert_eq!(connection.min(streams[0]), 0);
        assert!(course.unread > READ && course.unread <= course.bound(READ));
        assert!(course.busy > REST && course.busy <= course.bound(REST));
    }
}

/// The sum of all streams counts, where they are written to one after another, and not the fullest alone.
#[test]
fn all_streams_count() {
    let mut course = client(1 << 20, 10, 10);
    write_each(&mut course, 200);
    let (connection, streams) = course.filled(0);
    let fullest = streams.into_iter().max().expect("ten");
    for (seen, each) in [(course.unread, READ), (course.busy, REST)] {
        assert!(seen > 2 * (connection + fullest) + each * course.stretches + each);
        assert!(seen <= course.bound(each));
    }
}

/// Stretches count that fill no window, and so does a stream that is held back by a byte as the course begins.
#[test]
fn stretches_and_beginnings_count() {
    let mut course = client(1 << 20, 1 << 20, 10);
    write_each(&mut course, 1);
    assert!(course.unread > course.bound(READ) - READ * course.stretches);
    assert!(course.busy > course.bound(REST) - REST * course.stretches);
    let mut course = client(1 << 20, 100, 1);
    course.write(0, course.streams[0], 49);
    course.rest();
    course.write(0, course.streams[0], 52);
    course.begin();
    course.rest();
    assert!(course.unread > course.bound(READ) - READ);
    assert!(course.busy > course.bound(REST) - REST);
}

/// Rest may take five rounds after a stretch, though no window of a stream is filled: nearly a window is, its limit then moves, and the last
/// byte lets that of the connection move. Nor are four for a stop, with no byte.
#[test]
fn rest_may_take_five_rounds_after_a_stretch() {
    let mut course = client(104, 100, 20);
    for stream in course.streams.clone() {
        course.write(0, stream, 49);
        course.rest();
    }
    course.begin();
    for stream in course.streams.clone() {
        course.write(0, stream, 52);
        course.stretches += 1;
        assert_eq!(course.rest(), 5);
    }
    let windows = 20 * 52 / 104;
    assert!(course.busy > 2 * windows + 3 * course.stretches + 5);
    for stream in course.streams.clone() {
        assert_eq!(course.ends[1].stop(stream, 0), Ok(()));
        assert_eq!(course.rest(), 4);
    }
}

type Case = (&'static str, (u64, u64), usize, usize);

const WIDE: (u64, u64) = (1 << 20, 1 << 18);
/// What is written, over which windows: how many streams, and how many bytes of each.
const CASES: [Case; 7] = [
    ("1 KiB", WIDE, 1, 1 << 10),
    ("1 MiB", WIDE, 1, 1 << 20),
    ("16 MiB", WIDE, 1, 1 << 24),
    ("100 streams of 10 KB", WIDE, 100, 10_000),
    ("1,000 streams of 1 KiB", WIDE, 1000, 1 << 10),
    ("1 KiB, windows of 1 byte", (1, 1), 1, 1 << 10),
    ("1 MiB, windows of 64 KiB", (1 << 16, 1 << 16), 1, 1 << 20),
];

/// Bounds beside what is seen: `cargo test --release --test rounds -- --ignored --nocapture`.
#[test]
#[ignore = "it only prints"]
fn figures() {
    for (what, (conn, stream), streams, count) in CASES {
        for share in [(Share::Half, 2), (Share::Sixteenth, 16)] {
            let mut at_once = client_by(conn, stream, streams, share);
            at_once.begin();
            for stream in at_once.streams.clone() {
                at_once.write(0, stream, count);
            }
            at_once.rest();
            let mut in_turn = client_by(conn, stream, streams, share);
            write_each(&mut in_turn, count);
            for (course, how) in [(at_once, "at once"), (in_turn, "one after another")] {
                let (read, rest) = (course.unread, course.busy);
                let (most_read, most) = (course.bound(READ), course.bound(REST));
                let part = share.1;
                println!(
                    "{what}, 1/{part}, {how}: {read} rounds of {most_read}, to rest {rest} of {most}"
                );
            }
        }
    }
}
