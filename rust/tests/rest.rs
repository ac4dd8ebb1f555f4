//! Random runs of two ends, each led by plain rounds to rest, against a plain count of what should have arrived.

mod support;

use gotsavena::{
    Dir, Endpoint, LostFault, OpenFault, PeerLimits, Read, Received, RecvState, Role, SendState,
    Settings, StreamId, Tuning, UseFault,
};
use std::collections::BTreeMap;
use support::pairs::rest;
use support::{Random, two_ends};

const SEEDS: u64 = 300;
const EVENTS: usize = 300;

/// A run that isn't at rest after so many rounds never comes to rest.
const MOST_ROUNDS: usize = 20_000;

/// What one end wrote to a stream, and what the other one read of it.
#[derive(Default)]
struct Lane {
    written: Vec<u8>,
    read: Vec<u8>,
    finished: bool,
    was_reset: bool,
    stopped: bool,
}

#[derive(Clone, Copy)]
struct Windows {
    conn: u64,
    stream: u64,
    at_first: u64,
    in_all: u64,
}

struct Run {
    ends: [Endpoint; 2],
    made: [Vec<Vec<u8>>; 2],
    /// By the end that sends.
    lanes: [BTreeMap<StreamId, Lane>; 2],
    /// How many streams of each direction an end opened, and how often it was refused one.
    opened: [[u64; 2]; 2],
    refused: usize,
    windows: Windows,
    random: Random,
    what: String,
}

// Every eighth run has the standard windows, the others have some between 1 byte and 1 KB.
fn windows_of(seed: u64, random: &mut Random) -> (Windows, u64) {
    if seed % 8 == 0 {
        let windows = Windows {
            conn: 4096,
            stream: 1024,
            at_first: 8,
            in_all: 8,
        };
        return (windows, 2048);
    }
    let most = [1, 4, 64, 1024][random.below(4) as usize];
    let at_first = random.below(4);
    let windows = Windows {
        conn: 1 + random.below(most),
        stream: 1 + random.below(most),
        at_first,
        in_all: at_first + random.below(6),
    };
    (windows, 1 + random.below(2 * most))
}

impl Run {
    fn new(seed: u64) -> Run {
        let mut random = Random::new(seed);
        let (windows, buffer) = windows_of(seed, &mut random);
        let settings = Settings::small()
            .conn_window(windows.conn)
            .stream_windows(windows.stream)
            .send_buffer(buffer as usize)
            .streams(windows.at_first, windows.in_all);
        Run {
            ends: two_ends(settings),
            made: [Vec::new(), Vec::new()],
            lanes: [BTreeMap::new(), BTreeMap::new()],
            opened: [[0; 2]; 2],
            refused: 0,
            windows,
            random,
            what: format!("seed {seed}"),
        }
    }

    fn event(&mut self) {
        let side = self.random.below(2) as usize;
        match self.random.below(16) {
            0 => self.open(side),
            1..=4 => self.write(side),
            5 => self.end_stream(side),
            6..=7 => self.read(side),
            8..=11 => _ = self.make(side),
            12 => self.lose(side),
            _ => self.deliver(side),
        }
    }

    fn open(&mut self, side: usize) {
        let dir = [Dir::Bidi, Dir::Uni][self.random.below(2) as usize];
        match self.ends[side].open(dir) {
            Ok(stream) => {
                self.opened[side][dir as usize] += 1;
                self.lanes[side].entry(stream).or_default();
                if dir == Dir::Bidi {
                    self.lanes[1 - side].entry(stream).or_default();
                }
            }
            Err(OpenFault::Blocked(_)) => self.refused += 1,
            Err(fault) => panic!("{}: {fault}", self.what),
        }
    }

    // A stream on which an end sends, as far as it is known.
    fn a_lane(&mut self, sender: usize) -> Option<StreamId> {
        let known = self.lanes[sender].len().max(1) as u64;
        let place = self.random.below(known) as usize;
        self.lanes[sender].keys().nth(place).copied()
    }

    fn write(&mut self, side: usize) {
        let Some(stream) = self.a_lane(side) else {
            return;
        };
        let count = self.random.below(300) as usize;
        let bytes = self.random.bytes(count);
        match self.ends[side].write(stream, &bytes) {
            Ok(count) => {
                let lane = self.lanes[side].get_mut(&stream).expect("known");
                lane.written.extend_from_slice(&bytes[..count]);
            }
            Err(UseFault::Finished | UseFault::WasReset | UseFault::NoSuchStream) => {}
            Err(fault) => panic!("{}: {fault}", self.what),
        }
    }

    // The application finishes or resets a stream, or its reader stops it.
    fn end_stream(&mut self, side: usize) {
        let Some(stream) = self.a_lane(side) else {
            return;
        };
        let lane = self.lanes[side].get_mut(&stream).expect("known");
        let code = self.random.below(9);
        match self.random.below(6) {
            0 => lane.was_reset |= self.ends[side].reset(stream, code).is_ok(),
            1 => lane.stopped |= self.ends[1 - side].stop(stream, code).is_ok(),
            _ => lane.finished |= self.ends[side].finish(stream).is_ok(),
        }
    }

    // An end reads what the other one wrote.
    fn read(&mut self, side: usize) {
        if let Some(stream) = self.a_lane(1 - side) {
            let size = self.random.below(300) as usize;
            self.read_some(side, stream, size);
        }
    }

    fn read_some(&mut self, side: usize, stream: StreamId, size: usize) {
        let mut into = vec![0; size];
        match self.ends[side].read(stream, &mut into) {
            Ok(Read::Bytes(count)) => {
                let lane = self.lanes[1 - side].get_mut(&stream).expect("known");
                lane.read.extend_from_slice(&into[..count]);
            }
            Ok(Read::End | Read::Reset(_) | Read::Wait) | Err(UseFault::NoSuchStream) => {}
            Err(fault) => panic!("{}: {fault}", self.what),
        }
    }

    fn make(&mut self, side: usize) -> bool {
        let mut out = vec![0; 128 + self.random.below(1200) as usize];
        let made = self.ends[side].make_packet(&mut out).expect("it is open");
        let Some(made) = made else { return false };
        self.made[side].push(out[..made.len].to_vec());
        true
    }

    fn lose(&mut self, side: usize) {
        let number = self.random.below(self.made[side].len() as u64 + 1);
        match self.ends[side].declare_lost(number) {
            Ok(()) | Err(LostFault::NotOutstanding) => {}
            Err(fault) => panic!("{}: {fault}", self.what),
        }
    }

    // Any packet, in any order and again; most of the last ones, and some of them never.
    fn deliver(&mut self, side: usize) {
        let count = self.made[side].len() as u64;
        if count > 0 {
            let back = if self.random.chance(80) { 4 } else { count };
            let number = count - 1 - self.random.below(back.min(count));
            self.bring(side, number);
        }
    }

    fn bring(&mut self, side: usize, number: u64) {
        let payload = &self.made[side][number as usize];
        match self.ends[1 - side].receive(number, payload) {
            Ok(Received::Done | Received::Duplicate | Received::BelowFloor) => {}
            other => panic!("{}: packet {number}: {other:?}", self.what),
        }
    }
}

// Plain rounds
impl Run {
    fn drain(&mut self) {
        for _ in 0..MOST_ROUNDS {
            if self.ends.iter().all(is_idle) {
                return;
            }
            self.round();
        }
        panic!("{}: it doesn't come to rest", self.what);
    }

    fn round(&mut self) {
        for end in &mut self.ends {
            while let Some(number) = end.next_outstanding(0) {
                end.declare_lost(number).expect("it is outstanding");
            }
        }
        for side in 0..2 {
            while self.make(side) {
                self.bring(side, self.made[side].len() as u64 - 1);
            }
        }
        for side in 0..2 {
            while let Some(stream) = self.ends[side].next_readable(first()) {
                self.read_some(side, stream, 512);
            }
        }
    }
}

fn first() -> StreamId {
    StreamId::new(0).expect("it is a stream's number")
}

fn is_idle(end: &Endpoint) -> bool {
    !end.is_sendable() && end.next_outstanding(0).is_none() && end.next_readable(first()).is_none()
}

// What holds at rest
impl Run {
    fn look(&self) {
        for side in 0..2 {
            for (&stream, lane) in &self.lanes[side] {
                self.look_at(side, stream, lane);
            }
            self.look_at_credit(side);
            self.look_at_counts(side, Dir::Bidi);
            self.look_at_counts(side, Dir::Uni);
        }
    }

    fn look_at(&self, side: usize, stream: StreamId, lane: &Lane) {
        let what = format!("{}, stream {stream} of end {side}", self.what);
        let send = self.ends[side].report(stream).and_then(|both| both.send);
        let recv = self.ends[1 - side]
            .report(stream)
            .and_then(|both| both.recv);
        // A stream of which nothing was told to the peer.
        let (Some(send), Some(recv)) = (send, recv) else {
            assert!(lane.written.is_empty() && !lane.finished, "{what}");
            return;
        };
        let delivered = (send.state, recv.state) == (SendState::DataRecvd, RecvState::DataRead);
        let reset = send.state == SendState::ResetRecvd
            && matches!(recv.state, RecvState::ResetRead | RecvState::DataRead);
        if send.reset_code.is_some() {
            assert!(reset, "{what}: {send:?} {recv:?}");
        } else if lane.stopped {
            assert!(delivered, "{what}: {send:?} {recv:?}");
        } else {
            assert_eq!(lane.read, lane.written, "{what}");
            assert_eq!(delivered, lane.finished, "{what}: {send:?} {recv:?}");
        }
        assert!(lane.written.starts_with(&lane.read), "{what}");
        if recv.final_size.is_none() {
            assert_eq!(send.limit, recv.limit, "{what}");
            let left = recv.limit - recv.highest;
            assert!(has_room(left, self.windows.stream), "{what}: {recv:?}");
        }
    }

    fn look_at_credit(&self, side: usize) {
        let peer = &self.ends[1 - side];
        let sent: u64 = self.lanes[side]
            .keys()
            .filter_map(|&stream| self.ends[side].report(stream)?.send)
            .map(|send| send.final_size.unwrap_or(send.written))
            .sum();
        assert_eq!(peer.spent(), sent, "{}", self.what);
        assert_eq!(peer.stored(), 0, "{}", self.what);
        let left = peer.granted() - sent;
        assert!(has_room(left, self.windows.conn), "{}: {left}", self.what);
    }

    fn look_at_counts(&self, side: usize, dir: Dir) {
        let ended = self.lanes[side]
            .keys()
            .filter(|stream| stream.dir() == dir && self.is_own(side, **stream))
            .filter(|stream| self.has_ended(1 - side, **stream))
            .count() as u64;
        let granted = self.windows.in_all.min(self.windows.at_first + ended);
        let opened = self.opened[side][dir as usize];
        assert_eq!(
            self.ends[1 - side].granted_streams(dir),
            granted,
            "{}",
            self.what
        );
        assert_eq!(
            self.ends[side].open_left(dir),
            granted - opened,
            "{}",
            self.what
        );
    }

    // The client opens the even numbers.
    fn is_own(&self, side: usize, stream: StreamId) -> bool {
        stream.value() % 2 == side as u64
    }

    // Every half that the stream has at that end came to its end.
    fn has_ended(&self, side: usize, stream: StreamId) -> bool {
        let Some(report) = self.ends[side].report(stream) else {
            return false;
        };
        let sent = report
            .send
            .is_none_or(|half| matches!(half.state, SendState::DataRecvd | SendState::ResetRecvd));
        let told = report
            .recv
            .is_none_or(|half| matches!(half.state, RecvState::DataRead | RecvState::ResetRead));
        sent && told
    }
}

// A limit is raised before half a window of it is used, and at 1 byte of window at once.
fn has_room(left: u64, window: u64) -> bool {
    left > window - (window / 2).max(1)
}

#[test]
fn plain_rounds_lead_every_run_to_rest() {
    let (mut bytes, mut resets, mut stops, mut refused) = (0, 0, 0, 0);
    for seed in 0..SEEDS {
        let mut run = Run::new(seed);
        for _ in 0..EVENTS {
            run.event();
        }
        run.drain();
        run.look();
        let lanes = || run.lanes.iter().flat_map(|lanes| lanes.values());
        bytes += lanes().map(|lane| lane.read.len()).sum::<usize>();
        resets += lanes().filter(|lane| lane.was_reset).count();
        stops += lanes().filter(|lane| lane.stopped).count();
        refused += run.refused;
    }
    // (far below what these seeds give: it only sees that no kind of run is missing)
    assert!(bytes > 100_000, "{bytes} bytes were read");
    assert!(resets > 50, "{resets} streams were reset");
    assert!(stops > 50, "{stops} streams were stopped");
    assert!(refused > 200, "{refused} streams were refused");
}

// The two premises of what holds at rest that README.md names. Without either of them a run rests with work undone, so neither
// can be left out of the sentence.

/// A client of which this is chosen and that was told these limits, and a server.
fn told(settings: Settings, tuning: Tuning, limits: PeerLimits) -> [Endpoint; 2] {
    let client = Endpoint::with_tuning(Role::Client, settings, tuning, limits);
    let server = Endpoint::new(Role::Server, settings, settings.limits());
    [client, server].map(|end| end.expect("in range"))
}

#[test]
fn at_rest_bytes_wait_where_an_end_was_told_less_than_its_peer_grants() {
    let settings = Settings::default();
    let less = settings.limits().max_data(0).bidi_remote(0);
    let [mut client, mut server] = told(settings, Tuning::default(), less);
    let stream = client.open(Dir::Bidi).expect("granted");
    assert_eq!(client.write(stream, b"hello"), Ok(5));
    rest(&mut client, &mut server);
    assert!(is_idle(&client) && is_idle(&server));
    // The bytes wait for credit of which the client doesn't know, though its peer granted it.
    assert_eq!(server.read(stream, &mut [0; 8]), Ok(Read::Wait));
    assert_eq!(client.credit_left(), 0);
    assert!(server.granted() > 0);
}

#[test]
fn at_rest_a_stopped_stream_waits_for_an_owner_that_chose_to_answer() {
    let settings = Settings::default();
    let tuning = Tuning::default().answers_stops(true);
    let [mut client, mut server] = told(settings, tuning, settings.limits());
    let stream = client.open(Dir::Bidi).expect("granted");
    assert_eq!(client.write(stream, b"hello"), Ok(5));
    rest(&mut client, &mut server);
    server.stop(stream, 7).expect("open");
    rest(&mut client, &mut server);
    assert!(is_idle(&client) && is_idle(&server));
    let state = |end: &Endpoint| {
        let report = end.report(stream).expect("open");
        (
            report.send.expect("open").state,
            report.recv.expect("open").state,
        )
    };
    assert_eq!(state(&client).0, SendState::Send);
    assert_eq!(state(&server).1, RecvState::Recv);
    // Its answer leads both halves to their last state.
    client.reset(stream, 7).expect("open");
    rest(&mut client, &mut server);
    assert_eq!(server.read(stream, &mut [0; 8]), Ok(Read::Reset(7)));
    assert_eq!(state(&client).0, SendState::ResetRecvd);
    assert_eq!(state(&server).1, RecvState::ResetRead);
}
