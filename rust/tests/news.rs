//! Random runs of two ends: each search among the streams answers what a walk over all of them tells. What a read, a write or a packet
//! would tell is tried at a copy of the ends, which the same events made.

mod support;

use gotsavena::{
    Dir, Endpoint, Frame, Read, RecvState, SendState, Settings, StreamId, StreamReport, frames,
};
use std::collections::BTreeSet;
use support::{Random, two_ends};

const SEEDS: u64 = 20;
const EVENTS: usize = 2000;
/// How many events come between two looks at what only a copy tells.
const PACE: usize = 100;
/// How many streams of a type there are at most.
const STREAMS: u64 = 75;

/// What was done, so that it can be done again.
#[derive(Clone)]
enum Event {
    Open(usize, Dir),
    Write(usize, StreamId, usize),
    Finish(usize, StreamId),
    Reset(usize, StreamId),
    Stop(usize, StreamId),
    Read(usize, StreamId, usize),
    Make(usize, usize),
    Lose(usize, u64),
    Deliver(usize, usize),
}

struct Run {
    settings: Settings,
    ends: [Endpoint; 2],
    made: [Vec<(u64, Vec<u8>)>; 2],
    /// The streams of which a reader was told the end or a reset.
    told: [BTreeSet<StreamId>; 2],
}

type Search = fn(&Endpoint, StreamId) -> Option<StreamId>;

impl Run {
    fn new(settings: Settings) -> Run {
        Run {
            settings,
            ends: two_ends(settings),
            made: [Vec::new(), Vec::new()],
            told: [BTreeSet::new(), BTreeSet::new()],
        }
    }

    fn copy(settings: Settings, events: &[Event]) -> Run {
        let mut run = Run::new(settings);
        for event in events {
            run.act(event);
        }
        run
    }

    fn act(&mut self, event: &Event) {
        match *event {
            Event::Open(side, dir) => _ = self.ends[side].open(dir),
            Event::Write(side, stream, count) => {
                _ = self.ends[side].write(stream, &vec![7; count]);
            }
            Event::Finish(side, stream) => _ = self.ends[side].finish(stream),
            Event::Reset(side, stream) => _ = self.ends[side].reset(stream, 5),
            Event::Stop(side, stream) => _ = self.ends[side].stop(stream, 6),
            Event::Read(side, stream, room) => _ = self.read(side, stream, room),
            Event::Make(side, room) => _ = self.make(side, room),
            Event::Lose(side, number) => _ = self.ends[side].declare_lost(number),
            Event::Deliver(side, place) => {
                let (number, payload) = &self.made[1 - side][place];
                assert!(self.ends[side].receive(*number, payload).is_ok());
            }
        }
    }

    fn read(&mut self, side: usize, stream: StreamId, room: usize) -> Option<Read> {
        let read = self.ends[side].read(stream, &mut vec![0; room]).ok()?;
        if matches!(read, Read::End | Read::Reset(_)) {
            self.told[side].insert(stream);
        }
        Some(read)
    }

    fn make(&mut self, side: usize, room: usize) -> bool {
        let mut payload = vec![0; room];
        let Some(made) = self.ends[side].make_packet(&mut payload).expect("a packet") else {
            return false;
        };
        payload.truncate(made.len);
        self.made[side].push((made.number, payload));
        true
    }

    /// All streams that are open at an end, in order, with their reports.
    fn open(&self, side: usize) -> Vec<(StreamId, StreamReport)> {
        (0..4 * STREAMS)
            .filter_map(StreamId::new)
            .filter_map(|stream| Some((stream, self.ends[side].report(stream)?)))
            .collect()
    }

    /// The streams that a search finds, one after the other, and from numbers between.
    fn found(&self, side: usize, search: Search, random: &mut Random) -> BTreeSet<StreamId> {
        let mut found = BTreeSet::new();
        let mut from = 0;
        while let Some(stream) = search(&self.ends[side], id(from)) {
            found.insert(stream);
            from = stream.value() + 1;
        }
        for _ in 0..8 {
            let from = id(random.below(4 * STREAMS + 9));
            let least = found.range(from..).next().copied();
            assert_eq!(search(&self.ends[side], from), least, "from {from}");
        }
        found
    }

    /// Those at which a read of one byte tells something new.
    fn readable(&mut self, side: usize) -> BTreeSet<StreamId> {
        let mut readable = BTreeSet::new();
        for (stream, _) in self.open(side) {
            let told = self.told[side].contains(&stream);
            let read = self.read(side, stream, 1);
            if !told && read.is_some_and(|read| read != Read::Wait) {
                readable.insert(stream);
            }
        }
        readable
    }

    /// Those whose bytes or end go, where the connection's credit suffices.
    fn sendable(&mut self, side: usize) -> BTreeSet<StreamId> {
        let before = self.made[side].len();
        while self.make(side, 1200) {}
        let mut sendable = BTreeSet::new();
        for (_, payload) in &self.made[side][before..] {
            for found in frames(payload) {
                if let Frame::Stream { stream, .. } = found.expect("a frame").frame {
                    sendable.insert(stream);
                }
            }
        }
        sendable
    }
}

/// Those at which a write of one byte is accepted.
fn writable(run: &mut Run, side: usize) -> BTreeSet<StreamId> {
    let mut writable = BTreeSet::new();
    for (stream, _) in run.open(side) {
        if run.ends[side].write(stream, &[1]) == Ok(1) {
            writable.insert(stream);
        }
    }
    writable
}

/// Those whose every half came to its end.
fn ended(run: &Run, side: usize) -> BTreeSet<StreamId> {
    let is_over = |report: &StreamReport| {
        let recv = report
            .recv
            .is_none_or(|half| matches!(half.state, RecvState::DataRead | RecvState::ResetRead));
        let send = report
            .send
            .is_none_or(|half| matches!(half.state, SendState::DataRecvd | SendState::ResetRecvd));
        recv && send
    };
    let open = run.open(side).into_iter();
    open.filter(|(_, report)| is_over(report))
        .map(|(stream, _)| stream)
        .collect()
}

fn id(number: u64) -> StreamId {
    StreamId::new(number).expect("a stream's number")
}

/// An event, and now and then one of a kind that comes seldom.
fn next_event(random: &mut Random, run: &Run) -> Event {
    let side = random.below(2) as usize;
    let stream = id(random.below(4 * STREAMS));
    let made = run.made[1 - side].len();
    match random.below(40) {
        0..=4 => Event::Open(side, [Dir::Bidi, Dir::Uni][random.below(2) as usize]),
        5..=12 => Event::Write(side, stream, random.below(300) as usize),
        13..=16 => Event::Finish(side, stream),
        17 if random.chance(20) => Event::Reset(side, stream),
        17 if random.chance(20) => Event::Stop(side, stream),
        17..=25 => Event::Read(side, stream, 1 + random.below(300) as usize),
        26..=28 => Event::Make(side, 128 + random.below(900) as usize),
        29 => Event::Lose(side, random.below(1 + run.made[side].len() as u64)),
        30..=32 if made > 0 => Event::Deliver(side, random.below(made as u64) as usize),
        33..=38 if made > 0 => Event::Deliver(side, made - 1),
        _ => Event::Make(side, 300),
    }
}

fn settings(seed: u64) -> Settings {
    let window = [1 << 20, 40][seed as usize % 2];
    Settings::small()
        .conn_window(1 << 24)
        .stream_windows(window.min(1000))
        .send_buffer([400, 30][seed as usize / 2 % 2])
        .streams(STREAMS, STREAMS)
}

fn look(run: &Run, events: &[Event], random: &mut Random, most: &mut [usize; 3]) {
    for side in 0..2 {
        let readable = run.found(side, Endpoint::next_readable, random);
        assert_eq!(readable, Run::copy(run.settings, events).readable(side));
        let sendable = run.found(side, Endpoint::next_sendable, random);
        assert_eq!(sendable, Run::copy(run.settings, events).sendable(side));
        let found = run.found(side, Endpoint::next_writable, random);
        assert_eq!(found, writable(&mut Run::copy(run.settings, events), side));
        let found = run.found(side, Endpoint::next_ended, random);
        assert_eq!(found, ended(run, side));
        for (most, set) in most.iter_mut().zip([readable, sendable]) {
            *most = set.len().max(*most);
        }
        most[2] = found.len().max(most[2]);
    }
}

#[test]
fn searches_answer_what_a_walk_tells() {
    let mut most = [0; 3];
    for seed in 0..SEEDS {
        let mut random = Random::new(seed);
        let mut run = Run::new(settings(seed));
        let mut events = Vec::new();
        for count in 0..EVENTS {
            let event = next_event(&mut random, &run);
            run.act(&event);
            events.push(event);
            if count % PACE == PACE - 1 {
                look(&run, &events, &mut random, &mut most);
            }
        }
    }
    println!("at most {most:?} readable, sendable and ended streams at once");
    assert!(most.iter().all(|&count| count > 10));
}
