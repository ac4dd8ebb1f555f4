//! News of an end: what the front notes for it, of writes, opens and reads. That each piece is told once, and in order, is held against
//! a plain model in random runs; what an end marks by itself is proved.

#[path = "support/refusing.rs"]
mod refusing;
mod support;

use gotsavena::{
    Dir, Endpoint, Event, EventFault, OpenFault, Read, Received, RecvState, Role, SendState,
    Settings, StreamId, StreamReport, Tuning, UseFault,
};
use refusing::refused;
use std::collections::BTreeSet;
use support::{Random, two_ends};

const SEEDS: u64 = 300;
const EVENTS: usize = 800;
/// How many streams of a type there are at most.
const STREAMS: u64 = 20;

fn id(number: u64) -> StreamId {
    StreamId::new(number).expect("a stream's number")
}

/// All news of an end.
fn news(end: &mut Endpoint) -> Vec<Event> {
    std::iter::from_fn(|| end.next_event().expect("there is memory")).collect()
}

/// A packet goes over, if one is due.
fn pass(ends: &mut [Endpoint; 2], from: usize) {
    let mut payload = [0; 1200];
    if let Some(made) = ends[from].make_packet(&mut payload).expect("open") {
        let taken = ends[1 - from].receive(made.number, &payload[..made.len]);
        assert_eq!(taken, Ok(Received::Done));
    }
}

fn within_credit(settings: Settings) -> [Endpoint; 2] {
    tuned(settings, Tuning::default().within_credit(true))
}

fn tuned(settings: Settings, tuning: Tuning) -> [Endpoint; 2] {
    [Role::Client, Role::Server].map(|role| {
        Endpoint::with_tuning(role, settings, tuning, settings.limits()).expect("in range")
    })
}

#[test]
fn news_of_each_kind_come_once_and_in_order() {
    let mut ends = two_ends(Settings::small().streams(1, 8).send_buffer(4));
    let [both, one] = [Dir::Bidi, Dir::Uni].map(|dir| ends[0].open(dir).expect("granted"));
    assert_eq!(ends[0].open(Dir::Bidi), Err(OpenFault::Blocked(1)));
    assert_eq!(ends[0].write(both, b"abc"), Ok(3));
    assert_eq!(ends[0].write(one, b"defgh"), Ok(4));
    assert_eq!(news(&mut ends[0]), []);
    pass(&mut ends, 0);
    let told = [both, one].map(Event::Opened).into_iter();
    let told: Vec<_> = told.chain([both, one].map(Event::Readable)).collect();
    assert_eq!(news(&mut ends[1]), told);
    assert_eq!(news(&mut ends[1]), []);

    // (the write that was cut short is no news any more: its stream was stopped)
    ends[1].write(both, b"x").expect("open");
    ends[1].finish(both).expect("open");
    ends[1].stop(one, 7).expect("open");
    pass(&mut ends, 1);
    let told = [Event::Readable(both), Event::Stopped(one, 7)];
    assert_eq!(news(&mut ends[0]), told);
    assert_eq!(news(&mut ends[0]), []);

    // (an end is news to the sender once all is acknowledged, and to the reader once it was read)
    assert_eq!(ends[0].read(both, &mut [0; 9]), Ok(Read::Bytes(1)));
    assert_eq!(ends[0].read(both, &mut [0; 9]), Ok(Read::End));
    ends[0].finish(both).expect("open");
    pass(&mut ends, 0);
    assert_eq!(
        news(&mut ends[1]),
        [Event::Readable(one), Event::Finished(both)]
    );
    assert_eq!(ends[1].read(both, &mut [0; 9]), Ok(Read::Bytes(3)));
    assert_eq!(ends[1].read(both, &mut [0; 9]), Ok(Read::End));
    assert_eq!(news(&mut ends[1]), [Event::Ended(both)]);
    pass(&mut ends, 1);
    let told = [
        Event::Finished(both),
        Event::ResetAcked(one),
        Event::Ended(both),
        Event::Ended(one),
        Event::Available(Dir::Bidi),
    ];
    assert_eq!(news(&mut ends[0]), told);
    assert_eq!(news(&mut ends[0]), []);
}

#[test]
fn a_stream_is_readable_again_once_it_was_read_empty() {
    let mut ends = two_ends(Settings::small());
    let stream = ends[0].open(Dir::Uni).expect("granted");
    ends[0].write(stream, b"abcd").expect("open");
    pass(&mut ends, 0);
    assert_eq!(
        news(&mut ends[1]),
        [Event::Opened(stream), Event::Readable(stream)]
    );
    // What is left was told.
    assert_eq!(ends[1].read(stream, &mut [0; 3]), Ok(Read::Bytes(3)));
    ends[0].write(stream, b"ef").expect("open");
    pass(&mut ends, 0);
    assert_eq!(news(&mut ends[1]), []);
    assert_eq!(
        ends[1].consume(stream, 9).map(|rest| rest.read),
        Ok(Read::Bytes(3))
    );
    assert_eq!(news(&mut ends[1]), []);
    ends[0].write(stream, b"g").expect("open");
    pass(&mut ends, 0);
    assert_eq!(news(&mut ends[1]), [Event::Readable(stream)]);
    // A half of its own reads, too.
    let read = ends[1].recv_stream(stream).try_read(&mut [0; 9]);
    assert_eq!(read, Ok(Read::Bytes(1)));
    ends[0].finish(stream).expect("open");
    pass(&mut ends, 0);
    assert_eq!(news(&mut ends[1]), [Event::Readable(stream)]);
    assert_eq!(ends[1].read(stream, &mut [0; 9]), Ok(Read::End));
    assert_eq!(news(&mut ends[1]), [Event::Ended(stream)]);
}

#[test]
fn a_stopped_stream_is_readable_again_at_its_end() {
    let mut ends = two_ends(Settings::small());
    let streams = [(); 2].map(|()| ends[0].open(Dir::Uni).expect("granted"));
    for stream in streams {
        ends[0].write(stream, b"abcd").expect("open");
    }
    pass(&mut ends, 0);
    assert_eq!(news(&mut ends[1]).len(), 4);
    ends[1].stop(streams[0], 1).expect("open");
    ends[1].stop_and_discard(streams[1], 1).expect("open");
    assert_eq!(news(&mut ends[1]), []);
    pass(&mut ends, 1);
    assert_eq!(
        news(&mut ends[0]),
        streams.map(|stream| Event::Stopped(stream, 1))
    );
    pass(&mut ends, 0);
    // Of the one that was forgotten nothing is read.
    let told = [Event::Readable(streams[0]), Event::Ended(streams[1])];
    assert_eq!(news(&mut ends[1]), told);
}

#[test]
fn a_stream_is_writable_once_a_write_was_cut_short() {
    for (mut ends, buffer) in [
        (two_ends(Settings::small().send_buffer(10)), true),
        (within_credit(Settings::small().stream_windows(10)), false),
    ] {
        let [stream, whole] = [(); 2].map(|()| ends[0].open(Dir::Uni).expect("granted"));
        assert_eq!(ends[0].write(whole, &[1; 10]), Ok(10));
        assert_eq!(ends[0].send_stream(stream).try_write(&[1; 11]), Ok(10));
        pass(&mut ends, 0);
        assert_eq!(news(&mut ends[0]), []);
        if buffer {
            // The bytes are acknowledged; those of the stream that took all it was offered, too.
            pass(&mut ends, 1);
        } else {
            pass(&mut ends, 1);
            assert_eq!(news(&mut ends[0]), [], "credit is lacking still");
            for stream in [stream, whole] {
                assert_eq!(ends[1].read(stream, &mut [0; 99]), Ok(Read::Bytes(10)));
            }
            pass(&mut ends, 1);
        }
        assert_eq!(news(&mut ends[0]), [Event::Writable(stream)]);
        // It was told: the next one that is cut short is news again.
        assert_eq!(ends[0].write(stream, &[1; 11]), Ok(10));
        assert_eq!(news(&mut ends[0]), []);
        ends[0].reset(stream, 1).expect("open");
        pass(&mut ends, 0);
        pass(&mut ends, 1);
        assert_eq!(
            news(&mut ends[0]),
            [Event::ResetAcked(stream), Event::Ended(stream)]
        );
    }
}

#[test]
fn a_write_waits_for_the_note_of_the_one_before() {
    let mut unnoted = 0;
    for which in 0.. {
        let mut ends = two_ends(Settings::small().send_buffer(10));
        let [stream, other, finished] = [(); 3].map(|()| ends[0].open(Dir::Uni).expect("granted"));
        ends[0].finish(finished).expect("open");
        let (write, was_refused) = refused(which, || ends[0].write(stream, &[1; 11]));
        if write == Err(UseFault::NoMemory) {
            assert_eq!(ends[0].unsent(stream), 0);
            continue;
        }
        assert_eq!(write, Ok(10));
        if was_refused {
            unnoted += 1;
            let (write, _) = refused(0, || ends[0].write(other, b"x"));
            assert_eq!(write, Err(UseFault::NoMemory));
            assert_eq!(ends[0].unsent(other), 0);
            // What else refuses it goes first.
            let (write, _) = refused(0, || ends[0].write(finished, b"x"));
            assert_eq!(write, Err(UseFault::Finished));
            let (event, _) = refused(0, || ends[0].next_event());
            assert_eq!(event, Err(EventFault::NoMemory));
        }
        pass(&mut ends, 0);
        pass(&mut ends, 1);
        assert_eq!(news(&mut ends[0])[0], Event::Writable(stream));
        if !was_refused {
            break;
        }
    }
    assert!(unnoted > 1, "{unnoted} notes were refused");
}

#[test]
fn an_event_that_is_not_noted_comes_again() {
    let mut ends = two_ends(Settings::small());
    let stream = ends[0].open(Dir::Uni).expect("granted");
    ends[0].write(stream, b"abcd").expect("open");
    pass(&mut ends, 0);
    let (mut told, mut refusals) = (Vec::new(), 0);
    for which in 0.. {
        match refused(which, || ends[1].next_event()).0 {
            Ok(Some(event)) => told.push(event),
            Ok(None) => break,
            Err(fault) => {
                assert_eq!(fault, EventFault::NoMemory);
                refusals += 1;
            }
        }
    }
    assert_eq!(told, [Event::Opened(stream), Event::Readable(stream)]);
    assert!(refusals > 1, "{refusals} refusals");
    // An open that is blocked is noted without memory.
    let mut end = Endpoint::new(
        Role::Client,
        Settings::small(),
        Settings::small().streams(0, 0).limits(),
    )
    .expect("in range");
    let (opened, _) = refused(0, || end.open(Dir::Uni));
    assert_eq!(opened, Err(OpenFault::Blocked(0)));
    assert_eq!(news(&mut end), []);
    end.raise_limits(Settings::small().limits())
        .expect("it is open");
    assert_eq!(news(&mut end), [Event::Available(Dir::Uni)]);
}

/// What an endpoint reported and what the application waits for, as sets.
#[derive(Default)]
struct Told {
    opened: BTreeSet<StreamId>,
    readable: BTreeSet<StreamId>,
    short: BTreeSet<StreamId>,
    stopped: BTreeSet<StreamId>,
    sent: BTreeSet<StreamId>,
    ended: BTreeSet<StreamId>,
    wanted: BTreeSet<bool>,
}

impl Told {
    /// The first piece of news, by a walk over all streams.
    fn next(&self, end: &Endpoint, side: u64) -> Option<Event> {
        let open: Vec<_> = (0..4 * STREAMS)
            .map(id)
            .filter_map(|stream| Some((stream, end.report(stream)?)))
            .collect();
        let first = |is: &dyn Fn(StreamId, &StreamReport) -> bool| {
            let found = open.iter().find(|(stream, report)| is(*stream, report));
            found.map(|(stream, _)| *stream)
        };
        let not = |told: &BTreeSet<StreamId>, stream| !told.contains(&stream);
        let is_theirs = |stream: StreamId| stream.value() % 2 != side;
        let sent = first(&|stream, report| {
            let half = report.send;
            half.is_some_and(|half| is_over(half.state)) && not(&self.sent, stream)
        });
        let mut wanted = [Dir::Bidi, Dir::Uni].into_iter();
        let opened = first(&|stream, _| is_theirs(stream) && not(&self.opened, stream));
        let readable = first(&|stream, _| is_readable(end, stream) && not(&self.readable, stream));
        let writable = first(&|stream, _| end.room(stream) > 0 && self.short.contains(&stream));
        let stopped =
            first(&|stream, _| end.stopped_with(stream).is_some() && not(&self.stopped, stream));
        let ended = first(&|stream, report| has_ended(report) && not(&self.ended, stream));
        let available =
            wanted.find(|dir| end.open_left(*dir) > 0 && self.wanted.contains(&(*dir == Dir::Uni)));
        opened
            .map(Event::Opened)
            .or(readable.map(Event::Readable))
            .or(writable.map(Event::Writable))
            .or(stopped.map(|stream| {
                Event::Stopped(stream, end.stopped_with(stream).expect("it was stopped"))
            }))
            .or(sent.map(|stream| {
                match end
                    .report(stream)
                    .expect("open")
                    .send
                    .expect("it sends")
                    .state
                {
                    SendState::ResetRecvd => Event::ResetAcked(stream),
                    _ => Event::Finished(stream),
                }
            }))
            .or(ended.map(Event::Ended))
            .or(available.map(Event::Available))
    }

    /// It was told.
    fn note(&mut self, event: Event) {
        let is_new = match event {
            Event::Opened(stream) => self.opened.insert(stream),
            Event::Readable(stream) => self.readable.insert(stream),
            Event::Writable(stream) => self.short.remove(&stream),
            Event::Stopped(stream, _) => self.stopped.insert(stream),
            Event::Finished(stream) | Event::ResetAcked(stream) => self.sent.insert(stream),
            Event::Ended(stream) => self.ended.insert(stream),
            Event::Available(dir) => self.wanted.remove(&(dir == Dir::Uni)),
            _ => unreachable!(),
        };
        assert!(is_new, "{event:?} was told before");
    }

    /// The application read the stream, or stopped it.
    fn was_read(&mut self, end: &Endpoint, stream: StreamId) {
        if !is_readable(end, stream) {
            self.readable.remove(&stream);
        }
    }
}

fn is_readable(end: &Endpoint, stream: StreamId) -> bool {
    end.next_readable(stream) == Some(stream)
}

fn is_over(state: SendState) -> bool {
    matches!(state, SendState::DataRecvd | SendState::ResetRecvd)
}

fn has_ended(report: &StreamReport) -> bool {
    let is_read = |state| matches!(state, RecvState::DataRead | RecvState::ResetRead);
    report.send.is_none_or(|half| is_over(half.state))
        && report.recv.is_none_or(|half| is_read(half.state))
}

struct Run {
    ends: [Endpoint; 2],
    told: [Told; 2],
    made: [Vec<(u64, Vec<u8>)>; 2],
    // How many news of each kind were told.
    counts: [u64; 8],
}

impl Run {
    fn new(seed: u64) -> Run {
        let settings = Settings::small()
            .stream_windows([300, 60][seed as usize % 2])
            .send_buffer([200, 30][seed as usize / 2 % 2])
            .streams(4, STREAMS);
        let ends = match seed % 5 {
            0 | 1 => two_ends(settings),
            2 => within_credit(settings),
            3 => tuned(settings, Tuning::default().send_window(Some(50))),
            _ => {
                let tuning = Tuning::default().within_credit(true);
                tuned(settings, tuning.send_window(Some(100)))
            }
        };
        Run {
            ends,
            told: Default::default(),
            made: [Vec::new(), Vec::new()],
            counts: [0; 8],
        }
    }

    /// The next event is the one that the model tells.
    fn hear(&mut self, side: usize) -> bool {
        let expected = self.told[side].next(&self.ends[side], side as u64);
        let event = self.ends[side].next_event().expect("there is memory");
        assert_eq!(event, expected);
        let Some(event) = event else {
            return false;
        };
        self.told[side].note(event);
        self.counts[match event {
            Event::Opened(_) => 0,
            Event::Readable(_) => 1,
            Event::Writable(_) => 2,
            Event::Stopped(..) => 3,
            Event::Finished(_) => 4,
            Event::ResetAcked(_) => 5,
            Event::Ended(_) => 6,
            _ => 7,
        }] += 1;
        true
    }

    fn write(&mut self, side: usize, stream: StreamId, count: usize) {
        let written = self.ends[side].write(stream, &vec![7; count]);
        if written.is_ok_and(|written| written < count) {
            self.told[side].short.insert(stream);
        }
    }

    fn read(&mut self, side: usize, stream: StreamId, random: &mut Random) {
        let end = &mut self.ends[side];
        let most = random.below(200) as usize;
        match random.below(20) {
            0 => _ = end.stop(stream, 6),
            1 => _ = end.stop_and_discard(stream, 6),
            2..=10 => _ = end.consume(stream, most),
            _ => _ = end.read(stream, &mut vec![0; most]),
        }
        self.told[side].was_read(&self.ends[side], stream);
    }

    fn open(&mut self, side: usize, dir: Dir) {
        if let Err(OpenFault::Blocked(_)) = self.ends[side].open(dir) {
            self.told[side].wanted.insert(dir == Dir::Uni);
        }
    }

    fn make(&mut self, side: usize) -> bool {
        let mut payload = vec![0; 400];
        let Some(made) = self.ends[side].make_packet(&mut payload).expect("open") else {
            return false;
        };
        payload.truncate(made.len);
        self.made[side].push((made.number, payload));
        true
    }

    fn deliver(&mut self, side: usize, place: usize) {
        if let Some((number, payload)) = self.made[1 - side].get(place) {
            let taken = self.ends[side].receive(*number, payload);
            assert!(taken.is_ok());
        }
    }

    fn act(&mut self, random: &mut Random) {
        let side = random.below(2) as usize;
        let stream = id(random.below(4 * STREAMS));
        let low = id(random.below(24));
        let made = self.made[1 - side].len();
        match random.below(40) {
            0..=4 => self.open(side, [Dir::Bidi, Dir::Uni][random.below(2) as usize]),
            5..=10 => self.write(side, low, random.below(90) as usize),
            11 => self.write(side, stream, random.below(90) as usize),
            12 | 13 => _ = self.ends[side].finish(low),
            14 if random.chance(30) => _ = self.ends[side].reset(low, 5),
            14..=19 => self.read(side, low, random),
            20 => self.read(side, stream, random),
            21..=24 => _ = self.make(side),
            25 => {
                _ = self.ends[side].declare_lost(random.below(1 + self.made[side].len() as u64));
            }
            26 => self.deliver(side, random.below(1 + made as u64) as usize),
            27..=31 => self.deliver(side, made.saturating_sub(1)),
            _ => {
                for _ in 0..random.below(4) {
                    self.hear(side);
                }
            }
        }
    }

    /// Nothing is lost any more, until nothing is told.
    fn calm(&mut self) {
        for turn in 0..8 {
            let side = turn % 2;
            while self.make(side) {
                self.deliver(1 - side, self.made[side].len() - 1);
            }
            for side in [0, 1] {
                while self.hear(side) {}
            }
        }
    }
}

#[test]
fn random_runs_tell_what_a_model_tells() {
    let mut counts = [0; 8];
    for seed in 0..SEEDS {
        let mut random = Random::new(seed);
        let mut run = Run::new(seed);
        for _ in 0..EVENTS {
            run.act(&mut random);
        }
        run.calm();
        counts
            .iter_mut()
            .zip(run.counts)
            .for_each(|(all, more)| *all += more);
    }
    println!("{SEEDS} runs of {EVENTS} events told {counts:?}");
    assert!(counts.iter().all(|count| *count > 100), "{counts:?}");
}
