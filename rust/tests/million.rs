//! A connection that lives for a million requests, one after the other, with the settings of a server: what each costs and leaves, and
//! how often the peer is told that streams ended. Also with events asked for, where one request of 64 is cancelled, and beside a stream
//! that stays open; of these there are fewer, but with MILLION=all in the environment as many.

#[path = "support/counting.rs"]
mod counting;

use counting::LIVE;
use gotsavena::{
    Dir, Endpoint, Event, Frame, Read, Received, Role, Settings, Share, StreamId, Tuning, frames,
};
use std::time::{Duration, Instant};

// Fewer where overflow is checked, which takes four times as long.
const REQUESTS: u64 = if cfg!(debug_assertions) {
    1 << 17
} else {
    1 << 20
};

/// How many bytes of the heap an end keeps at most of a stream that is over. Seen: 49.
const LEFT: i64 = 52;

/// An eighth of the streams that are granted at a time: so many end until the peer is told.
const STEP: u64 = 100 / 8;

fn two_ends() -> [Endpoint; 2] {
    let settings = Settings::default();
    let tuning = Tuning::default().count_step(Some(Share::Eighth));
    [Role::Client, Role::Server].map(|role| {
        Endpoint::with_tuning(role, settings, tuning, settings.limits()).expect("in range")
    })
}

/// The packets that are due go across, and each is shown. Answers how many there were.
fn carry(from: &mut Endpoint, to: &mut Endpoint, show: &mut impl FnMut(&[u8])) -> usize {
    let mut payload = [0; 1200];
    let mut count = 0;
    while let Some(made) = from.make_packet(&mut payload).expect("memory") {
        let bytes = &payload[..made.len];
        assert_eq!(to.receive(made.number, bytes), Ok(Received::Done));
        show(bytes);
        count += 1;
    }
    count
}

fn settle(client: &mut Endpoint, server: &mut Endpoint, show: &mut impl FnMut(&[u8])) {
    while carry(client, server, show) + carry(server, client, show) > 0 {}
}

/// A request of one byte and an answer of one, each with its end.
fn exchange([client, server]: &mut [Endpoint; 2], show: &mut impl FnMut(&[u8])) {
    let mut byte = [0];
    let stream = client.open(Dir::Bidi).expect("it is granted");
    assert_eq!(client.write(stream, &[1]), Ok(1));
    client.finish(stream).expect("it is open");
    settle(client, server, show);
    assert_eq!(server.accept(), Some(stream));
    assert_eq!(server.read(stream, &mut byte), Ok(Read::Bytes(1)));
    assert_eq!(server.read(stream, &mut byte), Ok(Read::End));
    assert_eq!(server.write(stream, &[2]), Ok(1));
    server.finish(stream).expect("it is open");
    settle(client, server, show);
    assert_eq!(client.read(stream, &mut byte), Ok(Read::Bytes(1)));
    assert_eq!(client.read(stream, &mut byte), Ok(Read::End));
    settle(client, server, show);
}

fn tells_count(payload: &[u8]) -> bool {
    let mut frames = frames(payload).flatten();
    frames.any(|placed| matches!(placed.frame, Frame::MaxStreams { .. }))
}

/// How long ten exchanges take.
fn time_of_some(ends: &mut [Endpoint; 2]) -> Duration {
    let begun = Instant::now();
    (0..10).for_each(|_| exchange(ends, &mut |_| ()));
    begun.elapsed()
}

/// What ten exchanges take of two connections: the least of many short times, by turns, since a busy machine makes most of them longer.
/// It takes no more of them once the old connection's is as short as wanted.
fn least_times(old: &mut [Endpoint; 2], young: &mut [Endpoint; 2]) -> (Duration, Duration) {
    let (mut later, mut first) = (Duration::MAX, Duration::MAX);
    for turn in 0..10_000 {
        later = later.min(time_of_some(old));
        first = first.min(time_of_some(young));
        if turn >= 1_000 && is_as_cheap(later, first) {
            break;
        }
    }
    (later, first)
}

/// Within a fifth. `bench/count --growth` holds the instructions to a tenth; of the time an old connection's tables, which lie in no cache,
/// take some, too, and more on a busy machine.
fn is_as_cheap(later: Duration, first: Duration) -> bool {
    10 * later <= 12 * first
}

#[test]
fn a_millionth_request_costs_and_leaves_as_much_as_the_first() {
    let mut ends = two_ends();
    let (before, mut told) = (LIVE.get(), 0);
    for _ in 0..REQUESTS {
        let mut show = |payload: &[u8]| told += u64::from(tells_count(payload));
        exchange(&mut ends, &mut show);
    }
    // Both ends keep as much.
    let left = (LIVE.get() - before) / 2 / REQUESTS as i64;
    println!("{left} bytes of each are left at an end");
    assert!(left <= LEFT, "{left} bytes");
    assert_eq!(told, REQUESTS / STEP, "packets with a MAX_STREAMS");
    let steps = REQUESTS / STEP * STEP;
    assert_eq!(ends[1].granted_streams(Dir::Bidi), 100 + steps);
    let (later, first) = least_times(&mut ends, &mut two_ends());
    println!("ten requests take {first:?} at first, and {later:?} behind {REQUESTS}");
    assert!(
        is_as_cheap(later, first),
        "{first:?} for ten, later {later:?}"
    );
}

/// One request of so many is cancelled.
const CANCELLED: u64 = 64;

/// How many bytes of the heap an end keeps at most of a stream that was stopped and reset once something was written, beyond those of one
/// that ended plainly: docs/LIMITS.md has 312 for its sending half, and 81 for its receiving one.
const LEFT_OF_CANCELLED: i64 = 312 + 81;

const CODE: u64 = 0x10c;

/// Events of an end, by kind.
#[derive(Default, Debug, PartialEq, Eq)]
struct Heard {
    opened: u64,
    readable: u64,
    stopped: u64,
    finished: u64,
    reset_acked: u64,
    ended: u64,
}

impl Heard {
    fn hear(&mut self, end: &mut Endpoint) {
        while let Some(event) = end.next_event().expect("memory") {
            let count = match event {
                Event::Opened(_) => &mut self.opened,
                Event::Readable(_) => &mut self.readable,
                Event::Stopped(_, CODE) => &mut self.stopped,
                Event::Finished(_) => &mut self.finished,
                Event::ResetAcked(_) => &mut self.reset_acked,
                Event::Ended(_) => &mut self.ended,
                other => panic!("{other}"),
            };
            *count += 1;
        }
    }
}

/// Two ends that are asked for events after each packet, and what they told.
struct Life {
    ends: [Endpoint; 2],
    heard: [Heard; 2],
    told: u64,
}

impl Life {
    fn new() -> Life {
        Life {
            ends: two_ends(),
            heard: Default::default(),
            told: 0,
        }
    }

    fn settle(&mut self) {
        let [client, server] = &mut self.ends;
        let told = &mut self.told;
        let mut show = |payload: &[u8]| *told += u64::from(tells_count(payload));
        loop {
            let carried = carry(client, server, &mut show) + carry(server, client, &mut show);
            self.heard[0].hear(client);
            self.heard[1].hear(server);
            if carried == 0 {
                return;
            }
        }
    }

    /// The client opens a stream with a byte on it, which the server reads.
    fn ask(&mut self) -> StreamId {
        let stream = self.ends[0].open(Dir::Bidi).expect("it is granted");
        assert_eq!(self.ends[0].write(stream, &[1]), Ok(1));
        self.settle();
        assert_eq!(self.ends[1].accept(), Some(stream));
        self.read(1, stream, Read::Bytes(1));
        stream
    }

    fn read(&mut self, end: usize, stream: StreamId, expected: Read) {
        assert_eq!(self.ends[end].read(stream, &mut [0]), Ok(expected));
    }

    /// The end writes its last byte, and the other one reads it and the end.
    fn answer(&mut self, from: usize, stream: StreamId) {
        assert_eq!(self.ends[from].write(stream, &[2]), Ok(1));
        self.ends[from].finish(stream).expect("it is open");
        self.settle();
        self.read(1 - from, stream, Read::Bytes(1));
        self.read(1 - from, stream, Read::End);
        self.settle();
    }

    fn request(&mut self) {
        let stream = self.ask();
        self.answer(0, stream);
        self.answer(1, stream);
    }

    /// The client gives up both directions, and each end reads the other one's reset. Of the server's answer nobody reads the byte.
    fn cancel(&mut self) {
        let stream = self.ask();
        assert_eq!(self.ends[1].write(stream, &[2]), Ok(1));
        self.settle();
        self.ends[0].reset(stream, CODE).expect("it is open");
        self.ends[0].stop(stream, CODE).expect("it is open");
        self.settle();
        self.read(0, stream, Read::Reset(CODE));
        self.read(1, stream, Read::Reset(CODE));
        self.settle();
    }

    /// Both ends told of each end of a half: the last bytes that were acknowledged, the resets, the stops, and the streams that are over.
    fn has_told(&self, plain: u64, cancelled: u64) {
        for heard in &self.heard {
            assert_eq!((heard.finished, heard.reset_acked), (plain, cancelled));
            assert_eq!(heard.ended, plain + cancelled);
        }
        assert_eq!(
            (self.heard[0].stopped, self.heard[1].stopped),
            (0, cancelled)
        );
    }

    /// The server told the client of each eighth of what it grants, as so many streams had ended.
    fn has_granted(&self, ended: u64) {
        assert_eq!(self.told, ended / STEP, "packets with a MAX_STREAMS");
        let granted = self.ends[1].granted_streams(Dir::Bidi);
        assert_eq!(granted, 100 + ended / STEP * STEP);
    }
}

/// How many requests there are with events: fewer where nobody asked for all, since each question looks at the words of all streams.
fn with_events() -> u64 {
    match std::env::var("MILLION").as_deref() {
        Ok("all") => 1 << 20,
        Ok(other) => panic!("MILLION={other}: only 'all' is known"),
        Err(_) => REQUESTS / 16,
    }
}

/// Plays a life, and answers how many bytes it left at an end.
fn left_of(play: impl FnOnce(&mut Life)) -> i64 {
    let (mut life, before) = (Life::new(), LIVE.get());
    play(&mut life);
    (LIVE.get() - before) / 2
}

/// So many requests, and nothing else.
fn left_of_plain(requests: u64) -> i64 {
    left_of(|life| {
        (0..requests).for_each(|_| life.request());
        life.has_told(requests, 0);
        life.has_granted(requests);
    })
}

#[test]
fn one_of_64_cancelled_leaves_no_more_than_its_bytes() {
    let requests = with_events();
    let cancelled = requests / CANCELLED;
    let left = left_of(|life| {
        for number in 0..requests {
            match number % CANCELLED {
                0 => life.cancel(),
                _ => life.request(),
            }
        }
        life.has_told(requests - cancelled, cancelled);
        life.has_granted(requests);
    });
    let plain = left_of_plain(requests);
    println!("{left} bytes are left of {requests}, and {plain} of plain ones");
    assert!(left <= plain + LEFT_OF_CANCELLED * cancelled as i64);
}

#[test]
fn a_stream_that_stays_open_lasts_beside_all_others() {
    let requests = with_events();
    let left = left_of(|life| {
        let long = life.ask();
        (1..requests).for_each(|_| life.request());
        life.has_told(requests - 1, 0);
        life.has_granted(requests - 1);
        life.answer(0, long);
        life.answer(1, long);
        life.has_told(requests, 0);
        life.has_granted(requests);
    });
    let plain = left_of_plain(requests);
    println!("{left} bytes are left of {requests}, and {plain} of plain ones");
    assert!(left <= plain + LEFT);
}
