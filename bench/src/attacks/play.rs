//! A hostile peer against an endpoint: it puts payloads together, the endpoint receives them and sends packets, and the last tenth is
//! timed. The driver over quinn-proto is built from this file too.

use super::gotsavena_counted;
use super::look_from_here;
use super::minor_faults;
use super::time;
use gotsavena::{Dir, Frame, Role, StreamId};
use std::process::ExitCode;
use std::time::Duration;

/// The settings of an endpoint and of its peer.
#[derive(Clone, Copy)]
pub struct Setup {
    /// The window of a stream. The connection's is 16 times as wide.
    pub window: u64,
    /// How many streams of each direction the peer may open at once, of 65,536 in all.
    pub streams: u64,
    /// The peer's limit for all streams together, in bytes.
    pub max_data: u64,
    /// The peer's limit for each stream, in bytes.
    pub max_stream_data: u64,
    /// The size of a send buffer, if writes aren't bounded by credit.
    pub send_buffer: usize,
    /// Whether writes are bounded by the peer's credit, and the application asks for blocked events.
    pub within_credit: bool,
}

/// An endpoint under attack, with its application. It is a server, and the peer grants the streams that it opens.
pub trait Target {
    fn new(setup: Setup) -> Self;
    /// Receives a payload that breaks no rule.
    fn receive(&mut self, number: u64, payload: &[u8]);
    /// Makes the next packet and returns its number.
    fn make(&mut self, out: &mut [u8]) -> Option<u64>;
    /// Receives a payload and returns how many packets it newly acknowledges.
    fn receive_with_acks(&mut self, number: u64, payload: &[u8]) -> u64;
    fn open(&mut self, dir: Dir) -> StreamId;
    /// Writes these bytes, as many as are accepted.
    fn write(&mut self, stream: StreamId, bytes: &[u8]);
    /// Reads all that there is, up to the FIN or the reset.
    fn read(&mut self, stream: StreamId);
    /// Reads one byte.
    fn read_byte(&mut self, stream: StreamId);
    fn finish(&mut self, stream: StreamId);
    fn reset(&mut self, stream: StreamId);
    fn stop(&mut self, stream: StreamId);
    /// Takes all events, if `receive` doesn't do so.
    fn hear(&mut self);
    /// Called after the attack, with the number of packets received.
    fn settle(&mut self, came: u64);
}

/// An attack: its preparation, and a step for each payload.
pub struct Attack<T> {
    pub name: &'static str,
    pub what: &'static str,
    pub sizes: [u64; 3],
    pub setup: Setup,
    /// Prepares the attack at this size.
    pub ready: fn(&mut Play<T>, u64),
    /// How many steps there are at this size.
    pub steps: fn(u64) -> u64,
    /// Plays the step of this number, at this size.
    pub step: fn(&mut Play<T>, u64, u64),
}

/// An endpoint, the payload that is being put together for it, and the cost of its calls so far.
pub struct Play<T> {
    pub end: T,
    payload: Vec<u8>,
    len: usize,
    out: Vec<u8>,
    next: u64,
    sent: usize,
    /// How many packets the endpoint made.
    made: u64,
    is_timed: bool,
    spent: Duration,
    looks: u32,
    faults: i64,
}

/// The results of a run.
struct Told {
    time: f64,
    heap: usize,
    sent: usize,
    payloads: u64,
    faults: i64,
}

/// The room of a packet, in bytes.
pub const ROOM: usize = 1200;

impl<T: Target> Play<T> {
    /// Calls the endpoint. In the last tenth the call is timed and counted.
    pub fn call(&mut self, mut call: impl FnMut(&mut T)) {
        let (end, before) = (&mut self.end, minor_faults());
        if self.is_timed {
            self.spent += time(|| gotsavena_counted(&mut || call(end)));
            self.looks += 1;
        } else {
            call(end);
        }
        self.faults += minor_faults() - before;
    }

    /// The length of the payload so far.
    pub fn len(&self) -> usize {
        self.len
    }

    /// Appends a frame to the payload.
    pub fn put(&mut self, frame: Frame<'_>) {
        self.len += gotsavena::put(&frame, &mut self.payload[self.len..]).expect("it fits");
    }

    /// Appends an ACK of these packets to the payload.
    pub fn put_ack(&mut self, first: u64, last: u64) {
        let (_, len) = gotsavena::put_ack(&[(first, last)], 0, &mut self.payload[self.len..])
            .expect("it fits");
        self.len += len;
    }

    /// Delivers the payload.
    pub fn deliver(&mut self) {
        let (payload, number, len) = (std::mem::take(&mut self.payload), self.next, self.len);
        self.call(|end| end.receive(number, &payload[..len]));
        self.payload = payload;
        self.next += 1;
        self.sent += len;
        self.len = 0;
    }

    /// Delivers a payload of one frame.
    pub fn send(&mut self, frame: Frame<'_>) {
        self.put(frame);
        self.deliver();
    }

    /// Lets the endpoint make a packet of at most this many bytes.
    pub fn make_in(&mut self, room: usize) -> Option<u64> {
        let (mut out, mut made) = (std::mem::take(&mut self.out), None);
        self.call(|end| made = end.make(&mut out[..room]));
        self.out = out;
        self.made = made.map_or(self.made, |number| number + 1);
        made
    }

    pub fn make(&mut self) -> Option<u64> {
        self.make_in(ROOM)
    }

    /// Lets the application take all events.
    pub fn hear(&mut self) {
        self.call(T::hear);
    }

    /// Lets the endpoint make packets until nothing is pending.
    pub fn drain(&mut self) {
        while self.make().is_some() {}
    }

    /// Acknowledges all packets of the endpoint.
    pub fn ack_all(&mut self) {
        self.put_ack(0, self.made - 1);
        self.deliver();
    }

    /// Delivers the payload, and checks how many packets it newly acknowledges.
    pub fn deliver_telling(&mut self, acked: u64) {
        let (payload, number, len) = (std::mem::take(&mut self.payload), self.next, self.len);
        self.call(|end| assert_eq!(end.receive_with_acks(number, &payload[..len]), acked));
        self.payload = payload;
        self.next += 1;
        self.sent += len;
        self.len = 0;
    }

    /// How many packets the endpoint made.
    pub fn made(&self) -> u64 {
        self.made
    }

    /// Does something within a step that isn't timed.
    pub fn aside(&mut self, what: impl FnOnce(&mut Self)) {
        let was = std::mem::replace(&mut self.is_timed, false);
        what(self);
        self.is_timed = was;
    }
}

/// A stream that the peer opened.
pub fn theirs(dir: Dir, index: u64) -> StreamId {
    StreamId::from_parts(Role::Client, dir, index).expect("it is below 2^62")
}

/// A stream that the endpoint opened.
pub fn own(dir: Dir, index: u64) -> StreamId {
    StreamId::from_parts(Role::Server, dir, index).expect("it is below 2^62")
}

// How long reading the clock takes.
fn clock() -> Duration {
    const LOOKS: u32 = 10_000;
    let spent: Duration = (0..LOOKS).map(|_| time(|| ())).sum();
    spent / LOOKS
}

// Plays the attack at this size. The heap is what the endpoint holds after the last step.
fn play<T: Target>(attack: &Attack<T>, size: u64, live: fn() -> usize) -> Told {
    let (payload, out) = (vec![0; 1 << 16], vec![0; 1 << 14]);
    let before = live();
    let mut play = Play {
        end: T::new(attack.setup),
        payload,
        len: 0,
        out,
        next: 0,
        sent: 0,
        made: 0,
        is_timed: false,
        spent: Duration::ZERO,
        looks: 0,
        faults: 0,
    };
    (attack.ready)(&mut play, size);
    let steps = (attack.steps)(size);
    let payloads = steps.div_ceil(10);
    for step in 0..steps {
        play.is_timed = step + payloads >= steps;
        // Nothing before is counted, and without callgrind's looks it takes a fifth of the time.
        if step + payloads == steps {
            look_from_here();
        }
        (attack.step)(&mut play, size, step);
    }
    let heap = live() - before;
    play.end.settle(play.next);
    let spent = play.spent.saturating_sub(clock() * play.looks);
    Told {
        time: spent.as_nanos() as f64 / payloads as f64,
        heap,
        sent: play.sent,
        payloads,
        faults: play.faults,
    }
}

/// Lists the attacks, each with its sizes and in words, or plays one: `NAME SIZE` prints the nanoseconds that a payload of the last tenth
/// took, the bytes of heap that the endpoint holds, and the bytes of the payloads that it got; `--count NAME SIZE` prints how many payloads
/// the last tenth had, for a counter of instructions.
pub fn main<T: Target>(groups: &[&[Attack<T>]], live: fn() -> usize) -> ExitCode {
    let words: Vec<String> = std::env::args().skip(1).collect();
    let is_count = words.first().is_some_and(|word| word == "--count");
    let asked = &words[usize::from(is_count)..];
    if asked.is_empty() {
        for attack in groups.iter().copied().flatten() {
            let [least, middle, most] = attack.sizes;
            println!("{} {least} {middle} {most} {}", attack.name, attack.what);
        }
        return ExitCode::SUCCESS;
    }
    let mut attacks = groups.iter().copied().flatten();
    let found = attacks.find(|attack| attack.name == asked[0]);
    let size = asked.get(1).and_then(|word| word.parse().ok());
    let (Some(attack), Some(size)) = (found, size) else {
        eprintln!("attacks: there is no attack {}", asked.join(" "));
        return ExitCode::from(2);
    };
    let told = play(attack, size, live);
    if is_count {
        println!("{}", told.payloads);
    } else {
        println!(
            "{:.1} {} {} {}",
            told.time, told.heap, told.sent, told.faults
        );
    }
    ExitCode::SUCCESS
}
