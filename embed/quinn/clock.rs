//! Two ends of quinn on a clock that stands still unless they wait: transfers, by priority and beside unreliable datagrams, too, short
//! streams, and random ones over a link that drops datagrams. The same file is played over quinn's streams and over ours. A line
//! 'clock NAME: SECONDS s..' tells of each.
use std::collections::{HashMap, HashSet, VecDeque};

use rand::{rngs::StdRng, Rng, SeedableRng};

use super::*;

const CODE: u32 = 7;

struct Half {
    ch: ConnectionHandle,
    is_client: bool,
    dir: Dir,
    to_open: u64,
    open: bool,
    size: fn(StreamId) -> usize,
    content: Content,
    priority: Option<fn(StreamId) -> i32>,
    writing: HashMap<StreamId, usize>,
    ready: VecDeque<StreamId>,
    came: HashMap<StreamId, u64>,
    ends: Vec<(StreamId, Duration)>,
    now: Duration,
    sent_done: u64,
    read_done: u64,
    bytes: u64,
}

fn mixed(id: StreamId) -> u64 {
    (u64::from(id.index()) * 4 + u64::from(VarInt::from(id).into_inner() % 4))
        .wrapping_mul(0x9e37_79b9_7f4a_7c15)
        >> 20
}

fn byte_at(id: StreamId, offset: u64) -> u8 {
    (mixed(id) ^ offset ^ (offset >> 8)) as u8
}

/// Which streams are reset by the writer, and which stopped by the reader, once half of them went. By number, so that both sides know it
/// without a word.
#[derive(Clone, Copy, PartialEq)]
enum Breaks {
    Never,
    /// One of eight is reset, and one is stopped.
    Some,
    /// By turns they are reset, and stopped. Those that are to be stopped wait for it.
    All,
}

/// What is written. To make bytes and compare each takes as much as a short stream, so plays that are counted do without.
#[derive(Clone, Copy, PartialEq)]
enum Content {
    Compared,
    Zeros,
}

impl Content {
    fn bytes(self, id: StreamId, range: std::ops::Range<usize>) -> Vec<u8> {
        match self {
            Content::Compared => range.map(|offset| byte_at(id, offset as u64)).collect(),
            Content::Zeros => vec![0; range.len()],
        }
    }

    fn compare(self, id: StreamId, at: u64, bytes: &[u8]) {
        if self == Content::Compared {
            for (place, byte) in bytes.iter().enumerate() {
                assert_eq!(*byte, byte_at(id, at + place as u64), "{} {}", id, place);
            }
        }
    }
}

impl Breaks {
    fn is_reset(self, id: StreamId) -> bool {
        match self {
            Breaks::Never => false,
            Breaks::Some => mixed(id) % 8 == 1,
            Breaks::All => id.index() % 2 == 0,
        }
    }

    fn is_stopped(self, id: StreamId) -> bool {
        match self {
            Breaks::Never => false,
            Breaks::Some => mixed(id) % 8 == 2,
            Breaks::All => id.index() % 2 == 1,
        }
    }
}

impl Half {
    fn new(ch: ConnectionHandle, is_client: bool, play: &Play) -> Self {
        let (writing, ready, came) = Default::default();
        Half {
            ch,
            is_client,
            dir: play.dir,
            // (the server's are answers to the client's, where streams have both directions)
            to_open: if play.dir == Dir::Bi && !is_client {
                0
            } else {
                play.streams[usize::from(!is_client)]
            },
            open: true,
            size: play.size,
            content: play.content,
            priority: play.priority,
            writing,
            ready,
            came,
            ends: Vec::new(),
            now: Duration::ZERO,
            sent_done: 0,
            read_done: 0,
            bytes: 0,
        }
    }

    fn conn<'a>(&self, pair: &'a mut Pair) -> &'a mut Connection {
        match self.is_client {
            true => pair.client_conn_mut(self.ch),
            false => pair.server_conn_mut(self.ch),
        }
    }

    fn turn(&mut self, pair: &mut Pair, breaks: Breaks) {
        let conn = self.conn(pair);
        while let Some(event) = conn.poll() {
            match event {
                Event::Stream(StreamEvent::Opened { dir }) => {
                    while let Some(id) = conn.streams().accept(dir) {
                        self.came.insert(id, 0);
                        self.read(conn, id, breaks);
                    }
                }
                Event::Stream(StreamEvent::Readable { id }) => self.read(conn, id, breaks),
                Event::Stream(StreamEvent::Writable { id }) => self.ready.push_back(id),
                Event::Stream(StreamEvent::Finished { .. }) => self.sent_done += 1,
                Event::Stream(StreamEvent::Stopped { id, error_code }) => {
                    assert!(breaks.is_stopped(id) && error_code == VarInt::from(CODE));
                    self.writing.remove(&id);
                    // (it was reset before)
                    conn.send_stream(id).reset(CODE.into()).unwrap();
                    self.sent_done += 1;
                }
                Event::Stream(StreamEvent::Available { .. }) => self.open = true,
                Event::ConnectionLost { reason } => panic!("{}", reason),
                _ => {}
            }
        }
        self.open_more(conn);
        while let Some(id) = self.ready.pop_front() {
            self.write(conn, id, breaks);
        }
    }

    fn open_more(&mut self, conn: &mut Connection) {
        while self.open && self.to_open > 0 {
            match conn.streams().open(self.dir) {
                Some(id) => {
                    self.to_open -= 1;
                    if self.dir == Dir::Bi {
                        self.came.insert(id, 0);
                    }
                    if let Some(priority) = self.priority {
                        conn.send_stream(id).set_priority(priority(id)).unwrap();
                    }
                    self.writing.insert(id, 0);
                    self.ready.push_back(id);
                }
                None => self.open = false,
            }
        }
    }

    fn write(&mut self, conn: &mut Connection, id: StreamId, breaks: Breaks) {
        let size = (self.size)(id);
        while let Some(at) = self.writing.get_mut(&id) {
            if breaks.is_reset(id) && *at >= size / 2 {
                self.writing.remove(&id);
                conn.send_stream(id).reset(CODE.into()).unwrap();
                self.sent_done += 1;
                return;
            }
            if *at == size {
                if breaks == Breaks::All {
                    return;
                }
                self.writing.remove(&id);
                return conn.send_stream(id).finish().unwrap();
            }
            let end = size.min(*at + 4_096);
            let bytes = self.content.bytes(id, *at..end);
            match conn.send_stream(id).write(&bytes) {
                Ok(count) => *at += count,
                Err(WriteError::Blocked) => return,
                // (the event is on its way)
                Err(WriteError::Stopped(_)) => return,
                Err(error) => panic!("{} {}", id, error),
            }
        }
    }

    fn read(&mut self, conn: &mut Connection, id: StreamId, breaks: Breaks) {
        let size = (self.size)(id) as u64;
        let at = match self.came.get_mut(&id) {
            Some(at) => at,
            // (it is over, was stopped, or wasn't accepted yet)
            None => return,
        };
        let mut half = conn.recv_stream(id);
        let mut chunks = half.read(true).unwrap();
        let over = loop {
            if breaks.is_stopped(id) && *at >= size / 2 {
                break true;
            }
            match chunks.next(usize::MAX) {
                Ok(Some(chunk)) => {
                    assert_eq!(chunk.offset, *at, "{}", id);
                    self.content.compare(id, *at, &chunk.bytes);
                    *at += chunk.bytes.len() as u64;
                    self.bytes += chunk.bytes.len() as u64;
                    assert!(*at <= size);
                }
                Ok(None) => {
                    assert!(*at == size && !breaks.is_reset(id), "{}", id);
                    break true;
                }
                Err(ReadError::Reset(code)) => {
                    assert!(breaks.is_reset(id) && code == VarInt::from(CODE), "{}", id);
                    break true;
                }
                Err(ReadError::Blocked) => break false,
            }
        };
        let _ = chunks.finalize();
        if over {
            self.leave(conn, id, breaks);
        }
    }

    fn leave(&mut self, conn: &mut Connection, id: StreamId, breaks: Breaks) {
        // (one that is over isn't there any more)
        let _ = breaks.is_stopped(id) && conn.recv_stream(id).stop(CODE.into()).is_ok();
        self.came.remove(&id);
        self.ends.push((id, self.now));
        self.read_done += 1;
        if self.dir == Dir::Bi && !self.is_client {
            self.writing.insert(id, 0);
            self.ready.push_back(id);
        }
    }
}

struct Play {
    name: &'static str,
    dir: Dir,
    streams: [u64; 2],
    size: fn(StreamId) -> usize,
    content: Content,
    priority: Option<fn(StreamId) -> i32>,
    breaks: Breaks,
    drops: u32,
    latency: Duration,
    seed: u64,
}

// Of this thread alone, since other load on the machine would count else.
fn processor_ms() -> f64 {
    let stat = std::fs::read_to_string("/proc/thread-self/schedstat").unwrap_or_default();
    let ns = stat.split(' ').next().and_then(|field| field.parse::<f64>().ok());
    ns.unwrap_or(0.0) / 1e6
}

fn begin(play: &Play, transport: impl Fn(&mut TransportConfig)) -> (Pair, [Half; 2]) {
    let mut config = TransportConfig::default();
    transport(&mut config);
    let config = Arc::new(config);
    let server = ServerConfig { transport: config.clone(), ..server_config() };
    let mut pair = Pair::new(Arc::new(EndpointConfig::default()), server);
    pair.latency = play.latency;
    let mut client = client_config();
    client.transport_config(config);
    let (client_ch, server_ch) = pair.connect_with(client);
    (pair, [Half::new(client_ch, true, play), Half::new(server_ch, false, play)])
}

fn are_done(play: &Play, halves: &[Half; 2]) -> bool {
    (0..2).all(|side| {
        halves[side].sent_done == play.streams[side]
            && halves[side].read_done == play.streams[1 - side]
    })
}

fn drive(play: &Play, pair: &mut Pair, halves: &mut [Half; 2]) -> (u64, u64) {
    let mut random = StdRng::seed_from_u64(play.seed);
    let (mut now, start) = (pair.time, pair.time);
    let (mut turns, mut dropped, mut idle) = (0u64, 0u64, 0);
    loop {
        for half in halves.iter_mut() {
            half.now = now - start;
            half.turn(pair, play.breaks);
        }
        if are_done(play, halves) {
            return (turns, dropped);
        }
        // (a step takes in what comes now, and then sets the clock)
        now = pair.time;
        let arrival = now + pair.latency;
        idle = if pair.step() { 0 } else { idle + 1 };
        let told = |half: &Half| {
            (half.to_open, half.sent_done, half.read_done, half.came.len(), half.writing.len())
        };
        assert!(idle < 3, "stuck: {:?} {:?}", told(&halves[0]), told(&halves[1]));
        for inbound in [&mut pair.client.inbound, &mut pair.server.inbound] {
            inbound.retain(|datagram| {
                let drop = play.drops > 0
                    && datagram.0 == arrival
                    && random.gen_range(0..100) < play.drops;
                dropped += u64::from(drop);
                !drop
            });
        }
        turns += 1;
    }
}

// What the settings cost alone is counted by the same play without a stream.
fn streams_of(play: &Play) -> [u64; 2] {
    match std::env::var_os("CLOCK_NO_STREAMS") {
        Some(_) => [0, 0],
        None => play.streams,
    }
}

fn play(play: Play, transport: impl Fn(&mut TransportConfig)) -> Vec<(StreamId, Duration)> {
    let play = Play { streams: streams_of(&play), ..play };
    let (mut pair, mut halves) = begin(&play, transport);
    let (start, began) = (pair.time, processor_ms());
    let (turns, dropped) = drive(&play, &mut pair, &mut halves);
    println!(
        "clock {}: {:.3} s, {} streams, {} bytes, {} datagrams dropped, {} turns, {:.1} ms of the processor",
        play.name,
        (pair.time - start).as_secs_f64(),
        play.streams[0] + play.streams[1],
        halves[0].bytes + halves[1].bytes,
        dropped,
        turns,
        processor_ms() - began
    );
    let [_, server] = halves;
    server.ends
}

const BEAT: Duration = Duration::from_millis(5);

fn datagram(number: u32) -> Vec<u8> {
    let rest = (4..500).map(|place| (number ^ place) as u8);
    number.to_be_bytes().into_iter().chain(rest).collect()
}

#[derive(Default)]
struct Beats {
    sent: u32,
    waits: Vec<Duration>,
}

impl Beats {
    fn send(&mut self, conn: &mut Connection, now: Duration) {
        while BEAT * self.sent <= now {
            conn.datagrams().send(datagram(self.sent).into()).unwrap();
            self.sent += 1;
        }
    }

    // Whole and in order, since the link drops none.
    fn receive(&mut self, conn: &mut Connection, now: Duration) {
        while let Some(bytes) = conn.datagrams().recv() {
            let number = self.waits.len() as u32;
            assert!(bytes == datagram(number), "datagram {}", number);
            self.waits.push(now - BEAT * number);
        }
    }

    fn are_there(&self) -> bool {
        self.waits.len() as u32 == self.sent
    }

    fn tell(&self, name: &str) {
        let (sum, most) = (self.waits.iter().sum::<Duration>(), self.waits.iter().max().unwrap());
        let mean = sum / self.sent;
        println!("clock {}, in the mean: {:.4} s, {} came", name, mean.as_secs_f64(), self.sent);
        println!("clock {}, the slowest: {:.4} s", name, most.as_secs_f64());
    }
}

// No further than that time, so that a side that waits is asked in time.
fn advance(pair: &mut Pair, latest: Option<Instant>) {
    let times = [pair.client.next_wakeup(), pair.server.next_wakeup(), latest];
    pair.time = pair.time.max(times.into_iter().flatten().min().expect("not stuck"));
}

fn size_of_1_mib(_: StreamId) -> usize {
    1 << 20
}

const PLAIN: Play = Play {
    name: "10 streams of 1 MiB",
    dir: Dir::Uni,
    streams: [10, 0],
    size: size_of_1_mib,
    content: Content::Compared,
    priority: None,
    breaks: Breaks::Never,
    drops: 0,
    latency: Duration::from_millis(50),
    seed: 0,
};

#[test]
fn bulk_of_32_mib() {
    let name = "32 MiB at 100 ms, quinn's own windows";
    play(Play { name, streams: [1, 0], size: |_| 32 << 20, ..PLAIN }, |_| {});
}

#[test]
fn bulk_with_windows_of_1_mib() {
    let name = "32 MiB at 100 ms, windows of 1 MiB";
    play(Play { name, streams: [1, 0], size: |_| 32 << 20, ..PLAIN }, |config| {
        config.stream_receive_window((1u32 << 20).into());
    });
}

#[test]
fn short_streams() {
    play(Play { name: "short streams", streams: [70_000, 0], size: |_| 20, ..PLAIN }, |_| {});
}

#[test]
fn ten_streams() {
    play(PLAIN, |_| {});
}

#[test]
fn random_streams() {
    for (seed, window) in [4_000u32, 40_000, 1_000_000].into_iter().enumerate() {
        let size = |id| match mixed(id) / 8 % 10 {
            0 => 0,
            1 => (mixed(id) / 80 % 200_000) as usize,
            _ => (mixed(id) / 80 % 5_000) as usize,
        };
        let (name, latency) = ("random streams", Duration::from_millis(10));
        let random = Play {
            name,
            streams: [1_000, 1_000],
            size,
            breaks: Breaks::Some,
            drops: 4,
            latency,
            ..PLAIN
        };
        play(Play { seed: seed as u64, ..random }, |config| {
            config.stream_receive_window(window.into());
            config.receive_window((window * 3).into());
            config.send_window(u64::from(window) * 2);
        });
    }
}

#[test]
fn bulk_beside_datagrams() {
    let name = "32 MiB at 100 ms, beside datagrams both ways";
    let play = Play { name, streams: [1, 0], size: |_| 32 << 20, ..PLAIN };
    let (mut pair, mut halves) = begin(&play, |_| {});
    let start = pair.time;
    let mut beats = [Beats::default(), Beats::default()];
    let mut took = None;
    // Those under way still come, so that each wait is counted.
    while took.is_none() || !beats.iter().all(Beats::are_there) {
        let now = pair.time - start;
        for (half, beats) in halves.iter_mut().zip(&mut beats) {
            half.turn(&mut pair, play.breaks);
            if took.is_none() {
                beats.send(half.conn(&mut pair), now);
            }
        }
        if are_done(&play, &halves) {
            took = took.or(Some(now));
        }
        pair.drive_client();
        pair.drive_server();
        beats[0].receive(halves[1].conn(&mut pair), now);
        beats[1].receive(halves[0].conn(&mut pair), now);
        advance(&mut pair, took.is_none().then(|| start + BEAT * beats[0].sent));
    }
    println!("clock {}: {:.3} s", name, took.unwrap().as_secs_f64());
    beats[0].tell("datagrams to the server beside 32 MiB");
    beats[1].tell("datagrams to the client beside 32 MiB");
}

// All differ, and not in the order of opening, which would hide a sender that ignores them.
fn priority_of(id: StreamId) -> i32 {
    (id.index() * 7 % 10) as i32 - 5
}

#[test]
fn priorities() {
    let name = "10 streams of 1 MiB by priority";
    let mut ends = play(Play { name, priority: Some(priority_of), ..PLAIN }, |_| {});
    ends.sort_by_key(|&(id, _)| -priority_of(id));
    assert!(ends.windows(2).all(|two| two[0].1 < two[1].1), "{:?}", ends);
    for (id, end) in ends {
        println!("clock a stream of priority {}: {:.3} s", priority_of(id), end.as_secs_f64());
    }
}

#[test]
fn prioritized_streams() {
    let name = "1,000 streams of 2 KB by priority";
    let play_of =
        Play { name, streams: [1_000, 0], size: |_| 2_000, priority: Some(priority_of), ..PLAIN };
    play(play_of, |config| {
        config
            .max_concurrent_uni_streams(1_000u32.into())
            .max_concurrent_bidi_streams(1_000u32.into());
    });
}

#[test]
fn a_reset_that_is_lost() {
    let (mut pair, halves) = begin(&PLAIN, |_| {});
    let (client, server) = (&halves[0], &halves[1]);
    let id = client.conn(&mut pair).streams().open(Dir::Uni).unwrap();
    client.conn(&mut pair).send_stream(id).write(b"hello").unwrap();
    pair.drive();
    let start = pair.time;
    client.conn(&mut pair).send_stream(id).reset(CODE.into()).unwrap();
    pair.drive_client();
    pair.server.inbound.clear();
    let is_told = |pair: &mut Pair| {
        let mut half = server.conn(pair).recv_stream(id);
        let mut chunks = half.read(true).unwrap();
        let last = std::iter::from_fn(|| chunks.next(usize::MAX).transpose()).find(Result::is_err);
        let _ = chunks.finalize();
        last == Some(Err(ReadError::Reset(CODE.into())))
    };
    while !is_told(&mut pair) {
        advance(&mut pair, None);
        pair.drive_client();
        pair.drive_server();
    }
    println!("clock a reset that is lost: {:.3} s", (pair.time - start).as_secs_f64());
}

// These are counted, too: `scenes` has the bounds.
const SCENE: Play = Play { content: Content::Zeros, ..PLAIN };

#[test]
fn ten_thousand_streams() {
    let name = "10,000 streams of 500 bytes";
    play(Play { name, streams: [10_000, 0], size: |_| 500, ..SCENE }, |config| {
        config.max_concurrent_uni_streams(10_000u32.into());
    });
}

#[test]
fn blocked_writers() {
    let name = "2,000 blocked writers";
    play(Play { name, streams: [2_000, 0], size: |_| 400, ..SCENE }, |config| {
        config.max_concurrent_uni_streams(2_000u32.into());
        config.receive_window(20_000u32.into());
    });
}

#[test]
fn resets_and_stops() {
    let name = "5,000 streams of 400 bytes, each reset or stopped";
    let play_of = Play { name, streams: [5_000, 0], size: |_| 400, breaks: Breaks::All, ..SCENE };
    play(play_of, |config| {
        config.max_concurrent_uni_streams(1_000u32.into());
    });
}

#[test]
fn requests() {
    let name = "20,000 requests of 200 bytes, and as many answers";
    play(Play { name, dir: Dir::Bi, streams: [20_000, 20_000], size: |_| 200, ..SCENE }, |_| {});
}
