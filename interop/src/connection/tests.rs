//! Two connections, with the network and the clock of the test between them.

use super::{ClientSetup, Config, Connection, Path};
use crate::certificate::Identity;
use crate::fault::{Close, Fault, Outcome, PROTOCOL_VIOLATION};
use crate::packet::{VERSION_1, read_packet};
use crate::tls::{client_config, server_config};
use crate::windows::Windows;
use gotsavena::{Dir, Frame, Read, Role, Settings, StreamId, Tuning, put};
use std::collections::VecDeque;
use std::net::SocketAddr;
use std::time::{Duration, Instant};

const PROTOCOL: &[&[u8]] = &[b"test"];
const ONE_WAY: Duration = Duration::from_millis(5);

/// A client, a server once an Initial came, and datagrams on their ways with the times at which they come.
struct World {
    now: Instant,
    ends: [Option<Connection>; 2],
    ways: [VecDeque<(Instant, Vec<u8>)>; 2],
    config: Config,
    lost: u64,
    random: u64,
    one_way: Duration,
    from: Path,
}

fn path(port: u16) -> Path {
    let peer = SocketAddr::from(([192, 0, 2, 1], port));
    Path { peer, own: None }
}

impl World {
    fn new(lost: u64, idle: Duration) -> World {
        let settings = Settings::small()
            .conn_window(1 << 20)
            .stream_windows(1 << 18)
            .send_buffer(1 << 18);
        let config = Config {
            settings,
            tuning: Tuning::default(),
            most_window: 0,
            connections: 1,
            idle,
        };
        World::of(config, lost)
    }

    // Settings that stay, and no loss.
    fn with(settings: Settings) -> World {
        let config = Config {
            settings,
            tuning: Tuning::default(),
            most_window: 0,
            connections: 1,
            idle: Duration::from_secs(30),
        };
        World::of(config, 0)
    }

    fn of(config: Config, lost: u64) -> World {
        let now = Instant::now();
        let setup = ClientSetup {
            tls: client_config(PROTOCOL),
            name: "localhost".to_owned(),
            version: VERSION_1,
        };
        let client = Connection::client(setup, config, now).unwrap();
        World {
            now,
            ends: [Some(client), None],
            ways: Default::default(),
            config,
            lost,
            random: 0x2545_f491_4f6c_dd1d ^ lost,
            one_way: ONE_WAY,
            from: path(1),
        }
    }

    fn end(&mut self, place: usize) -> &mut Connection {
        self.ends[place].as_mut().unwrap()
    }

    fn send(&mut self) {
        let mut out = Vec::new();
        for place in 0..2 {
            while let Some(end) = &mut self.ends[place] {
                let Some(to) = end.send(&mut out, self.now) else {
                    break;
                };
                // The client is at one address alone.
                if place == 1 && to != self.from {
                    continue;
                }
                // xorshift64*, whose upper half is the better one: a run is the same each time.
                self.random ^= self.random >> 12;
                self.random ^= self.random << 25;
                self.random ^= self.random >> 27;
                let word = self.random.wrapping_mul(0x2545_f491_4f6c_dd1d) >> 32;
                if word % 100 >= self.lost {
                    self.ways[place].push_back((self.now + self.one_way, out.clone()));
                }
            }
        }
    }

    // The clock goes on to what comes next: a datagram or a timer. Answers whether there is anything.
    fn step(&mut self) -> bool {
        self.send();
        let now = self.now;
        let come = self
            .ways
            .iter()
            .filter_map(|way| way.front().map(|(at, _)| *at));
        let timers = self.ends.iter().flatten().filter_map(|end| end.timer(now));
        let Some(next) = come.chain(timers).min() else {
            return false;
        };
        self.now = next.max(now);
        for place in 0..2 {
            while self.ways[place]
                .front()
                .is_some_and(|(at, _)| *at <= self.now)
            {
                let (_, mut datagram) = self.ways[place].pop_front().unwrap();
                self.deliver(1 - place, &mut datagram);
            }
        }
        for end in self.ends.iter_mut().flatten() {
            if end.timer(self.now).is_some_and(|at| at <= self.now) {
                end.time_is_up(self.now);
            }
        }
        true
    }

    fn deliver(&mut self, place: usize, datagram: &mut [u8]) {
        if self.ends[place].is_none() {
            let packet = read_packet(datagram).unwrap();
            let tls = server_config(Identity::new().unwrap(), PROTOCOL).unwrap();
            let (destination, source) = (packet.destination, packet.source);
            let server = Connection::server(tls, self.config, destination, source, self.now);
            self.ends[place] = Some(server.unwrap());
        }
        let now = self.now;
        let from = self.from;
        self.end(place).receive(datagram, from, now);
    }

    fn until(&mut self, what: impl Fn(&mut World) -> bool) {
        for _ in 0..100_000 {
            if what(self) {
                return;
            }
            assert!(
                self.step(),
                "nothing more comes: {:?}",
                self.ends[0].as_ref().map(|end| end.outcome())
            );
        }
        panic!("it doesn't end");
    }

    fn connect(&mut self) {
        self.until(|world| {
            world
                .ends
                .iter_mut()
                .all(|end| end.as_mut().is_some_and(|end| end.end().is_some()))
        });
    }
}

// Both ends write so many bytes on a stream and read those of the other one.
fn exchange(world: &mut World, count: usize) {
    let stream = world.end(0).end().unwrap().open(Dir::Bidi).unwrap();
    let mut left = [count; 2];
    let mut read = [0; 2];
    for _ in 0..200_000 {
        for place in 0..2 {
            let Some(end) = world.end(place).end() else {
                panic!("{:?}", world.end(place).outcome());
            };
            turn(end, stream, &mut left[place], &mut read[place]);
        }
        if read == [count; 2] {
            return;
        }
        assert!(world.step());
    }
    panic!("{left:?} left, {read:?} read");
}

fn turn(end: &mut gotsavena::Endpoint, stream: StreamId, left: &mut usize, read: &mut usize) {
    end.accept();
    // A server's half is there once the client's first bytes came.
    if end.report(stream).is_none() {
        return;
    }
    let mut buffer = [0; 4096];
    while *left > 0 {
        match end
            .write(stream, &buffer[..buffer.len().min(*left)])
            .unwrap()
        {
            0 => break,
            count => *left -= count,
        }
        if *left == 0 {
            end.finish(stream).unwrap();
        }
    }
    while let Read::Bytes(count) = end.read(stream, &mut buffer).unwrap() {
        *read += count;
    }
}

#[test]
fn bytes_go_both_ways() {
    let mut world = World::new(0, Duration::from_secs(30));
    world.connect();
    exchange(&mut world, 2_000_000);
}

#[test]
fn bytes_go_both_ways_where_datagrams_are_lost() {
    for lost in [1, 5, 10, 20, 30] {
        let mut world = World::new(lost, Duration::from_secs(30));
        world.connect();
        exchange(&mut world, 200_000);
    }
}

#[test]
fn a_close_is_told() {
    let mut world = World::new(0, Duration::from_secs(30));
    world.connect();
    let now = world.now;
    world.end(0).close(Close::new(7, "enough"), now);
    world.until(|world| world.ends.iter().flatten().all(|end| end.is_gone()));
    assert!(matches!(world.end(0).outcome(), Some(Outcome::Closed(close)) if close.code == 7));
    let told = Outcome::PeerClosed {
        by_application: true,
        code: 7,
        reason: "enough".to_owned(),
    };
    assert_eq!(world.end(1).outcome(), Some(&told));
}

#[test]
fn silence_ends_a_connection() {
    let mut world = World::new(0, Duration::from_secs(2));
    world.connect();
    let begin = world.now;
    world.until(|world| world.ends.iter().flatten().all(|end| end.is_gone()));
    assert_eq!(world.end(0).outcome(), Some(&Outcome::Idle));
    assert!(world.now - begin < Duration::from_secs(3));
}

#[test]
fn a_server_sends_little_to_an_address_that_is_not_validated() {
    let mut world = World::new(0, Duration::from_secs(5));
    let mut out = Vec::new();
    let now = world.now;
    assert!(world.end(0).send(&mut out, now).is_some());
    let came = out.len();
    world.deliver(1, &mut out);
    let mut sent = 0;
    // The client is gone: the server probes until it is silent.
    world.ends[0] = None;
    for _ in 0..100 {
        let now = world.now;
        while world.end(1).send(&mut out, now).is_some() {
            sent += out.len();
        }
        let Some(at) = world.end(1).timer(now) else {
            break;
        };
        world.now = at.max(now);
        let now = world.now;
        world.end(1).time_is_up(now);
    }
    assert!(sent > came && sent <= 3 * came, "{sent} bytes for {came}");
    assert!(world.end(1).is_gone());
}

#[test]
fn little_goes_to_an_address_to_which_a_client_moved_until_it_answers() {
    let mut world = World::new(0, Duration::from_secs(5));
    world.connect();
    exchange(&mut world, 10_000);
    let (now, mut out, mut sent) = (world.now, Vec::new(), 0);
    let server = world.end(1);
    let stream = server.end().unwrap().open(Dir::Uni).unwrap();
    server.end().unwrap().write(stream, &[7; 10_000]).unwrap();
    server.follow(path(2), 50, now).unwrap();
    let mut datagrams = Vec::new();
    while let Some(to) = server.send(&mut out, now) {
        if to == path(2) {
            sent += out.len();
            datagrams.push(out.clone());
        }
    }
    // Three times what came (RFC 9000, section 8), beside what asks at the old address.
    assert!((1..=150).contains(&sent), "{sent}");
    world.from = path(2);
    datagrams
        .iter_mut()
        .for_each(|datagram| world.deliver(0, datagram));
    exchange(&mut world, 100_000);
}

#[test]
fn a_question_whose_answer_is_lost_is_asked_again() {
    let mut world = World::new(0, Duration::from_secs(5));
    world.connect();
    exchange(&mut world, 10_000);
    let (begin, mut out) = (world.now, Vec::new());
    world.from = path(2);
    world.end(1).follow(path(2), 50, begin).unwrap();
    while world.end(1).send(&mut out, begin).is_some() {}
    exchange(&mut world, 100_000);
    let server = world.end(1);
    assert!(server.known.is_validated && server.path() == path(2));
    assert!(world.now - begin < Duration::from_millis(500));
}

#[test]
fn a_server_goes_back_where_no_answer_comes() {
    let mut world = World::new(0, Duration::from_secs(5));
    world.connect();
    exchange(&mut world, 10_000);
    let begin = world.now;
    world.end(1).follow(path(2), 50, begin).unwrap();
    // The client says nothing, and is nowhere.
    world.ways = Default::default();
    let client = world.ends[0].take();
    world.from = path(9);
    world.until(|world| world.end(1).path() == path(1));
    world.ends[0] = client;
    // Three times the first probe timeout (RFC 9000, section 8.2.4; RFC 9002, section 6.2.2): 333 ms and four times the half of it.
    assert_eq!((world.now - begin).as_millis(), 3 * (333 + 4 * 333 / 2));
    world.from = path(1);
    exchange(&mut world, 100_000);
}

#[test]
fn an_answer_goes_where_its_question_came_from() {
    let mut world = World::new(0, Duration::from_secs(5));
    world.connect();
    exchange(&mut world, 10_000);
    let (now, mut out) = (world.now, Vec::new());
    let server = world.end(1);
    while server.send(&mut out, now).is_some() {}
    // (RFC 9000, section 8.2.2: in 1,200 bytes, where these are at most three times as many as came)
    for (came, wanted) in [(400, 1200..=1200), (399, 1..=100)] {
        server.comes(path(3), came);
        server.take_challenge(&[7; 8]);
        assert_eq!(server.send(&mut out, now), Some(path(3)));
        assert!(wanted.contains(&out.len()), "{}", out.len());
    }
    assert_eq!((server.path(), server.send(&mut out, now)), (path(1), None));
}

#[test]
fn an_identifier_that_is_retired_again_and_again_is_replaced_once() {
    let mut world = World::new(0, Duration::from_secs(5));
    world.connect();
    exchange(&mut world, 10_000);
    let now = world.now;
    let server = world.end(1);
    server.take_new_ids();
    let mut payload = [0; 16];
    let len = put(&Frame::RetireConnectionId { sequence: 0 }, &mut payload).unwrap();
    for _ in 0..3 {
        let next = server.expected;
        assert_eq!(server.take_data(next, &payload[..len], now), Ok(()));
    }
    assert_eq!(server.take_new_ids().len(), 1);
}

// One end writes so many bytes, which the other one reads. Answers how long that takes.
fn sends(world: &mut World, count: usize) -> Duration {
    let begin = world.now;
    let stream = world.end(0).end().unwrap().open(Dir::Bidi).unwrap();
    let (mut left, mut read) = ([count, 0], [0; 2]);
    while read[1] < count {
        for place in 0..2 {
            let end = world.end(place).end().unwrap();
            turn(end, stream, &mut left[place], &mut read[place]);
        }
        assert!(world.step());
    }
    world.now - begin
}

// How long a mebibyte takes on its way, with 5 of 100 datagrams lost and a round trip of 50 ms, in the middle of some runs.
#[test]
fn a_mebibyte_comes_soon_where_5_of_100_datagrams_are_lost() {
    let mut times = Vec::new();
    for seed in 0..9 {
        let mut world = World::new(5, Duration::from_secs(30));
        world.one_way = Duration::from_millis(25);
        world.random ^= seed << 20;
        world.connect();
        times.push(sends(&mut world, 1 << 20));
    }
    times.sort();
    // A sender as Reno that is never idle has sqrt(3 / 2p) packets in flight on average (RFC 9438, section 4.3 follows it): at 1,150
    // bytes in 50 ms that are 8.3 s. A tenth more is for probes and the end.
    let packets = (3.0_f64 / (2.0 * 0.05)).sqrt();
    let ideal = f64::from(1 << 20) / (packets * 1150.0 / 0.05);
    assert!(times[4].as_secs_f64() < 1.1 * ideal, "{times:?}");
}

// A packet with bytes of a stream comes, behind all that came before.
fn comes(
    end: &mut Connection,
    stream: StreamId,
    offset: u64,
    bytes: &[u8],
    now: Instant,
) -> Result<(), Fault> {
    let frame = Frame::Stream {
        stream,
        offset,
        fin: false,
        bytes,
    };
    let mut payload = [0; 1_300];
    let len = put(&frame, &mut payload).unwrap();
    end.take_data(end.expected, &payload[..len], now)
}

fn small() -> Settings {
    Settings::small()
        .conn_window(1 << 20)
        .stream_windows(1 << 18)
}

// How many packets come in one after the other until one closes, of one byte each on a stream that the server stopped, at every so many
// offsets.
fn send_on(settings: Settings, step: u64, count: u64) -> Option<u64> {
    let mut world = World::with(settings);
    world.connect();
    let stream = world.end(0).end().unwrap().open(Dir::Bidi).unwrap();
    world.end(0).end().unwrap().write(stream, b"begun").unwrap();
    world.until(|world| world.end(1).end().unwrap().accept() == Some(stream));
    let (now, mut out) = (world.now, Vec::new());
    let server = world.end(1);
    server.end().unwrap().stop(stream, 7).unwrap();
    while server.send(&mut out, now).is_some() {}
    (0..count).find(|place| {
        let taken = comes(server, stream, 5 + step * place, b"x", now);
        taken.is_err_and(|fault| {
            assert_eq!(fault.code, PROTOCOL_VIOLATION);
            true
        })
    })
}

#[test]
fn gaps_on_a_stream_that_was_stopped_close_in_the_end() {
    // Two for each of the 16 halves that may receive, and a thousandth of the window of 1 MiB.
    let enough = 16_384 + 2 * 16 + 1_048;
    assert_eq!(send_on(small(), 1, 4 * enough), None);
    // The bytes before make the first run one with the first packet's; and the packet behind the first too many is refused.
    assert_eq!(send_on(small(), 2, 4 * enough), Some(enough + 1));
    // Of a wide window 2^18 counts at most.
    let enough = 16_384 + 2 * 16 + (1 << 18);
    let wide = small().conn_window(1 << 40);
    assert_eq!(send_on(wide, 2, 4 * enough), Some(enough + 1));
}

const MANY: u64 = 20_000;

fn many_streams() -> Settings {
    small().uni_streams(MANY, MANY).bidi_streams(0, 0)
}

#[test]
fn streams_that_are_open_do_not_close() {
    let mut world = World::with(many_streams());
    world.connect();
    let client = world.end(0).end().unwrap();
    for _ in 0..MANY {
        let stream = client.open(Dir::Uni).unwrap();
        assert_eq!(client.write(stream, b"x"), Ok(1));
    }
    let (mut count, mut bytes) = (0, [0; 2]);
    while count < MANY {
        assert!(world.step());
        let server = world.end(1).end().expect("it stays open");
        while let Some(stream) = server.accept() {
            assert_eq!(server.read(stream, &mut bytes), Ok(Read::Bytes(1)));
            count += 1;
        }
    }
    assert_eq!(world.end(1).end().unwrap().noted(), MANY);
}

#[test]
fn gaps_of_many_open_streams_do_not_close() {
    let mut world = World::with(many_streams());
    world.connect();
    let now = world.now;
    for offset in [0, 2] {
        for index in 0..MANY {
            let stream = StreamId::from_parts(Role::Client, Dir::Uni, index).unwrap();
            assert_eq!(comes(world.end(1), stream, offset, b"x", now), Ok(()));
        }
    }
    assert_eq!(world.end(1).end().unwrap().noted(), 2 * MANY);
}

#[test]
fn answers_that_are_not_read_do_not_close() {
    let mut world = World::with(small().uni_streams(0, 0).bidi_streams(MANY, MANY));
    // The client grants no streams: those that it opened alone have to make room for the runs of their answers.
    world.end(0).windows = Windows::new(Role::Client, small().streams(0, 0).limits(), 0, world.now);
    world.connect();
    let client = world.end(0).end().unwrap();
    for _ in 0..MANY {
        let stream = client.open(Dir::Bidi).unwrap();
        assert_eq!(client.write(stream, b"x"), Ok(1));
        client.finish(stream).unwrap();
    }
    let (mut count, mut bytes) = (0, [0; 2]);
    while count < MANY || world.end(0).end().expect("it stays open").noted() < MANY {
        assert!(world.step());
        let server = world.end(1).end().expect("it stays open");
        while let Some(stream) = server.accept() {
            assert_eq!(server.read(stream, &mut bytes), Ok(Read::Bytes(1)));
            assert_eq!(server.write(stream, b"y"), Ok(1));
            server.finish(stream).unwrap();
            count += 1;
        }
    }
    // The next packet would close.
    let (now, first) = (world.now, StreamId::new(0).unwrap());
    assert_eq!(comes(world.end(0), first, 0, b"y", now), Ok(()));
}

#[test]
fn every_second_packet_of_a_wide_window_does_not_close() {
    const WINDOW: u64 = 1 << 26;
    let bytes = [7; 1_200];
    let mut world = World::with(small().conn_window(WINDOW).stream_windows(WINDOW));
    world.connect();
    let (now, server) = (world.now, world.end(1));
    let stream = StreamId::new(0).unwrap();
    let packets = WINDOW / bytes.len() as u64;
    for packet in (0..packets).step_by(2) {
        let offset = packet * bytes.len() as u64;
        assert_eq!(comes(server, stream, offset, &bytes, now), Ok(()));
    }
    assert_eq!(server.end().unwrap().noted(), packets.div_ceil(2));
}

// How long 8 MB take over a round trip of 100 ms, where windows of 64 KiB grow so far.
fn sends_over_a_long_way(most_window: u64) -> Duration {
    let settings = Settings::small()
        .conn_window(1 << 17)
        .stream_windows(1 << 16)
        .send_buffer(1 << 23);
    let idle = Duration::from_secs(30);
    let config = Config {
        settings,
        tuning: Tuning::default(),
        most_window,
        connections: 1,
        idle,
    };
    let mut world = World::of(config, 0);
    world.one_way = Duration::from_millis(50);
    world.connect();
    sends(&mut world, 8_000_000)
}

#[test]
fn a_window_that_grows_uses_up_a_long_way() {
    let (stays, grows) = (sends_over_a_long_way(0), sends_over_a_long_way(1 << 23));
    // A window of 64 KiB goes in a round trip, and no more; seven doublings take some two each.
    assert!(stays > Duration::from_secs(12), "{stays:?}");
    assert!(grows < Duration::from_secs(3), "{grows:?}");
}
