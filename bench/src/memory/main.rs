//! The memory of endpoints: `gotsavena-memory MEASURE` prints one measure, `gotsavena-memory` alone lists them with their units. Each byte
//! that is read is compared. `bench/memory` runs them all.

mod heap;
#[path = "../pattern.rs"]
mod pattern;
mod refused;

use gotsavena::{Dir, Endpoint, Frame, Read, Received, Role, Settings, StreamId};
use heap::live;
use pattern::Source;
use std::process::ExitCode;
use std::time::Instant;

#[global_allocator]
static ALLOCATOR: heap::Watched = heap::Watched;

const KIB: u64 = 1 << 10;
const MIB: u64 = 1 << 20;

/// Two endpoints of one process.
struct Two {
    client: Endpoint,
    server: Endpoint,
}

fn end_of(role: Role, settings: Settings) -> Endpoint {
    Endpoint::new(role, settings, settings.limits()).expect("the settings are in range")
}

impl Two {
    fn new(settings: Settings) -> Two {
        Two {
            client: end_of(Role::Client, settings),
            server: end_of(Role::Server, settings),
        }
    }
}

/// Delivers all that one endpoint has pending to the other.
fn hand_on(from: &mut Endpoint, to: &mut Endpoint) {
    let mut payload = [0; 1200];
    while let Ok(Some(made)) = from.make_packet(&mut payload) {
        _ = to
            .receive(made.number, &payload[..made.len])
            .expect("an honest packet");
    }
}

fn stream_of(dir: Dir, index: u64) -> StreamId {
    StreamId::from_parts(Role::Client, dir, index).expect("it is below 2^62")
}

// A field of /proc/self/status, in bytes.
fn told(field: &str) -> f64 {
    let status = std::fs::read_to_string("/proc/self/status").expect("Linux tells it");
    let line = status.lines().find(|line| line.starts_with(field));
    let words = line.expect("the field is there").split_whitespace();
    let kib: f64 = words
        .rev()
        .nth(1)
        .expect("a number")
        .parse()
        .expect("a number");
    kib * 1024.0
}

fn resident() -> f64 {
    told("VmRSS:")
}

// One byte arrives at this offset of each stream. Returns the memory of the process afterwards, in MiB.
fn far_bytes(streams: u64, offset: u64) -> f64 {
    let settings = Settings::small()
        .conn_window(16 * MIB)
        .stream_windows(MIB)
        .streams(4096, 4096);
    let (mut end, source) = (end_of(Role::Server, settings), Source::new(1));
    let mut payload = [0; 64];
    for index in 0..streams {
        let frame = Frame::Stream {
            stream: stream_of(Dir::Uni, index),
            offset,
            fin: false,
            bytes: source.at(offset),
        };
        let len = gotsavena::put(&frame, &mut payload).expect("it fits");
        _ = end
            .receive(index, &payload[..len])
            .expect("within the credit");
    }
    assert_eq!(end.spent(), streams * (offset + 1));
    assert_eq!(end.stored(), streams);
    resident() / MIB as f64
}

// Reads this many bytes, then the FIN.
fn read_to_end(end: &mut Endpoint, stream: StreamId, len: usize) {
    let mut bytes = [0; 2048];
    assert_eq!(end.read(stream, &mut bytes), Ok(Read::Bytes(len)));
    pattern::check(0, &bytes[..len]);
    assert_eq!(end.read(stream, &mut bytes), Ok(Read::End));
}

// Opens a stream, and sends this many bytes and a FIN in each direction.
fn ask(two: &mut Two, there: &Source, back: &Source) {
    let stream = two.client.open(Dir::Bidi).expect("others ended");
    for (source, forwards) in [(there, true), (back, false)] {
        let (from, to) = if forwards {
            (&mut two.client, &mut two.server)
        } else {
            (&mut two.server, &mut two.client)
        };
        assert_eq!(from.write(stream, source.at(0)), Ok(source.each()));
        from.finish(stream).expect("it is open");
        hand_on(from, to);
        assert_eq!(to.accept(), forwards.then_some(stream));
        read_to_end(to, stream, source.each());
    }
    hand_on(&mut two.client, &mut two.server);
    hand_on(&mut two.server, &mut two.client);
}

fn asking(window: u64) -> Two {
    let settings = Settings::small()
        .conn_window(MIB)
        .stream_windows(window)
        .send_buffer(window as usize)
        .streams(100, 1 << 16);
    Two::new(settings)
}

/// Which of the two endpoints: the one that opens streams, or its peer.
enum Side {
    Opener,
    Other,
}

// The heap that is left for each of 65,536 streams, after each was opened, used for 1 KiB in each direction, and ended.
fn ended(side: Side) -> f64 {
    let (streams, source) = (1 << 16, Source::new(1024));
    let empty = live();
    let mut two = asking(4 * KIB);
    let mut before = live() - empty;
    for _ in 0..streams {
        ask(&mut two, &source, &source);
    }
    let all = live() - empty;
    let Two { client, server } = two;
    let (one, _other) = match side {
        Side::Opener => (client, server),
        Side::Other => (server, client),
    };
    // What dropping one endpoint frees is its own: both were equally large before.
    let with = live();
    drop(one);
    before /= 2;
    assert!(all > before);
    ((with - live()) - before) as f64 / streams as f64
}

// The peak memory of a server's process over this many requests of one byte and responses of 1 KiB, in MB. The client is payloads alone.
fn requests() -> f64 {
    let (count, there, back) = (65_500, Source::new(1), Source::new(1024));
    let settings = Settings::small()
        .conn_window(MIB)
        .stream_windows(MIB)
        .send_buffer(MIB as usize)
        .streams(100, 1 << 16);
    let mut server = end_of(Role::Server, settings);
    let (mut payload, mut answer, mut made_next) = ([0; 64], [0; 1200], 0);
    for number in 0..count {
        let stream = stream_of(Dir::Bidi, number);
        let len = request(stream, &there, made_next, &mut payload);
        assert_eq!(server.receive(number, &payload[..len]), Ok(Received::Done));
        assert_eq!(server.accept(), Some(stream));
        read_to_end(&mut server, stream, 1);
        assert_eq!(server.write(stream, back.at(0)), Ok(back.each()));
        server.finish(stream).expect("it is open");
        while let Ok(Some(made)) = server.make_packet(&mut answer) {
            made_next = made.number + 1;
        }
    }
    told("VmHWM:") / 1e6
}

// A payload that acknowledges all packets of the server, raises its limits, and has a request on this stream.
fn request(stream: StreamId, source: &Source, made_next: u64, payload: &mut [u8]) -> usize {
    let mut len = 0;
    if made_next > 0 {
        (_, len) = gotsavena::put_ack(&[(0, made_next - 1)], 0, payload).expect("it fits");
    }
    let asked = Frame::Stream {
        stream,
        offset: 0,
        fin: true,
        bytes: source.at(0),
    };
    for frame in [Frame::MaxData { maximum: 1 << 40 }, asked] {
        len += gotsavena::put(&frame, &mut payload[len..]).expect("it fits");
    }
    len
}

// How long it takes to receive the first byte of a stream with this window, in nanoseconds: the least of ten rounds of 400 streams.
fn first_byte(window: u64) -> f64 {
    let settings = Settings::small()
        .conn_window(16 * MIB)
        .stream_windows(window)
        .streams(4096, 4096);
    let (mut end, source) = (end_of(Role::Server, settings), Source::new(1));
    let mut least = f64::INFINITY;
    // Nothing is read.
    pattern::check_no_more();
    for round in 0..10 {
        let payloads: Vec<_> = (0..400)
            .map(|i| {
                let frame = Frame::Stream {
                    stream: stream_of(Dir::Uni, round * 400 + i),
                    offset: 0,
                    fin: false,
                    bytes: source.at(0),
                };
                let mut payload = [0; 16];
                let len = gotsavena::put(&frame, &mut payload).expect("it fits");
                (round * 400 + i, payload, len)
            })
            .collect();
        let began = Instant::now();
        for (number, payload, len) in &payloads {
            _ = end
                .receive(*number, &payload[..*len])
                .expect("within the credit");
        }
        least = least.min(began.elapsed().as_nanos() as f64 / 400.0);
    }
    assert_eq!(end.stored(), 4_000);
    least
}

// The heap for each of 10,000 open streams without a byte: 8,192 of its own and 1,808 of the peer's.
fn idle() -> f64 {
    let settings = Settings::small()
        .conn_window(16 * MIB)
        .stream_windows(MIB)
        .streams(4096, 4096);
    let mut end = end_of(Role::Server, settings);
    let before = live();
    for dir in [Dir::Uni, Dir::Bidi] {
        for _ in 0..4096 {
            end.open(dir).expect("the peer grants as many");
        }
    }
    // A frame of the last stream opens all lower ones too (RFC 9000, section 3.2).
    let frame = Frame::StreamDataBlocked {
        stream: stream_of(Dir::Bidi, 1807),
        limit: 0,
    };
    let mut payload = [0; 16];
    let len = gotsavena::put(&frame, &mut payload).expect("it fits");
    _ = end.receive(0, &payload[..len]).expect("an honest packet");
    assert_eq!(std::iter::from_fn(|| end.accept()).count(), 1808);
    (live() - before) as f64 / 10_000.0
}

struct Measure {
    name: &'static str,
    unit: &'static str,
    run: fn() -> f64,
}

fn measures() -> Vec<Measure> {
    let measure = |name, unit, run| Measure { name, unit, run };
    vec![
        measure("far-bytes-of-4096", "MiB", || far_bytes(4096, 4095)),
        measure("far-bytes-of-16", "MiB", || far_bytes(16, MIB - 1)),
        measure("ended-at-opener", "B", || ended(Side::Opener)),
        measure("ended-at-other", "B", || ended(Side::Other)),
        measure("requests-65500", "MB", requests),
        measure("first-byte-of-1m", "ns", || first_byte(MIB)),
        measure("first-byte-of-64k", "ns", || first_byte(64 * KIB)),
        measure("idle-10000", "B", idle),
        measure("refused", "runs", refused::runs),
    ]
}

fn main() -> ExitCode {
    let Some(name) = std::env::args().nth(1) else {
        for measure in measures() {
            println!("{} {}", measure.name, measure.unit);
        }
        return ExitCode::SUCCESS;
    };
    match measures().iter().find(|measure| measure.name == name) {
        Some(measure) => {
            println!("{:.1}", (measure.run)());
            ExitCode::SUCCESS
        }
        None => {
            eprintln!("gotsavena-memory: there is no measure {name}");
            ExitCode::from(2)
        }
    }
}
