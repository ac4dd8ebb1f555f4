//! Sends a file, or bytes that are made up, from one thread to another over UDP on the loopback: many streams by turns,
//! over a network that drops, repeats and reorders a share of the datagrams. Every byte that comes is compared.
//!
//!     cargo run --release --example transfer -- --mib 256 --drop 20
//!     cargo run --release --example transfer -- --file /usr/bin/env --streams 3
//!
//! `--drop`, `--repeat` and `--reorder` are in datagrams of a thousand, on each way. `--room` is the payload's room in
//! bytes, `--window` how many packets are in flight at most.

mod link;

use gotsavena::{Dir, Endpoint, Read, Role, SendState, Settings, StreamId};
use link::{Counts, Fallible, Link, Weather};
use std::collections::BTreeMap;
use std::io::{IsTerminal, Write};
use std::net::UdpSocket;
use std::sync::Arc;
use std::sync::atomic::{AtomicBool, Ordering};
use std::thread;
use std::time::{Duration, Instant};

struct Options {
    bytes: Arc<Vec<u8>>,
    streams: usize,
    window: usize,
    room: usize,
    weather: Weather,
}

/// What the receiver found.
struct Found {
    counts: Counts,
    right: u64,
    most_stored: u64,
}

fn main() -> Fallible<()> {
    let options = options()?;
    let (a, b) = sockets()?;
    let settings = Settings::default()
        .conn_window(1 << 24)
        .stream_windows(1 << 20)
        .send_buffer(1 << 18)
        .streams(4096, 4096);
    let client = Endpoint::new(Role::Client, settings, settings.limits())?;
    let server = Endpoint::new(Role::Server, settings, settings.limits())?;
    let weather_back = Weather {
        seed: options.weather.seed + 1,
        ..options.weather
    };
    let receiver = Link::new(server, b, weather_back, options.window, options.room)?;
    let sender = Link::new(client, a, options.weather, options.window, options.room)?;
    let done = Arc::new(AtomicBool::new(false));

    let begin = Instant::now();
    let (bytes, streams, told) = (options.bytes.clone(), options.streams, done.clone());
    let reading = thread::spawn(move || receive(receiver, &bytes, streams, &told));
    let sent = send(sender, &options.bytes, streams);
    let time = begin.elapsed();
    done.store(true, Ordering::Release);
    let found = reading.join().map_err(|_| "the receiver stopped")??;
    report(&sent?, &found, options.bytes.len() as u64, time)
}

fn report(sent: &Counts, found: &Found, bytes: u64, time: Duration) -> Fallible<()> {
    let (mib, seconds) = (bytes as f64 / f64::from(1 << 20), time.as_secs_f64());
    println!(
        "{mib:.1} MiB in {seconds:.2} s: goodput {:.1} MiB/s",
        mib / seconds
    );
    for (name, counts) in [("sender", sent), ("receiver", &found.counts)] {
        println!(
            "{name}: {} packets, {} dropped, {} repeated, {} reordered, {} declared lost",
            counts.sent, counts.dropped, counts.repeated, counts.reordered, counts.declared_lost
        );
    }
    println!("held: at most {} bytes stored", found.most_stored);
    if let Some(kib) = peak_memory() {
        println!("memory: {kib} KiB at most, the bytes to send among them");
    }
    if found.right != bytes {
        return Err(format!("{} of {bytes} bytes are right", found.right).into());
    }
    println!("every byte right: {bytes}");
    Ok(())
}

// Writes to each stream by turns, as much as its buffer takes, until the peer has all.
fn send(mut link: Link, bytes: &[u8], count: usize) -> Fallible<Counts> {
    let mut streams = Vec::new();
    for part in parts(bytes, count) {
        streams.push((link.end.open(Dir::Uni)?, part));
    }
    let mut progress = Progress::new(bytes.len());
    let mut open = streams.len();
    while open > 0 {
        let mut wrote = false;
        for (stream, rest) in &mut streams {
            wrote |= write_some(&mut link.end, *stream, rest)?;
        }
        link.send()?;
        let came = link.receive(!wrote)?;
        if came {
            open = streams
                .iter()
                .filter(|(stream, _)| !is_done(&link.end, *stream))
                .count();
        }
        let left: usize = streams.iter().map(|(_, rest)| rest.len()).sum();
        progress.show(bytes.len() - left);
    }
    progress.end();
    Ok(link.counts)
}

fn write_some(end: &mut Endpoint, stream: StreamId, rest: &mut &[u8]) -> Fallible<bool> {
    if rest.is_empty() {
        return Ok(false);
    }
    let count = end.write(stream, &rest[..rest.len().min(1 << 16)])?;
    *rest = &rest[count..];
    if rest.is_empty() {
        end.finish(stream)?;
    }
    Ok(count > 0)
}

fn is_done(end: &Endpoint, stream: StreamId) -> bool {
    let sender = end.report(stream).and_then(|report| report.send);
    sender.is_some_and(|half| half.state == SendState::DataRecvd)
}

// Reads what comes, and compares it with what is to come.
fn receive(mut link: Link, bytes: &[u8], count: usize, done: &AtomicBool) -> Fallible<Found> {
    let wanted: Vec<&[u8]> = parts(bytes, count).collect();
    let mut streams = BTreeMap::new();
    let mut found = Found {
        counts: Counts::default(),
        right: 0,
        most_stored: 0,
    };
    while !done.load(Ordering::Acquire) {
        link.receive(true)?;
        found.most_stored = found.most_stored.max(link.end.stored());
        while let Some(stream) = link.end.accept() {
            streams.insert(stream, wanted[stream.index() as usize]);
        }
        for (stream, rest) in &mut streams {
            found.right += read_some(&mut link.end, *stream, rest)?;
        }
        link.send()?;
    }
    if let Some((stream, rest)) = streams.iter().find(|(_, rest)| !rest.is_empty()) {
        return Err(format!("stream {stream} lacks {} bytes", rest.len()).into());
    }
    found.counts = link.counts;
    Ok(found)
}

fn read_some(end: &mut Endpoint, stream: StreamId, rest: &mut &[u8]) -> Fallible<u64> {
    let mut into = [0; 1 << 16];
    let mut right = 0;
    while let Read::Bytes(count) = end.read(stream, &mut into)? {
        let Some((expected, after)) = rest.split_at_checked(count) else {
            return Err(format!("stream {stream} has too many bytes").into());
        };
        *rest = after;
        if expected != &into[..count] {
            return Err(format!("stream {stream} has a wrong byte").into());
        }
        right += count as u64;
    }
    Ok(right)
}

// The bytes in so many parts of much the same length.
fn parts(bytes: &[u8], count: usize) -> impl Iterator<Item = &[u8]> {
    let place = move |part: usize| bytes.len() * part / count;
    (0..count).map(move |part| &bytes[place(part)..place(part + 1)])
}

fn sockets() -> std::io::Result<(UdpSocket, UdpSocket)> {
    let a = UdpSocket::bind("127.0.0.1:0")?;
    let b = UdpSocket::bind("127.0.0.1:0")?;
    a.connect(b.local_addr()?)?;
    b.connect(a.local_addr()?)?;
    Ok((a, b))
}

/// The line that tells how far it is, where someone looks on.
struct Progress {
    all: usize,
    shown: Instant,
    is_seen: bool,
}

impl Progress {
    fn new(all: usize) -> Progress {
        let is_seen = std::io::stderr().is_terminal();
        let shown = Instant::now();
        Progress {
            all,
            shown,
            is_seen,
        }
    }

    fn show(&mut self, written: usize) {
        if self.is_seen && self.shown.elapsed() > Duration::from_millis(200) {
            self.shown = Instant::now();
            eprint!("\r{:3} %", 100 * written / self.all.max(1));
            _ = std::io::stderr().flush();
        }
    }

    fn end(&self) {
        if self.is_seen {
            eprintln!("\r100 %");
        }
    }
}

// The most memory that the process had, where the system tells it.
fn peak_memory() -> Option<u64> {
    let status = std::fs::read_to_string("/proc/self/status").ok()?;
    let line = status.lines().find(|line| line.starts_with("VmHWM"))?;
    line.split_whitespace().nth(1)?.parse().ok()
}

fn options() -> Fallible<Options> {
    let mut named = BTreeMap::new();
    let mut words = std::env::args().skip(1);
    while let Some(word) = words.next() {
        let value = words.next().ok_or("each option has a value")?;
        named.insert(word, value);
    }
    let file = named.remove("--file");
    let mut number = |name: &str, usual: u64| match named.remove(name) {
        Some(value) => value.parse().map_err(|_| format!("{name} {value}")),
        None => Ok(usual),
    };
    let mib: usize = number("--mib", 16)? as usize;
    let weather = Weather {
        dropped: number("--drop", 20)?,
        repeated: number("--repeat", 10)?,
        reordered: number("--reorder", 10)?,
        seed: number("--seed", 1)?,
    };
    let (streams, window) = (number("--streams", 8)?, number("--window", 64)?);
    let room = number("--room", 1200)?.clamp(128, 16_383) as usize;
    if let Some((name, _)) = named.first_key_value() {
        return Err(format!("there is no option {name}").into());
    }
    let bytes = match file {
        Some(path) => std::fs::read(path)?,
        None => made_up(mib << 20),
    };
    Ok(Options {
        bytes: Arc::new(bytes),
        streams: streams.clamp(1, 4096) as usize,
        window: window.max(1) as usize,
        room,
        weather,
    })
}

// Bytes that don't repeat.
fn made_up(count: usize) -> Vec<u8> {
    let word = |place: u64| (place.wrapping_add(1)).wrapping_mul(0x9e37_79b9_7f4a_7c15);
    (0..count as u64)
        .map(|place| (word(place) >> 56) as u8)
        .collect()
}
