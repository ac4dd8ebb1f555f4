//! The cost of a packet with more streams, more packets in flight, and more streams that are over.

use crate::clock::time;
use crate::ends::{Load, PLAIN, Pair};
use crate::whole::transfer;
use crate::{Row, Run};
use gotsavena::Endpoint;
use std::hint::black_box;
use std::sync::Barrier;
use std::time::{Duration, Instant};

fn open(streams: u64) -> Run {
    transfer(Load {
        open: streams,
        total: 32 << 20,
        ..PLAIN
    })
}

// Windows of 16 KiB, so that the memory of many streams isn't what is timed.
fn active(streams: u64) -> Run {
    transfer(Load {
        active: streams,
        open: streams,
        window: 16 << 10,
        write: 1200,
        total: 32 << 20,
        ..PLAIN
    })
}

// The same without the application's calls: only packets made, received and acknowledged are timed.
fn carried(streams: u64) -> Run {
    let load = Load {
        active: streams,
        open: streams,
        window: 16 << 10,
        write: 1200,
        total: 32 << 20,
        ..PLAIN
    };
    let mut pair = Pair::new(load);
    let (mut read, mut spent) = (0, Duration::ZERO);
    while read < load.total {
        pair.write();
        spent += time_briefly(|| pair.carry());
        read += pair.read();
        spent += time_briefly(|| pair.answer());
    }
    Run {
        time: spent,
        units: pair.made,
    }
}

// By the clock on the wall: reading that one is no system call, after which the processor is slower for a while.
fn time_briefly(work: impl FnOnce()) -> Duration {
    let before = Instant::now();
    work();
    before.elapsed()
}

// Only the two copies that `carried` makes: out of each send buffer and into each receive buffer in turn.
fn copied(streams: usize) -> Run {
    const EACH: usize = 1200;
    const BURST: usize = 10;
    let mut buffers = vec![vec![1u8; 16 << 10]; streams];
    let mut rings = vec![vec![0; 2 << 10]; streams];
    let mut payloads = vec![vec![0; EACH]; BURST];
    let written = vec![2; EACH];
    let mut out = vec![0; EACH];
    let place = |copies: usize, size: usize| copies * EACH % (size - EACH);
    let (mut made, mut spent) = (0, Duration::ZERO);
    while made * EACH < 32 << 20 {
        let burst = (made..made + BURST).map(|number| (number % streams, number / streams));
        spent += time_briefly(|| {
            for ((stream, copies), payload) in burst.clone().zip(&mut payloads) {
                let from = place(copies, 16 << 10);
                payload.copy_from_slice(&buffers[stream][from..from + EACH]);
            }
            for ((stream, copies), payload) in burst.clone().zip(&payloads) {
                let to = place(copies, 2 << 10);
                rings[stream][to..to + EACH].copy_from_slice(payload);
            }
        });
        // The application reads what was sent, and writes as much again.
        for (stream, copies) in burst {
            let (from, to) = (place(copies, 2 << 10), place(copies, 16 << 10));
            out.copy_from_slice(&rings[stream][from..from + EACH]);
            buffers[stream][to..to + EACH].copy_from_slice(&written);
        }
        black_box(&out);
        made += BURST;
    }
    Run {
        time: spent,
        units: made as u64,
    }
}

// This many streams were used until their limits rose and the MAX_STREAM_DATA frames arrived. Then only one of them goes on.
fn raised(streams: u64) -> Run {
    let mut pair = Pair::new(Load {
        active: streams,
        open: streams,
        window: 16 << 10,
        write: 1200,
        ..PLAIN
    });
    let mut read = 0;
    while read < streams * (12 << 10) {
        pair.write();
        pair.carry();
        read += pair.read();
        pair.answer();
    }
    while read < pair.written {
        pair.carry();
        read += pair.read();
        pair.answer();
    }
    pair.streams.truncate(1);
    let (before, until) = (pair.made, read + (16 << 20));
    let time = time(|| {
        while read < until {
            pair.write();
            pair.carry();
            read += pair.read();
            pair.answer();
        }
    });
    Run {
        time,
        units: pair.made - before,
    }
}

// This many packets of 128 bytes are in flight before the first one arrives and is acknowledged.
fn outstanding(packets: usize) -> Run {
    transfer(Load {
        active: 16,
        open: 16,
        write: 1200,
        burst: packets,
        total: 64 << 20,
        room: 128,
        fill: packets * 128 + (256 << 10),
        ..PLAIN
    })
}

// This many threads, each with two endpoints of its own. The measure is wall-clock time for a packet of any thread.
fn threads(count: usize) -> Run {
    let load = Load {
        total: 256 << 20,
        ..PLAIN
    };
    let start = Barrier::new(count + 1);
    std::thread::scope(|scope| {
        let run = || {
            start.wait();
            transfer(load).units
        };
        let runs: Vec<_> = (0..count).map(|_| scope.spawn(run)).collect();
        start.wait();
        let began = Instant::now();
        let made = runs.into_iter().map(|run| run.join().expect("it ends"));
        let units = made.sum();
        Run {
            time: began.elapsed(),
            units,
        }
    })
}

/// With this many packets in flight, the same ACK of 32 ranges arrives again and again, and acknowledges nothing new.
fn same_ack(packets: u64) -> Run {
    let mut pair = Pair::new(Load {
        active: 16,
        open: 16,
        window: 1 << 20,
        ..PLAIN
    });
    let mut payload = vec![0; 1200];
    for number in 0..packets {
        pair.write();
        match pair.sender.make_packet(&mut payload) {
            Ok(Some(made)) => {
                // Of the last packets each 300th is lost, so that the ACK has 32 ranges.
                if number + 9_600 < packets || number % 300 != 0 {
                    let _ = pair.reader.receive(made.number, &payload[..made.len]);
                }
            }
            _ => panic!("bytes are due"),
        }
        pair.read();
    }
    let ack = pair
        .reader
        .make_packet(&mut payload)
        .expect("there is memory")
        .expect("an ACK is due");
    let ack = &payload[..ack.len];
    _ = pair.sender.receive(0, ack).expect("an honest packet");
    let times = 2_000;
    let time = time(|| {
        for number in 1..=times {
            _ = pair.sender.receive(number, ack).expect("an honest packet");
        }
    });
    Run { time, units: times }
}

/// Delivers all that one endpoint has pending to the other.
pub fn hand_on(from: &mut Endpoint, to: &mut Endpoint) {
    let mut payload = [0; 1200];
    while let Ok(Some(made)) = from.make_packet(&mut payload) {
        _ = to
            .receive(made.number, &payload[..made.len])
            .expect("an honest packet");
    }
}

pub fn rows() -> Vec<Row> {
    let row = |name, unit, run| Row { name, unit, run };
    vec![
        row("open-1", "packet", || open(1)),
        row("open-64", "packet", || open(64)),
        row("open-1000", "packet", || open(1000)),
        row("open-4096", "packet", || open(4096)),
        row("open-8192", "packet", || open(8192)),
        row("active-1", "packet", || active(1)),
        row("active-64", "packet", || active(64)),
        row("active-1000", "packet", || active(1000)),
        row("active-4096", "packet", || active(4096)),
        row("carried-1", "packet", || carried(1)),
        row("carried-64", "packet", || carried(64)),
        row("carried-1000", "packet", || carried(1000)),
        row("carried-4096", "packet", || carried(4096)),
        row("copied-1", "packet", || copied(1)),
        row("copied-64", "packet", || copied(64)),
        row("copied-1000", "packet", || copied(1000)),
        row("copied-4096", "packet", || copied(4096)),
        row("raised-1", "packet", || raised(1)),
        row("raised-64", "packet", || raised(64)),
        row("raised-1000", "packet", || raised(1000)),
        row("raised-4096", "packet", || raised(4096)),
        row("outstanding-10", "packet", || outstanding(10)),
        row("outstanding-100", "packet", || outstanding(100)),
        row("outstanding-1000", "packet", || outstanding(1_000)),
        row("outstanding-10000", "packet", || outstanding(10_000)),
        row("outstanding-100000", "packet", || outstanding(100_000)),
        row("threads-1", "packet", || threads(1)),
        row("threads-2", "packet", || threads(2)),
        row("threads-4", "packet", || threads(4)),
        row("same-ack-32-ranges-of-10000", "ACK", || same_ack(10_000)),
    ]
}
