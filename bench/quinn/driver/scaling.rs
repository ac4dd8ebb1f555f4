// The whole loop: write, make packets, receive, read, acknowledge, and send back credit. And its cost with more streams, more packets in
// flight, and more endpoints.
use std::sync::Barrier;
use std::time::{Duration, Instant};

use bytes::Bytes;

use super::super::streams::RecvStream;
use super::ends::{End, Load, PLAIN, Pair};
use super::parts::even_then_odd;
use super::{CHUNK, PERIOD, Run, check, time};
use crate::frame::StreamMeta;
use crate::{Dir, Side, StreamId};

pub fn transfer(load: Load) -> Run {
    let mut pair = Pair::new(load);
    let mut read = 0;
    let time = time(|| {
        while read < load.total {
            pair.write();
            pair.carry();
            read += pair.read();
            pair.answer();
        }
    });
    Run {
        time,
        units: pair.made,
    }
}

pub fn open(streams: u32) -> Run {
    transfer(Load {
        open: streams,
        total: 32 << 20,
        ..PLAIN
    })
}

pub fn active(streams: u32) -> Run {
    transfer(Load {
        active: streams,
        open: streams,
        window: 16 << 10,
        write: 1200,
        total: 32 << 20,
        ..PLAIN
    })
}

pub fn carried(streams: u32) -> Run {
    let load = Load {
        active: streams,
        open: streams,
        window: 16 << 10,
        write: 1200,
        total: 32 << 20,
        ..PLAIN
    };
    let mut pair = Pair::new(load);
    let (mut read, mut spent) = (0, Duration::ZERO);
    while read < load.total {
        pair.write();
        spent += time_briefly(|| pair.carry());
        read += pair.read();
        spent += time_briefly(|| pair.answer());
    }
    Run {
        time: spent,
        units: pair.made,
    }
}

// By the clock on the wall: reading that one is no system call, after which the processor is slower for a while.
fn time_briefly(work: impl FnOnce()) -> Duration {
    let before = Instant::now();
    work();
    before.elapsed()
}

pub fn raised(streams: u32) -> Run {
    let mut pair = Pair::new(Load {
        active: streams,
        open: streams,
        window: 16 << 10,
        write: 1200,
        ..PLAIN
    });
    let mut read = 0;
    while read < u64::from(streams) * (12 << 10) {
        pair.write();
        pair.carry();
        read += pair.read();
        pair.answer();
    }
    while read < pair.written {
        pair.carry();
        read += pair.read();
        pair.answer();
    }
    pair.ids.truncate(1);
    let (before, until) = (pair.made, read + (16 << 20));
    let time = time(|| {
        while read < until {
            pair.write();
            pair.carry();
            read += pair.read();
            pair.answer();
        }
    });
    Run {
        time,
        units: pair.made - before,
    }
}

pub fn outstanding(packets: usize) -> Run {
    transfer(Load {
        active: 16,
        open: 16,
        write: 1200,
        burst: packets,
        total: 64 << 20,
        room: 128,
        fill: packets * 128 + (256 << 10),
        ..PLAIN
    })
}

// Wall-clock time for a packet of any of the threads.
pub fn threads(count: usize) -> Run {
    let load = Load {
        total: 256 << 20,
        ..PLAIN
    };
    let start = Barrier::new(count + 1);
    std::thread::scope(|scope| {
        let run = || {
            start.wait();
            transfer(load).units
        };
        let runs: Vec<_> = (0..count).map(|_| scope.spawn(run)).collect();
        start.wait();
        let began = Instant::now();
        let units = runs.into_iter().map(|run| run.join().unwrap()).sum();
        Run {
            time: began.elapsed(),
            units,
        }
    })
}

// glibc's `mallinfo2`: ten numbers. The fifth is the bytes mapped for large allocations, the eighth the allocated bytes.
#[repr(C)]
struct Mallinfo2 {
    told: [usize; 10],
}

extern "C" {
    fn mallinfo2() -> Mallinfo2;
}

fn held() -> usize {
    // SAFETY: the struct has the layout of glibc's since 2.33.
    let told = unsafe { mallinfo2() }.told;
    told[4] + told[7]
}

// Endpoints that grant 100 streams of each direction, with windows of 1 MiB for the connection and 64 KiB for a stream.
pub fn idle(count: usize) -> f64 {
    let mut ends: Vec<Box<End>> = Vec::with_capacity(count);
    let before = held();
    for _ in 0..count {
        let end = End::with(Side::Server, 100, 1 << 16, 1 << 20, 1 << 16);
        ends.push(Box::new(end));
    }
    let taken = held() - before;
    assert!(ends.iter().all(|end| end.next == 0));
    taken as f64 / count as f64
}

pub fn same_ack(packets: u64) -> Run {
    let mut pair = Pair::new(Load {
        active: 16,
        open: 16,
        ..PLAIN
    });
    for number in 0..packets {
        pair.write();
        let (made, payload) = pair.sender.make(1200).unwrap();
        if number + 9_600 < packets || number % 300 != 0 {
            pair.reader.receive(made, Bytes::from(payload));
        }
        pair.read();
    }
    let (_, ack) = pair.reader.make(1200).unwrap();
    let ack = Bytes::from(ack);
    pair.sender.receive(0, ack.clone());
    let times = 2_000;
    let time = time(|| {
        for number in 1..=times {
            pair.sender.receive(number, ack.clone());
        }
    });
    Run { time, units: times }
}

pub fn hostile() -> Run {
    let load = Load {
        window: 1 << 16,
        ..PLAIN
    };
    let mut packets = vec![Vec::new()];
    let id = StreamId::new(Side::Client, Dir::Uni, 0);
    for offset in even_then_odd() {
        let last = packets.last_mut().unwrap();
        if last.len() + 9 > CHUNK {
            packets.push(Vec::new());
        }
        let last = packets.last_mut().unwrap();
        StreamMeta {
            id,
            offsets: offset..offset + 1,
            fin: false,
        }
        .encode(true, last);
        last.push((offset % PERIOD) as u8);
    }
    let packets: Vec<Bytes> = packets.into_iter().map(Bytes::from).collect();
    let mut end = End::new(Side::Server, &load);
    let time = time(|| {
        for (number, payload) in packets.iter().enumerate() {
            end.receive(number as u64, payload.clone());
        }
    });
    let mut stream = RecvStream {
        id,
        state: &mut end.streams,
        pending: &mut end.pending,
    };
    let mut chunks = stream.read(true).unwrap();
    let mut read = 0;
    while let Ok(Some(chunk)) = chunks.next(1 << 16) {
        check(read, &chunk.bytes);
        read += chunk.bytes.len() as u64;
    }
    let _ = chunks.finalize();
    assert_eq!(read, 1 << 16);
    Run {
        time,
        units: packets.len() as u64,
    }
}
