//! Each part alone: the frame reader, the receive buffer, the send buffer, and the set of numbers.

use crate::clock::time;
use crate::pattern::{self, Source};
use crate::proved::qs_ranges::RangeSet;
use crate::proved::qs_recv::{Assembly, Read, RecvHalf, RingAssembly, Share};
use crate::proved::qs_send::{Chunk, SendHalf};
use crate::proved::qs_wire::{self as wire, Frames};
use crate::shim::alloc::Global;
use crate::{Row, Run};
use gotsavena::{Dir, Endpoint, Role, Settings};
use std::hint::black_box;

const CHUNK: usize = 1200;

// Payloads of the common frames, about 1,100 bytes in all, and the number of frames.
pub fn mixed() -> (Vec<u8>, u64) {
    let mut payload = vec![0; 1500];
    let (mut len, mut frames) = (0, 0);
    while len < 1100 {
        let runs = [(30, 31), (20, 23), (7, 9), (1, 4)];
        let (_, taken) = wire::put_ack(&runs, &mut payload[len..]).expect("it fits");
        len += taken;
        for frame in control_frames() {
            len += wire::put(&frame, &mut payload[len..]).expect("it fits");
            frames += 1;
        }
        for k in 0..4 {
            let bytes = [k as u8; 32];
            let frame = wire::Frame::Stream {
                stream: id(4 * k),
                offset: 4096 * k,
                fin: k == 3,
                bytes: &bytes,
            };
            len += wire::put(&frame, &mut payload[len..]).expect("it fits");
        }
        frames += 5;
    }
    payload.truncate(len);
    (payload, frames)
}

fn control_frames() -> [wire::Frame<'static>; 7] {
    [
        wire::Frame::MaxData { maximum: 1 << 24 },
        wire::Frame::MaxStreamData {
            stream: id(4),
            maximum: 70_000,
        },
        wire::Frame::ResetStream {
            stream: id(8),
            code: 7,
            final_size: 5000,
        },
        wire::Frame::StopSending {
            stream: id(12),
            code: 7,
        },
        wire::Frame::MaxStreams {
            dir: wire::Dir::Bidi,
            count: 128,
        },
        wire::Frame::StreamDataBlocked {
            stream: id(4),
            limit: 70_000,
        },
        wire::Frame::Ping,
    ]
}

fn id(value: u64) -> wire::StreamId {
    wire::StreamId::new(value).expect("it is below 2^62")
}

/// Reads all frames of the payload and returns how many there were.
pub fn read_once(payload: &[u8]) -> u64 {
    let (mut rest, mut count) = (Frames::new(black_box(payload)), 0);
    while let Ok(Some(placed)) = rest.next() {
        black_box(&placed);
        count += 1;
    }
    count
}

fn read_frames(payload: &[u8], frames: u64, times: u64) -> Run {
    assert_eq!(read_once(payload), frames);
    let time = time(|| {
        for _ in 0..times {
            read_once(payload);
        }
    });
    Run {
        time,
        units: times * frames,
    }
}

fn decode_mixed() -> Run {
    let (payload, frames) = mixed();
    read_frames(&payload, frames, 200_000)
}

// A payload of STREAM frames of `each` bytes. Each has a LEN field, unless one frame fills the packet.
fn decode_stream(each: usize) -> Run {
    let bytes = vec![5; each];
    let mut payload = vec![0; CHUNK];
    let (mut len, mut frames) = (0, 0);
    loop {
        let frame = wire::Frame::Stream {
            stream: id(5),
            offset: (1 << 20) + frames * each as u64,
            fin: false,
            bytes: &bytes,
        };
        match wire::put(&frame, &mut payload[len..]) {
            Ok(taken) => len += taken,
            Err(_full) => break,
        }
        frames += 1;
    }
    payload.truncate(len);
    read_frames(&payload, frames, 4_000_000 / frames)
}

fn put(half: &mut RecvHalf<RingAssembly>, offset: u64, bytes: &[u8]) {
    half.check_stream(offset, bytes.len() as u64, false)
        .expect("within the limit");
    half.check_bytes(offset, bytes).expect("the same bytes");
    half.take_stream(offset, bytes, false)
        .expect("there is memory");
}

// Reads `len` bytes and checks that they are those at this offset.
fn read_all(half: &mut RecvHalf<RingAssembly>, out: &mut [u8], from: u64, len: usize) {
    let mut read = 0;
    while let Read::Bytes(count) = half.read(out) {
        black_box(&out[..count]);
        pattern::check(from + read as u64, &out[..count]);
        read += count;
    }
    assert_eq!(read, len);
    half.raise();
}

/// Each call receives the next chunk of a stream and reads it.
pub fn half_takes_in_order() -> impl FnMut() {
    let source = Source::new(CHUNK);
    let mut out = vec![0; 64 << 10];
    let mut half = RecvHalf::new(Global, 1 << 20, Share::Half).expect("64 bytes are there");
    let mut next = 0;
    move || {
        put(&mut half, next, source.at(next));
        read_all(&mut half, &mut out, next, CHUNK);
        next += CHUNK as u64;
    }
}

fn half_in_order() -> Run {
    let mut take = half_takes_in_order();
    let units = 1_000_000;
    let time = time(|| {
        for _ in 0..units {
            take();
        }
    });
    Run { time, units }
}

/// How many chunks arrive in reverse order before they are read.
pub const IN_REVERSE: u64 = 54;

/// Each call receives the next 54 chunks of a stream in reverse order, and reads them.
pub fn half_takes_in_reverse() -> impl FnMut() {
    let source = Source::new(CHUNK);
    let mut out = vec![0; 64 << 10];
    let mut half = RecvHalf::new(Global, 1 << 17, Share::Half).expect("64 bytes are there");
    let mut first = 0;
    move || {
        for k in (0..IN_REVERSE).rev() {
            let offset = first + k * CHUNK as u64;
            put(&mut half, offset, source.at(offset));
        }
        read_all(&mut half, &mut out, first, IN_REVERSE as usize * CHUNK);
        first += IN_REVERSE * CHUNK as u64;
    }
}

fn half_in_reverse() -> Run {
    let mut take = half_takes_in_reverse();
    let rounds = 20_000;
    let time = time(|| {
        for _ in 0..rounds {
            take();
        }
    });
    Run {
        time,
        units: rounds * IN_REVERSE,
    }
}

// 64 KiB arrive byte by byte, in this order.
fn half_by_bytes(order: impl Fn() -> Vec<u64>) -> Run {
    let source = Source::new(1);
    let mut out = vec![0; 64 << 10];
    let mut half = RecvHalf::new(Global, 1 << 17, Share::Half).expect("64 bytes are there");
    let (rounds, order) = (10, order());
    let time = time(|| {
        for round in 0..rounds {
            for &k in &order {
                let offset = (round << 16) + k;
                put(&mut half, offset, source.at(offset));
            }
            read_all(&mut half, &mut out, round << 16, 1 << 16);
        }
    });
    Run {
        time,
        units: rounds << 16,
    }
}

fn ring_even_then_odd() -> Run {
    let source = Source::new(1);
    let mut out = vec![0; 64 << 10];
    let mut ring = RingAssembly::new(Global, 1 << 17);
    let rounds = 10;
    let time = time(|| {
        for round in 0..rounds {
            for k in even_then_odd() {
                let offset = (round << 16) + k;
                ring.put(offset, source.at(offset))
                    .expect("there is memory");
            }
            assert_eq!(black_box(ring.take(&mut out)), 1 << 16);
            pattern::check(round << 16, &out);
        }
    });
    Run {
        time,
        units: rounds << 16,
    }
}

fn even_then_odd() -> Vec<u64> {
    (0..1 << 16)
        .step_by(2)
        .chain((1..1 << 16).step_by(2))
        .collect()
}

// Bytes are written, sent chunk by chunk, and acknowledged, with `flight` chunks in flight.
fn send(flight: u64) -> Run {
    let source = Source::new(CHUNK);
    let mut written = 0;
    let mut packet = vec![0; 1500];
    let mut half = SendHalf::new(Global, id(2), (1 << 62) - 1, 1 << 21);
    let mut sent: Vec<Chunk> = Vec::new();
    let rounds = 1_000_000 / flight / if flight > 500 { 4 } else { 1 };
    let time = time(|| {
        for _ in 0..rounds {
            for _ in 0..flight {
                let bytes = black_box(source.at(written));
                written += half.write(bytes).expect("there is memory") as u64;
            }
            while let Some(chunk) = half.next_chunk(CHUNK + 12, u64::MAX) {
                half.copy(chunk, &mut packet[..chunk.len]);
                black_box(&packet);
                pattern::check(chunk.offset, &packet[..chunk.len]);
                half.sent(chunk);
                sent.push(chunk);
            }
            for chunk in sent.drain(..) {
                half.acked(chunk).expect("there is memory");
            }
        }
    });
    Run {
        time,
        units: rounds * flight,
    }
}

// Inserts numbers that end up as this many runs.
fn insert(numbers: impl Iterator<Item = u64>, runs: usize) -> Run {
    let mut set = RangeSet::new(Global);
    let mut units = 0;
    let time = time(|| {
        for number in numbers {
            set.insert(number, number + 1).expect("there is memory");
            units += 1;
        }
    });
    assert_eq!(set.count(), runs);
    let mut pairs = vec![(0, 0); runs];
    assert_eq!(set.copy_pairs(&mut pairs), runs);
    let members = pairs.iter().map(|&(lo, hi)| hi - lo);
    assert_eq!(members.sum::<u64>(), units);
    Run { time, units }
}

// Payloads of one-byte frames at the even offsets of a window of 64 KiB, then at the odd ones. Nothing is read.
fn hostile() -> Run {
    let settings = Settings::small()
        .conn_window(1 << 20)
        .stream_windows(1 << 16)
        .streams(8, 8);
    let packets = hostile_packets();
    let mut end = Endpoint::new(Role::Server, settings, settings.limits())
        .expect("the settings are in range");
    let time = time(|| {
        for (number, payload) in packets.iter().enumerate() {
            _ = end
                .receive(number as u64, payload)
                .expect("within the credit");
        }
    });
    let mut out = vec![0; 1 << 16];
    let read = end.read(hostile_stream(), &mut out);
    assert_eq!(read, Ok(gotsavena::Read::Bytes(1 << 16)));
    pattern::check(0, &out);
    Run {
        time,
        units: packets.len() as u64,
    }
}

fn hostile_stream() -> gotsavena::StreamId {
    gotsavena::StreamId::from_parts(Role::Client, Dir::Uni, 0).expect("it is below 2^62")
}

fn hostile_packets() -> Vec<Vec<u8>> {
    let (stream, source) = (hostile_stream(), Source::new(1));
    let mut packets = vec![Vec::new()];
    for offset in even_then_odd() {
        let frame = gotsavena::Frame::Stream {
            stream,
            offset,
            fin: false,
            bytes: source.at(offset),
        };
        let mut text = [0; 16];
        let len = gotsavena::put(&frame, &mut text).expect("it fits");
        let last = packets.last_mut().expect("there is one");
        if last.len() + len > CHUNK {
            packets.push(text[..len].to_vec());
        } else {
            last.extend_from_slice(&text[..len]);
        }
    }
    packets
}

pub fn rows() -> Vec<Row> {
    let row = |name, unit, run| Row { name, unit, run };
    vec![
        row("decode-mixed", "frame", decode_mixed),
        row("decode-stream-1200", "frame", || decode_stream(1187)),
        row("decode-stream-32", "frame", || decode_stream(32)),
        row("half-in-order", "chunk", half_in_order),
        row("half-in-reverse", "chunk", half_in_reverse),
        row("half-bytes-in-order", "byte", || {
            half_by_bytes(|| (0..1 << 16).collect())
        }),
        row("half-bytes-even-then-odd", "byte", || {
            half_by_bytes(even_then_odd)
        }),
        row("ring-bytes-even-then-odd", "byte", ring_even_then_odd),
        row("send-1-under-way", "chunk", || send(1)),
        row("send-54-under-way", "chunk", || send(54)),
        row("send-870-under-way", "chunk", || send(870)),
        row("set-in-order", "number", || insert(0..1_000_000, 1)),
        row("set-every-other-up", "number", || {
            insert((0..1_000_000).map(|n| 2 * n), 1_000_000)
        }),
        row("set-every-other-down-65536", "number", || {
            insert((0..65_536).rev().map(|n| 2 * n), 65_536)
        }),
        row("set-every-other-down-1000000", "number", || {
            insert((0..1_000_000).rev().map(|n| 2 * n), 1_000_000)
        }),
        row("hostile-bytes-64k", "packet", hostile),
    ]
}
