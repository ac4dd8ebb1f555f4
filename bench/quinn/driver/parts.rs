// Each part alone: the frame reader, the receive buffer, the send buffer, and the set of numbers.
use std::hint::black_box;

use bytes::Bytes;

use super::super::assembler::Assembler;
use super::super::send_buffer::SendBuffer;
use super::{CHUNK, Run, check, pattern, place, time};
use crate::coding::BufMutExt;
use crate::frame::{Ack, Iter, StreamMeta};
use crate::range_set::{ArrayRangeSet, RangeSet};
use crate::{Dir, Side, StreamId};

// Frames

pub fn mixed() -> (Bytes, u64) {
    let (mut payload, mut frames) = (Vec::new(), 0);
    let mut acks = ArrayRangeSet::new();
    for run in [1..4, 7..9, 20..23, 30..31] {
        acks.insert(run);
    }
    while payload.len() < 1100 {
        Ack::encode(0, &acks, None, &mut payload);
        for number in [
            0x10,
            1 << 24,
            0x11,
            4,
            70_000,
            0x04,
            8,
            7,
            5000,
            0x05,
            12,
            7,
            0x12,
            128,
            0x15,
            4,
            70_000,
            0x01,
        ] {
            payload.write_var(number);
        }
        for k in 0..4u64 {
            stream_frame(&mut payload, k, 4096 * k, &[k as u8; 32], k == 3, true);
        }
        frames += 12;
    }
    (Bytes::from(payload), frames)
}

fn stream_frame(
    payload: &mut Vec<u8>,
    index: u64,
    offset: u64,
    bytes: &[u8],
    fin: bool,
    has_len: bool,
) {
    let id = StreamId::new(Side::Client, Dir::Bi, index);
    StreamMeta {
        id,
        offsets: offset..offset + bytes.len() as u64,
        fin,
    }
    .encode(has_len, payload);
    payload.extend_from_slice(bytes);
}

pub fn read_once(payload: &Bytes) {
    for frame in Iter::new(black_box(payload).clone()) {
        black_box(&frame);
    }
}

fn read_frames(payload: &Bytes, frames: u64, times: u64) -> Run {
    assert_eq!(Iter::new(payload.clone()).count() as u64, frames);
    let time = time(|| {
        for _ in 0..times {
            read_once(payload);
        }
    });
    Run {
        time,
        units: times * frames,
    }
}

pub fn decode_mixed() -> Run {
    let (payload, frames) = mixed();
    read_frames(&payload, frames, 200_000)
}

pub fn decode_stream(each: usize) -> Run {
    let bytes = vec![5; each];
    let (mut payload, mut frames) = (Vec::new(), 0);
    while payload.len() + each + 13 <= CHUNK {
        stream_frame(
            &mut payload,
            1,
            (1 << 20) + frames * each as u64,
            &bytes,
            false,
            each < 1000,
        );
        frames += 1;
    }
    read_frames(&Bytes::from(payload), frames, 4_000_000 / frames)
}

// Bytes put in order: the assembler alone, without the stream's checks

fn read_all(assembler: &mut Assembler, out: &mut [u8], from: u64, len: usize) {
    let mut count = 0;
    while let Some(chunk) = assembler.read(usize::MAX, true) {
        out[count..count + chunk.bytes.len()].copy_from_slice(&chunk.bytes);
        count += chunk.bytes.len();
    }
    black_box(&out[..count]);
    assert_eq!(count, len);
    check(from, &out[..count]);
}

pub fn half_takes_in_order() -> impl FnMut() {
    let data = Bytes::from(pattern(CHUNK));
    let mut out = vec![0; 64 << 10];
    let mut assembler = Assembler::new();
    let mut offset = 0;
    move || {
        let from = place(offset);
        assembler.insert(offset, data.slice(from..from + CHUNK), CHUNK);
        read_all(&mut assembler, &mut out, offset, CHUNK);
        offset += CHUNK as u64;
    }
}

pub fn half_in_order() -> Run {
    let mut take = half_takes_in_order();
    let units = 1_000_000;
    let time = time(|| {
        for _ in 0..units {
            take();
        }
    });
    Run { time, units }
}

pub const IN_REVERSE: u64 = 54;

pub fn half_takes_in_reverse() -> impl FnMut() {
    let data = Bytes::from(pattern(CHUNK));
    let mut out = vec![0; 64 << 10];
    let mut assembler = Assembler::new();
    let mut first = 0;
    move || {
        for k in (0..IN_REVERSE).rev() {
            let offset = first + k * CHUNK as u64;
            let from = place(offset);
            assembler.insert(offset, data.slice(from..from + CHUNK), CHUNK);
        }
        read_all(&mut assembler, &mut out, first, IN_REVERSE as usize * CHUNK);
        first += IN_REVERSE * CHUNK as u64;
    }
}

pub fn half_in_reverse() -> Run {
    let mut take = half_takes_in_reverse();
    let rounds = 20_000;
    let time = time(|| {
        for _ in 0..rounds {
            take();
        }
    });
    Run {
        time,
        units: rounds * IN_REVERSE,
    }
}

pub fn half_by_bytes(order: Vec<u64>) -> Run {
    let data = Bytes::from(pattern(1));
    let mut out = vec![0; 64 << 10];
    let mut assembler = Assembler::new();
    let rounds = 10;
    let time = time(|| {
        for round in 0..rounds {
            for &k in &order {
                let offset = (round << 16) + k;
                let from = place(offset);
                assembler.insert(offset, data.slice(from..from + 1), 1);
            }
            read_all(&mut assembler, &mut out, round << 16, 1 << 16);
        }
    });
    Run {
        time,
        units: rounds << 16,
    }
}

pub fn even_then_odd() -> Vec<u64> {
    (0..1 << 16)
        .step_by(2)
        .chain((1..1 << 16).step_by(2))
        .collect()
}

// Bytes sent

pub fn send(flight: u64) -> Run {
    let source = pattern(CHUNK);
    let mut written = 0;
    let mut packet = Vec::with_capacity(1500);
    let mut buffer = SendBuffer::new();
    let mut sent = Vec::new();
    let rounds = 1_000_000 / flight / if flight > 500 { 4 } else { 1 };
    let time = time(|| {
        for _ in 0..rounds {
            for _ in 0..flight {
                let from = place(written);
                let bytes = &black_box(&source)[from..from + CHUNK];
                buffer.write(Bytes::copy_from_slice(bytes));
                written += CHUNK as u64;
            }
            while buffer.has_unsent_data() {
                let (run, _) = buffer.poll_transmit(CHUNK + 8);
                packet.clear();
                let mut rest = run.clone();
                while rest.start != rest.end {
                    let bytes = buffer.get(rest.clone());
                    rest.start += bytes.len() as u64;
                    packet.extend_from_slice(bytes);
                }
                black_box(&packet);
                check(run.start, &packet);
                sent.push(run);
            }
            for run in sent.drain(..) {
                buffer.ack(run);
            }
        }
    });
    Run {
        time,
        units: rounds * flight,
    }
}

// Sets of numbers: its tree

// Inserts numbers that end up as this many runs.
pub fn insert(numbers: impl Iterator<Item = u64>, runs: usize) -> Run {
    let mut set = RangeSet::new();
    let mut units = 0;
    let time = time(|| {
        for number in numbers {
            set.insert(number..number + 1);
            units += 1;
        }
    });
    assert_eq!(set.iter().count(), runs);
    let members = set.iter().map(|run| run.end - run.start);
    assert_eq!(members.sum::<u64>(), units);
    Run { time, units }
}
