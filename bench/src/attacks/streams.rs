//! Attacks by STREAM frames at chosen offsets, and by resets.

use super::play::{Play, Target, own, theirs};
use gotsavena::{Dir, Frame, StreamId};

/// How many frames of one byte a payload has.
const MANY: u64 = 128;
/// How many streams one payload opens.
const SOME: u64 = 16;
/// How many runs of received bytes a stream has as it is reset.
const RUNS: u64 = 4096;
/// The size of a page, and how many pages from the read offset on are stored in the ring. Pages further off are stored by themselves.
const PAGE: u64 = 1 << 11;
const APART: u64 = 1;
/// The window of a stream, in bytes.
const WINDOW: u64 = 1 << 20;
/// In how many pieces three quarters of a window come.
const PIECES: u64 = 48;

fn uni(index: u64) -> StreamId {
    theirs(Dir::Uni, index)
}

fn byte(stream: StreamId, offset: u64) -> Frame<'static> {
    Frame::Stream {
        stream,
        offset,
        fin: false,
        bytes: b"x",
    }
}

/// Of many streams all but two are over, and these two are stopped.
pub fn two_stopped<T: Target>(play: &mut Play<T>, opened: u64) {
    for index in 0..opened - 2 {
        play.put(Frame::Stream {
            stream: uni(index),
            offset: 0,
            fin: true,
            bytes: b"x",
        });
        if index % 64 == 63 || index + 3 == opened {
            play.deliver();
            (index - index % 64..=index).for_each(|over| play.end.read(uni(over)));
        }
    }
    for index in opened - 2..opened {
        play.send(byte(uni(index), 0));
        play.end.stop(uni(index));
    }
}

pub fn repeat_both<T: Target>(play: &mut Play<T>, opened: u64, _step: u64) {
    play.put(byte(uni(opened - 2), 0));
    play.put(byte(uni(opened - 1), 0));
    play.deliver();
}

/// On each stream every second byte arrives, then a reset, which is read.
pub fn reset_over_holes<T: Target>(play: &mut Play<T>, _streams: u64, step: u64) {
    let payloads = RUNS / MANY + 1;
    let (stream, part) = (uni(step / payloads), step % payloads);
    if part < payloads - 1 {
        holes(play, stream, 2 * MANY * part);
        return;
    }
    play.send(Frame::ResetStream {
        stream,
        code: 0,
        final_size: 2 * RUNS,
    });
    play.end.read(stream);
}

pub fn reset_payloads(streams: u64) -> u64 {
    streams * (RUNS / MANY + 1)
}

// Every second byte from this offset on.
fn holes<T: Target>(play: &mut Play<T>, stream: StreamId, from: u64) {
    for place in 0..MANY {
        play.put(byte(stream, from + 2 * place));
    }
    play.deliver();
}

pub fn stopped<T: Target>(play: &mut Play<T>, _bytes: u64) {
    play.send(byte(uni(0), 0));
    play.end.stop(uni(0));
}

/// The peer sends every second byte of a stream that was stopped.
pub fn stopped_holes<T: Target>(play: &mut Play<T>, _bytes: u64, step: u64) {
    holes(play, uni(0), 2 * MANY * step + 2);
}

pub fn by_many(frames: u64) -> u64 {
    frames / MANY
}

/// The first byte of each stream arrives at this offset. Then all are reset.
pub fn far_byte<T: Target>(play: &mut Play<T>, offset: u64, step: u64) {
    let streams = SOME * step..SOME * (step + 1);
    for index in streams.clone() {
        play.put(byte(uni(index), offset));
    }
    play.deliver();
    play.aside(|play| abandon(play, streams, offset + 1));
}

/// On each stream a byte at its beginning and one at this offset.
pub fn near_and_far_byte<T: Target>(play: &mut Play<T>, offset: u64, step: u64) {
    let streams = SOME * step..SOME * (step + 1);
    for index in streams.clone() {
        play.put(byte(uni(index), 1));
        play.put(byte(uni(index), offset));
    }
    play.deliver();
    play.aside(|play| abandon(play, streams, offset + 1));
}

/// On each of four streams 16 bytes arrive, each at this distance from the one before, then a reset, which is read.
pub fn bytes_apart<T: Target>(play: &mut Play<T>, distance: u64, step: u64) {
    sparse(play, step, [4, 16], |place| (place * distance, b"x"));
}

/// The same, with 64 bytes on one stream.
pub fn many_apart<T: Target>(play: &mut Play<T>, distance: u64, step: u64) {
    sparse(play, step, [1, 64], |place| (place * distance, b"x"));
}

/// The same with two bytes on each stream, at a multiple of the distance.
pub fn edges_apart<T: Target>(play: &mut Play<T>, distance: u64, step: u64) {
    sparse(play, step, [1, 64], |place| {
        ((place + 1) * distance - 1, b"xx")
    });
}

/// On each of 32 streams a byte arrives at this distance, then the one before it.
pub fn drawn_up<T: Target>(play: &mut Play<T>, distance: u64, step: u64) {
    sparse(play, step, [32, 2], |place| (distance - place, b"x"));
}

// On each of these streams this many frames arrive, then a reset, which is read.
fn sparse<T: Target>(
    play: &mut Play<T>,
    step: u64,
    [streams, frames]: [u64; 2],
    at: impl Fn(u64) -> (u64, &'static [u8]),
) {
    let streams = streams * step..streams * (step + 1);
    let ends = (0..frames).map(|place| {
        let (offset, bytes) = at(place);
        offset + bytes.len() as u64
    });
    let final_size = ends.max().expect("there are frames");
    for index in streams.clone() {
        for (offset, bytes) in (0..frames).map(&at) {
            play.put(Frame::Stream {
                stream: uni(index),
                offset,
                fin: false,
                bytes,
            });
        }
    }
    play.deliver();
    for index in streams.clone() {
        play.put(Frame::ResetStream {
            stream: uni(index),
            code: 0,
            final_size,
        });
    }
    play.deliver();
    streams.for_each(|index| play.end.read(uni(index)));
}

/// A byte in each page that is stored outside the ring, then one before them all, after which the ring has to grow over them.
pub fn page_or_gap<T: Target>(play: &mut Play<T>, pages: u64, step: u64) {
    let page = if step < pages {
        APART + step
    } else {
        APART - 1
    };
    play.send(byte(uni(0), PAGE * page));
}

// The streams are reset, and the resets are read.
fn abandon<T: Target>(play: &mut Play<T>, streams: std::ops::Range<u64>, final_size: u64) {
    for index in streams.clone() {
        play.put(Frame::ResetStream {
            stream: uni(index),
            code: 0,
            final_size,
        });
    }
    play.deliver();
    streams.for_each(|index| play.end.read(uni(index)));
}

/// Every second byte of a part of the connection's credit, the last one first.
pub fn window_downwards<T: Target>(play: &mut Play<T>, credit: u64, step: u64) {
    window(play, step, |place| credit / 2 - 1 - place);
}

pub fn window_upwards<T: Target>(play: &mut Play<T>, _credit: u64, step: u64) {
    window(play, step, |place| place);
}

pub fn window_scattered<T: Target>(play: &mut Play<T>, credit: u64, step: u64) {
    window(play, step, |place| scattered(place, credit / 2));
}

fn window<T: Target>(play: &mut Play<T>, step: u64, order: impl Fn(u64) -> u64) {
    for place in MANY * step..MANY * (step + 1) {
        let offset = 2 * order(place) + 1;
        play.put(byte(uni(offset / WINDOW), offset % WINDOW));
    }
    play.deliver();
}

pub fn by_twice_many(credit: u64) -> u64 {
    credit / (2 * MANY)
}

// A permutation of the numbers below a power of two: each of its two steps can be undone.
fn scattered(place: u64, count: u64) -> u64 {
    let mut at = place;
    for _ in 0..2 {
        at = at.wrapping_mul(0x9e37_79b9_7f4a_7c15) % count;
        at ^= at >> (count.trailing_zeros() / 2);
    }
    at
}

/// The endpoint opens this many streams.
pub fn own_streams<T: Target>(play: &mut Play<T>, streams: u64) {
    for _ in 0..streams {
        play.end.open(Dir::Bidi);
    }
}

pub fn byte_on_each<T: Target>(play: &mut Play<T>, _streams: u64, step: u64) {
    for index in MANY * step..MANY * (step + 1) {
        play.put(byte(own(Dir::Bidi, index), 0));
    }
    play.deliver();
}

/// The last byte of a window arrives first, then three quarters of the window, which are read.
pub fn three_quarters<T: Target>(play: &mut Play<T>, _streams: u64, step: u64) {
    let (stream, piece) = (uni(step / (PIECES + 1)), step % (PIECES + 1));
    if piece == 0 {
        play.send(byte(stream, WINDOW - 1));
        return;
    }
    play.send(Frame::Stream {
        stream,
        offset: (piece - 1) * (1 << 14),
        fin: false,
        bytes: &[b'x'; 1 << 14],
    });
    play.end.read(stream);
}

pub fn quarters_payloads(streams: u64) -> u64 {
    streams * (PIECES + 1)
}
