//! Attacks beside many streams: what a packet and the application's news cost then.

use super::play::{Play, Target, own, theirs};
use gotsavena::{Dir, Frame, StreamId};
use std::ops::Range;

/// How many streams one payload touches.
const SOME: u64 = 64;
/// One stream of so many is another than the rest.
const EACH: u64 = 64;

fn bidi(index: u64) -> StreamId {
    theirs(Dir::Bidi, index)
}

fn uni(index: u64) -> StreamId {
    theirs(Dir::Uni, index)
}

fn is_odd_one(index: u64) -> bool {
    index % EACH == EACH - 1
}

fn stream(stream: StreamId, bytes: &[u8], fin: bool) -> Frame<'_> {
    Frame::Stream {
        stream,
        offset: 0,
        fin,
        bytes,
    }
}

// So many streams at a time, up to this number.
fn by_some(streams: u64) -> impl Iterator<Item = Range<u64>> {
    (0..streams)
        .step_by(SOME as usize)
        .map(move |from| from..streams.min(from + SOME))
}

/// A PING comes, the application asks for events, and the PING is answered.
pub fn ping_and_news<T: Target>(play: &mut Play<T>, _streams: u64, _step: u64) {
    play.send(Frame::Ping);
    play.hear();
    play.make();
}

// What is due is sent and acknowledged, and the application takes the events.
fn settle<T: Target>(play: &mut Play<T>) {
    play.drain();
    play.ack_all();
    play.hear();
    play.drain();
}

// Requests of a byte, each answered by a byte.
fn answer<T: Target>(play: &mut Play<T>, index: u64) {
    play.end.read(bidi(index));
    play.end.write(bidi(index), b"x");
    play.end.finish(bidi(index));
}

/// Requests are over, but that the peer stopped one of 64.
pub fn requests_stopped<T: Target>(play: &mut Play<T>, streams: u64) {
    for some in by_some(streams) {
        for index in some.clone() {
            play.put(stream(bidi(index), b"x", true));
            if is_odd_one(index) {
                play.put(Frame::StopSending {
                    stream: bidi(index),
                    code: 0,
                });
            }
        }
        play.deliver();
        play.hear();
        for index in some {
            if is_odd_one(index) {
                play.end.read(bidi(index));
            } else {
                answer(play, index);
            }
        }
        settle(play);
    }
}

/// The endpoint's own streams are over, but that the peer stopped one of 64.
pub fn own_stopped<T: Target>(play: &mut Play<T>, streams: u64) {
    for some in by_some(streams) {
        for index in some.clone() {
            let opened = play.end.open(Dir::Uni);
            play.end.write(opened, b"x");
            if !is_odd_one(index) {
                play.end.finish(opened);
            }
        }
        play.drain();
        for index in some.filter(|&index| is_odd_one(index)) {
            play.put(Frame::StopSending {
                stream: own(Dir::Uni, index),
                code: 0,
            });
        }
        play.deliver();
        settle(play);
    }
}

/// Requests are over, but that one of 64 stays open.
pub fn requests_open<T: Target>(play: &mut Play<T>, streams: u64) {
    for some in by_some(streams) {
        for index in some.clone() {
            play.put(stream(bidi(index), b"x", !is_odd_one(index)));
        }
        play.deliver();
        play.hear();
        for index in some {
            if is_odd_one(index) {
                play.end.read(bidi(index));
            } else {
                answer(play, index);
            }
        }
        settle(play);
    }
}

/// Of each stream one direction is over: the receiving one for every second stream, else the sending one.
pub fn half_over<T: Target>(play: &mut Play<T>, streams: u64) {
    for some in by_some(streams) {
        for index in some.clone() {
            play.put(stream(bidi(index), b"x", index % 2 == 0));
        }
        play.deliver();
        play.hear();
        for index in some {
            play.end.read(bidi(index));
            if index % 2 == 1 {
                play.end.reset(bidi(index));
            }
        }
        settle(play);
    }
}

// These bytes come on each stream, the application hears of them, and then does something about each stream.
fn told<T: Target>(play: &mut Play<T>, streams: u64, bytes: &[u8], read: fn(&mut T, u64)) {
    for some in by_some(streams) {
        for index in some.clone() {
            play.put(stream(uni(index), bytes, false));
        }
        play.deliver();
        play.hear();
        some.for_each(|index| read(&mut play.end, index));
        play.drain();
    }
}

/// Of every second stream the byte isn't read.
pub fn half_told<T: Target>(play: &mut Play<T>, streams: u64) {
    told(play, streams, b"x", |end, index| {
        if index % 2 == 0 {
            end.read(uni(index));
        }
    });
}

/// Of every second stream one byte of two is read, of the others both.
pub fn half_read<T: Target>(play: &mut Play<T>, streams: u64) {
    told(play, streams, b"xx", |end, index| {
        if index % 2 == 0 {
            end.read(uni(index));
        } else {
            end.read_byte(uni(index));
        }
    });
}

/// The byte of one stream of 64 is read, and so is the last one's.
pub fn most_told<T: Target>(play: &mut Play<T>, streams: u64) {
    told(play, streams, b"x", |end, index| {
        if is_odd_one(index) {
            end.read(uni(index));
        }
    });
}

/// A byte comes on the last stream, of which the application hears, and reads it.
pub fn last_of_told<T: Target>(play: &mut Play<T>, streams: u64, step: u64) {
    let last = uni(streams - 1);
    play.put(Frame::Stream {
        stream: last,
        offset: step + 1,
        fin: false,
        bytes: b"x",
    });
    play.deliver();
    play.hear();
    play.call(|end| end.read(last));
    play.make();
}

/// Writes on one stream of 64 were cut short and wait for room, and others have room.
pub fn short_beside_writable<T: Target>(play: &mut Play<T>, streams: u64) {
    for index in 0..streams {
        let opened = play.end.open(Dir::Uni);
        let count = if is_odd_one(index) { 20 } else { 5 };
        play.end.write(opened, &[b'x'; 20][..count]);
    }
    play.drain();
    play.hear();
}

/// So many streams are open.
pub fn open_all<T: Target>(play: &mut Play<T>, streams: u64) {
    for some in by_some(streams) {
        some.for_each(|index| play.put(stream(bidi(index), b"x", false)));
        play.deliver();
        play.hear();
    }
    play.drain();
}

/// One ends, each time another of its 64: the peer's FIN is read, and the application's is acknowledged.
pub fn end_in_strides<T: Target>(play: &mut Play<T>, streams: u64, step: u64) {
    let place = step * EACH;
    let ended = bidi(place % streams + place / streams);
    play.put(Frame::Stream {
        stream: ended,
        offset: 1,
        fin: true,
        bytes: b"",
    });
    play.deliver();
    play.hear();
    play.call(|end| {
        end.read(ended);
        end.write(ended, b"x");
        end.finish(ended);
    });
    let made = play.make().expect("a byte is due");
    play.put_ack(made, made);
    play.deliver();
    play.hear();
}

/// One frame opens all.
pub fn open_by_one<T: Target>(play: &mut Play<T>, streams: u64, _step: u64) {
    play.send(stream(bidi(streams - 1), b"x", false));
}

/// Each stream stands at its limit, and the peer got the blocked frames.
pub fn blocked<T: Target>(play: &mut Play<T>, streams: u64) {
    for some in by_some(streams) {
        for index in some.clone() {
            play.put(stream(bidi(index), b"x", false));
        }
        play.deliver();
        for index in some {
            play.end.read(bidi(index));
            play.end.write(bidi(index), &[b'x'; 20]);
        }
        play.drain();
    }
    play.ack_all();
}

/// Further streams are opened by STOP_SENDING, and their resets are sent.
pub fn resets_above<T: Target>(play: &mut Play<T>, streams: u64, step: u64) {
    for place in 0..SOME {
        play.put(Frame::StopSending {
            stream: bidi(streams + SOME * step + place),
            code: 0,
        });
    }
    play.deliver();
    play.drain();
}
