//! Attacks by ACK frames, and by what makes an endpoint search long while it makes a packet.

use super::play::{Play, ROOM, Target, own, theirs};
use gotsavena::{Dir, Frame};

pub fn nothing<T>(_play: &mut Play<T>, _size: u64) {}

// The endpoint makes packets, each with one byte of a stream.
fn packets<T: Target>(play: &mut Play<T>, count: u64) {
    let stream = play.end.open(Dir::Uni);
    for _ in 0..count {
        play.end.write(stream, b"x");
        play.make();
    }
}

/// An ACK of many ranges of one packet each. Those between are acknowledged afterwards, untimed.
pub fn many_ranges<T: Target>(play: &mut Play<T>, ranges: u64, _step: u64) {
    play.aside(|play| {
        packets(play, 2 * ranges);
        play.put(Frame::Ack {
            largest: play.made() - 1,
            delay: 0,
            // The first range, then a gap and a range each, all of length one.
            ranges: &vec![0; 2 * ranges as usize - 1],
            ecn: None,
        });
    });
    play.deliver_telling(ranges);
    play.aside(Play::ack_all);
}

/// An ACK of many packets, and padding.
pub fn padded_ack<T: Target>(play: &mut Play<T>, count: u64, _step: u64) {
    play.aside(|play| {
        packets(play, count);
        play.put_ack(play.made() - count, play.made() - 1);
        while play.len() < ROOM {
            play.put(Frame::Padding);
        }
    });
    play.deliver_telling(count);
}

/// A PING, and a packet of this room in return.
pub fn ping_in<T: Target>(play: &mut Play<T>, room: u64, _step: u64) {
    play.send(Frame::Ping);
    play.make_in(room as usize);
}

pub fn ping<T: Target>(play: &mut Play<T>, _streams: u64, _step: u64) {
    play.send(Frame::Ping);
    play.make();
}

// Streams are written to, and all that the limits permit was sent.
fn writers<T: Target>(play: &mut Play<T>, streams: u64) {
    for _ in 0..streams {
        let stream = play.end.open(Dir::Uni);
        play.end.write(stream, &[b'x'; 20]);
    }
    play.drain();
}

/// They wait for credit, and the peer got the blocked frames.
pub fn blocked<T: Target>(play: &mut Play<T>, streams: u64) {
    writers(play, streams);
    play.ack_all();
}

/// Many streams, and 200 more, wait for room to write, and the application took all events. The peer sends blocked frames.
pub fn waiting<T: Target>(play: &mut Play<T>, streams: u64) {
    writers(play, streams + 200);
    play.ack_all();
    for _ in 0..2 {
        play.aside(|play| said_heard(play, streams, 0));
    }
}

pub fn ping_heard<T: Target>(play: &mut Play<T>, _streams: u64, _step: u64) {
    play.send(Frame::Ping);
    play.hear();
}

/// The peer sends STREAM_DATA_BLOCKED for 150 streams.
pub fn said_heard<T: Target>(play: &mut Play<T>, _streams: u64, _step: u64) {
    for index in 0..150 {
        play.put(Frame::StreamDataBlocked {
            stream: theirs(Dir::Uni, index),
            limit: 1 << 20,
        });
    }
    play.deliver();
    play.hear();
}

/// Ten of the 200 are stopped.
pub fn stops_heard<T: Target>(play: &mut Play<T>, streams: u64, step: u64) {
    for index in 10 * step..10 * (step + 1) {
        play.put(Frame::StopSending {
            stream: own(Dir::Uni, streams + index),
            code: 0,
        });
    }
    play.deliver();
    play.hear();
}

/// They are reset, and the peer doesn't acknowledge the resets.
pub fn resets<T: Target>(play: &mut Play<T>, streams: u64) {
    writers(play, streams);
    for index in 0..streams {
        play.end.reset(own(Dir::Uni, index));
    }
    play.drain();
}

// The peer grants one byte more on a stream, with more written. The byte is sent, and then a STREAM_DATA_BLOCKED.
fn raise<T: Target>(play: &mut Play<T>, index: u64, maximum: u64) {
    play.send(Frame::MaxStreamData {
        stream: own(Dir::Uni, index),
        maximum,
    });
    play.drain();
}

/// The second stream was blocked at many limits one after the other, and the peer acknowledges nothing.
pub fn blocked_often<T: Target>(play: &mut Play<T>, limits: u64) {
    for written in [1000, limits as usize + 2] {
        let stream = play.end.open(Dir::Uni);
        play.end.write(stream, &vec![b'x'; written]);
    }
    play.drain();
    (0..limits).for_each(|limit| raise(play, 1, limit + 2));
}

/// Then the first one is blocked.
pub fn blocked_below<T: Target>(play: &mut Play<T>, _limits: u64, step: u64) {
    raise(play, 0, step + 2);
}

pub fn sending<T: Target>(play: &mut Play<T>, streams: u64) {
    writers(play, streams);
}

/// Each stream is stopped, from the last one down, and the endpoint sends its RESET_STREAM.
pub fn stop_downwards<T: Target>(play: &mut Play<T>, streams: u64, step: u64) {
    play.send(Frame::StopSending {
        stream: own(Dir::Uni, streams - 1 - step),
        code: step,
    });
    play.make();
}

/// Many streams have nothing to send, and a lower one is blocked.
pub fn one_blocked<T: Target>(play: &mut Play<T>, streams: u64) {
    let blocked = play.end.open(Dir::Uni);
    for _ in 0..streams {
        let stream = play.end.open(Dir::Uni);
        play.end.write(stream, &[b'x'; 10]);
    }
    play.drain();
    play.ack_all();
    play.end.write(blocked, &[b'x'; 11]);
    play.make();
}

/// The next hundred are stopped. Their resets don't fit a packet, so the STREAM_DATA_BLOCKED of the lower stream waits.
pub fn stop_hundred<T: Target>(play: &mut Play<T>, _streams: u64, step: u64) {
    for index in 100 * step..100 * (step + 1) {
        play.put(Frame::StopSending {
            stream: own(Dir::Uni, index + 1),
            code: 0,
        });
    }
    play.deliver();
    play.make_in(400);
}

/// One payload stops a stream many times, each time with another code.
pub fn stop_again<T: Target>(play: &mut Play<T>, frames: u64, step: u64) {
    for code in frames * step..frames * (step + 1) {
        play.put(Frame::StopSending {
            stream: own(Dir::Uni, 0),
            code,
        });
    }
    play.deliver();
}

pub fn one_sending<T: Target>(play: &mut Play<T>, _frames: u64) {
    writers(play, 1);
}

/// All packets are acknowledged but the first one.
pub fn all_but_first<T: Target>(play: &mut Play<T>, count: u64) {
    packets(play, count);
    play.put_ack(1, count - 1);
    play.deliver();
}

/// One more packet is made and acknowledged.
pub fn next_packet<T: Target>(play: &mut Play<T>, _count: u64, _step: u64) {
    play.end.write(own(Dir::Uni, 0), b"x");
    let number = play.make().expect("a byte is due");
    play.put_ack(number, number);
    play.deliver();
}

/// All packets are acknowledged but the first and the last one.
pub fn all_between<T: Target>(play: &mut Play<T>, count: u64) {
    packets(play, count);
    play.put_ack(1, count - 2);
    play.deliver();
}

/// That ACK arrives again, a hundred times in one payload.
pub fn ack_again<T: Target>(play: &mut Play<T>, count: u64, _step: u64) {
    for _ in 0..100 {
        play.put_ack(1, count - 2);
    }
    play.deliver();
}
