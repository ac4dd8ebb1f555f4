//! What a stream that is over leaves, as docs/LIMITS.md has it: each figure is an upper bound.

#[path = "support/counting.rs"]
mod counting;
#[path = "support/limits.rs"]
mod limits;
#[path = "support/peer.rs"]
mod peer;

use counting::LIVE;
use gotsavena::{Dir, Frame, Read, Settings, StreamId};
use limits::{MANY, holds, says, taken};
use peer::{Driven, wide_limits};

/// How the sending half of a stream ends here.
#[derive(Clone, Copy, PartialEq)]
enum Sent {
    Finished,
    Reset,
    StoppedUnwritten,
    Stopped,
}

/// How its receiving half does.
#[derive(Clone, Copy, PartialEq)]
enum Came {
    Whole,
    Reset,
    StoppedThenReset,
    Discarded,
}

#[derive(Clone, Copy)]
struct Way {
    sent: Sent,
    came: Came,
    rose: bool,
    blocked: bool,
}

const PLAIN: Way = Way {
    sent: Sent::Finished,
    came: Came::Whole,
    rose: false,
    blocked: false,
};

/// More than half of a window, so that the limit rises once it was read; and how far the peer lets a stream be sent at first.
const RISE: usize = 600;
const CREDIT: u64 = 10;

impl Way {
    /// These streams, which the peer opened, end so.
    fn end(self, driven: &mut Driven, streams: &[StreamId]) {
        let each = |frame: fn(StreamId) -> Frame<'static>| streams.iter().map(move |s| frame(*s));
        if self.rose {
            driven.take_all(each(|stream| chunk(stream, 0, false, &[7; RISE])));
            for stream in streams {
                let read = driven.end.read(*stream, &mut [0; RISE]);
                assert_eq!(read, Ok(Read::Bytes(RISE)));
            }
            driven.send();
        }
        self.end_sending(driven, streams);
        match self.came {
            Came::StoppedThenReset => {
                for stream in streams {
                    driven.end.stop(*stream, 7).expect("it is open");
                }
                driven.send();
                driven.take_all(each(reset));
            }
            Came::Reset => driven.take_all(each(reset)),
            Came::Whole | Came::Discarded if self.rose => {
                driven.take_all(each(|stream| chunk(stream, RISE as u64, true, b"")));
            }
            Came::Whole | Came::Discarded => driven.take_all(each(|s| chunk(s, 0, true, b"x"))),
        }
        for stream in streams {
            if self.came == Came::Discarded {
                driven.end.stop_and_discard(*stream, 7).expect("it is open");
            } else {
                while let Ok(Read::Bytes(_)) = driven.end.read(*stream, &mut [0; 16]) {}
            }
        }
        driven.acknowledge();
        let over = |stream: &StreamId| driven.end.next_ended(*stream) == Some(*stream);
        assert!(streams.iter().all(over));
    }

    fn end_sending(self, driven: &mut Driven, streams: &[StreamId]) {
        let len = if self.blocked { 2 * CREDIT as usize } else { 1 };
        for stream in streams {
            if self.sent != Sent::StoppedUnwritten {
                assert_eq!(driven.end.write(*stream, &[7; 20][..len]), Ok(len));
            }
            if self.sent == Sent::Finished {
                driven.end.finish(*stream).expect("it is open");
            }
        }
        if self.blocked {
            driven.send();
        }
        for stream in streams {
            match self.sent {
                Sent::Finished if self.blocked => driven.take(&[Frame::MaxStreamData {
                    stream: *stream,
                    maximum: 1000,
                }]),
                Sent::Finished => {}
                Sent::Reset => driven.end.reset(*stream, 7).expect("it is open"),
                Sent::StoppedUnwritten | Sent::Stopped => driven.take(&[Frame::StopSending {
                    stream: *stream,
                    code: 7,
                }]),
            }
        }
        driven.acknowledge();
    }
}

fn chunk(stream: StreamId, offset: u64, fin: bool, bytes: &'static [u8]) -> Frame<'static> {
    Frame::Stream {
        stream,
        offset,
        fin,
        bytes,
    }
}

fn reset(stream: StreamId) -> Frame<'static> {
    Frame::ResetStream {
        stream,
        code: 7,
        final_size: 1000,
    }
}

/// What is left of so many bidirectional streams that ended so, a hundred at a time.
fn left(way: Way, count: u64, has_events: bool) -> u64 {
    let settings = Settings::default().stream_windows(1024);
    let peer = settings
        .stream_windows(CREDIT)
        .conn_window(1 << 40)
        .limits();
    let (bytes, _) = taken(|| {
        let mut driven = Driven::new(settings, peer);
        for first in (0..count).step_by(50) {
            let indexes = first..count.min(first + 50);
            driven.open(Dir::Bidi, indexes.end - 1);
            let streams: Vec<_> = indexes.map(|i| driven.theirs(Dir::Bidi, i)).collect();
            way.end(&mut driven, &streams);
            while has_events && driven.end.next_event().expect("memory").is_some() {}
        }
        driven
    });
    bytes
}

/// At a power of two, and just past one.
fn leaves(way: Way, at: u64, past: u64) {
    holds("left", left(way, MANY, false), MANY, at);
    holds("left just past", left(way, MANY + 4, false), MANY + 4, past);
}

#[test]
fn streams_that_ended() {
    says("keeps 53 bytes if both directions ended plainly, and 105 just past a power of two");
    leaves(PLAIN, 53, 105);
    says("| its receive limit rose once, or more often | 16 | 32 |");
    let rose = Way {
        rose: true,
        ..PLAIN
    };
    leaves(rose, 53 + 16, 105 + 32);
    says("| its sender was blocked once, or more often | 16 | 32 |");
    let blocked = Way {
        blocked: true,
        ..PLAIN
    };
    leaves(blocked, 53 + 16, 105 + 32);
    says("| reset by the peer | 64 | 64 |");
    let came = |came| Way { came, ..PLAIN };
    leaves(came(Came::Reset), 53 + 64, 105 + 64);
    says("| stopped by its reader, then reset by the peer | 80 | 81 |");
    leaves(came(Came::StoppedThenReset), 53 + 80, 105 + 81);
    says("| stopped by `stop_and_discard` after all arrived | 248 | 248 |");
    leaves(came(Came::Discarded), 53 + 248, 105 + 248);
    says("| reset here, or stopped by the peer, before anything was written | 64 | 128 |");
    let sent = |sent| Way { sent, ..PLAIN };
    leaves(sent(Sent::StoppedUnwritten), 53 + 64, 105 + 128);
    says("| the same once something was written | 248 | 312 |");
    leaves(sent(Sent::Reset), 53 + 248, 105 + 312);
    leaves(sent(Sent::Stopped), 53 + 248, 105 + 312);
}

#[test]
fn the_most_that_a_stream_leaves() {
    says("Together that is at most 581, or 729 just past a power of two");
    says("a peer can make it 397, or 545, for 36 bytes of payloads");
    for (came, at, past) in [(Came::Discarded, 581, 729), (Came::Reset, 397, 545)] {
        let way = Way {
            sent: Sent::Stopped,
            came,
            rose: true,
            blocked: true,
        };
        leaves(way, at, past);
    }
    says("All 2^21 bidirectional streams: 111 MB if they end plainly, 1.2 GB at worst*");
    let of_all = |each: u64| each << 21;
    assert!(of_all(53) <= 111_200_000 && of_all(581) <= 1_220_000_000);
    // Just past a power of two each leaves more, but there are half as many of them.
    assert!(of_all(105) / 2 <= of_all(53) && of_all(729) / 2 <= of_all(581));
}

#[test]
fn events_take_memory() {
    says(
        "The first event, or write that is cut short, takes 3.7 KB, and up to six bits for each stream that had an event, twelve just past a power of two",
    );
    let mut driven = Driven::new(Settings::default(), wide_limits());
    let before = LIVE.get();
    assert_eq!(driven.end.next_event(), Ok(None));
    assert!(LIVE.get() - before <= 3700);
    for (count, bits) in [(MANY, 6), (MANY + 4, 12)] {
        let (with, without) = (left(PLAIN, count, true), left(PLAIN, count, false));
        assert!(with - without <= 3700 + count * bits / 8, "{count}");
    }
    let settings = Settings::default().send_buffer(64);
    let mut driven = Driven::new(settings, wide_limits());
    let stream = driven.end.open(Dir::Uni).expect("granted");
    assert_eq!(driven.end.write(stream, &[7; 64]), Ok(64));
    let before = LIVE.get();
    assert_eq!(driven.end.write(stream, b"x"), Ok(0));
    assert!(LIVE.get() - before <= 3720, "{}", LIVE.get() - before);
}
