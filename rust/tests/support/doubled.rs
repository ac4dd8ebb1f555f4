//! An end beside its double, what a run by frames knows of a stream, and what it asks to be filled in.

use gotsavena::{
    Dir, Endpoint, Fill, Filled, Frame, Read, Role, Settings, StreamId, Taken, Token, frames,
};
use std::fmt::Debug;

/// What a slice holds before it is filled.
pub const UNTOUCHED: u8 = 0xee;

/// An end, and its double, which isn't told what is to change nothing: frames that come again, frames of other kinds, and tokens of
/// packets that are done. Whatever else is called, both answer the same to the byte.
pub struct Doubled {
    pub end: Endpoint,
    pub double: Endpoint,
}

impl Doubled {
    pub fn new(role: Role, own: Settings, peer: Settings) -> Doubled {
        let end = || Endpoint::new(role, own, peer.limits()).expect("the settings fit");
        Doubled {
            end: end(),
            double: end(),
        }
    }

    pub fn both<T: PartialEq + Debug>(&mut self, call: impl Fn(&mut Endpoint) -> T) -> T {
        let answer = call(&mut self.end);
        assert_eq!(answer, call(&mut self.double), "the end and its double");
        answer
    }

    /// A call that changes nothing.
    pub fn idle<T: PartialEq + Debug>(
        &mut self,
        streams: &[StreamId],
        call: impl FnOnce(&mut Endpoint) -> T,
    ) -> T {
        let answer = call(&mut self.end);
        self.compare(streams);
        answer
    }

    /// A frame is handed in. The double isn't handed one that is said to change nothing.
    pub fn take(&mut self, frame: &Frame<'_>) {
        let taken = self.end.take_frame(frame).expect("open, and lawful");
        assert_ne!(taken, Taken::NotOurs, "{frame:?}");
        if taken == Taken::Took {
            assert_eq!(self.double.take_frame(frame), Ok(taken), "the double");
        }
    }

    pub fn compare(&self, streams: &[StreamId]) {
        let (end, double) = (&self.end, &self.double);
        assert_eq!(facts(end), facts(double), "nothing was to change");
        for &stream in streams {
            assert_eq!(facts_of(end, stream), facts_of(double, stream), "{stream}");
        }
    }
}

/// What an end tells of itself.
pub fn facts(end: &Endpoint) -> [u64; 11] {
    [
        end.stored(),
        end.granted(),
        end.spent(),
        end.credit_left(),
        end.granted_streams(Dir::Bidi),
        end.granted_streams(Dir::Uni),
        end.open_left(Dir::Bidi),
        end.open_left(Dir::Uni),
        end.next_number(),
        u64::from(end.ack_is_due()),
        u64::from(end.is_sendable()),
    ]
}

/// What it tells of a stream.
pub fn facts_of(end: &Endpoint, stream: StreamId) -> impl PartialEq + Debug {
    let half = (end.room(stream), end.unsent(stream));
    let told = (end.acked_below(stream), end.stopped_with(stream));
    (end.report(stream), half, told, end.is_blocked(stream))
}

/// Some offsets of a stream.
#[derive(Default)]
pub struct Offsets {
    pub bits: Vec<bool>,
    /// All below are among them.
    pub low: usize,
}

impl Offsets {
    pub fn put(&mut self, from: usize, to: usize) {
        if self.bits.len() < to {
            self.bits.resize(to, false);
        }
        self.bits[from..to].fill(true);
        while self.bits.get(self.low) == Some(&true) {
            self.low += 1;
        }
    }

    pub fn has_of(&self, from: usize, to: usize) -> bool {
        let to = to.min(self.bits.len());
        from < to && self.bits[from..to].contains(&true)
    }
}

/// What one end wrote to a stream, what of it came at the other one and is acknowledged by offset, and what the other one read.
#[derive(Default)]
pub struct Lane {
    pub written: Vec<u8>,
    pub came: Offsets,
    pub acked: Offsets,
    /// One more than the greatest offset that came, or the final size.
    pub highest: u64,
    pub read: usize,
    pub finished: bool,
    pub reset: Option<u64>,
    pub stopped: Option<u64>,
    pub told: Option<Read>,
}

impl Lane {
    pub fn is_broken(&self) -> bool {
        self.reset.is_some() || self.stopped.is_some()
    }
}

#[derive(Clone, Copy, PartialEq)]
pub enum Fate {
    UnderWay,
    Lost,
    Acked,
}

/// A packet: of several fills, or of a payload that was made.
pub struct Packet {
    pub tokens: Vec<Token>,
    pub text: Vec<u8>,
    /// Which of its frames the peer took.
    pub taken: Vec<bool>,
    pub fate: Fate,
}

impl Packet {
    pub fn new(Draft { tokens, text }: Draft) -> Packet {
        let taken = vec![false; all_frames(&text).len()];
        Packet {
            tokens,
            text,
            taken,
            fate: Fate::UnderWay,
        }
    }

    pub fn is_taken(&self) -> bool {
        self.taken.iter().all(|&taken| taken)
    }
}

/// A packet in the making.
#[derive(Default)]
pub struct Draft {
    pub tokens: Vec<Token>,
    pub text: Vec<u8>,
}

pub fn all_frames(text: &[u8]) -> Vec<Frame<'_>> {
    let placed = frames(text).map(|placed| placed.expect("a frame"));
    placed.map(|placed| placed.frame).collect()
}

/// Whether a frame is of streams or of flow control (RFC 9000, sections 19.4, 19.5 and 19.8 to 19.14).
pub fn is_ours(frame: &Frame<'_>) -> bool {
    matches!(frame, Frame::Stream { .. }) || is_item(frame)
}

pub fn is_item(frame: &Frame<'_>) -> bool {
    matches!(
        frame,
        Frame::ResetStream { .. }
            | Frame::StopSending { .. }
            | Frame::MaxData { .. }
            | Frame::MaxStreamData { .. }
            | Frame::MaxStreams { .. }
            | Frame::DataBlocked { .. }
            | Frame::StreamDataBlocked { .. }
            | Frame::StreamsBlocked { .. }
    )
}

/// The stack's own frames, which a payload may hold, too.
pub const OWN: [Frame<'static>; 4] = [
    Frame::Ping,
    Frame::Padding,
    Frame::Crypto {
        offset: 7,
        bytes: b"hello",
    },
    Frame::PathChallenge { bytes: b"12345678" },
];

/// Those that a payload may not hold, or that would do something there.
pub const STRANGE: [Frame<'static>; 8] = [
    Frame::Ack {
        largest: 3,
        delay: 0,
        ranges: &[3],
        ecn: None,
    },
    Frame::NewToken { bytes: b"token" },
    Frame::NewConnectionId {
        sequence: 1,
        retire: 0,
        identifier: b"name",
        reset_token: b"0123456789abcdef",
    },
    Frame::RetireConnectionId { sequence: 0 },
    Frame::PathResponse { bytes: b"12345678" },
    Frame::HandshakeDone,
    Frame::ConnectionClose {
        code: 1,
        frame_type: 0,
        reason: b"",
    },
    Frame::ApplicationClose {
        code: 2,
        reason: b"bye",
    },
];

/// What a fill is asked for.
#[derive(Clone, Copy, Debug)]
pub struct Want {
    pub items: bool,
    pub streams: bool,
    pub from: Option<StreamId>,
    pub only: Option<StreamId>,
}

impl Want {
    pub fn all() -> Want {
        Want {
            items: true,
            streams: true,
            from: None,
            only: None,
        }
    }

    pub fn fill(&self) -> Fill {
        let kinds = match (self.items, self.streams) {
            (true, true) => Fill::all(),
            (true, false) => Fill::control(),
            _ => Fill::data(),
        };
        match (self.from, self.only) {
            (_, Some(stream)) => kinds.only(stream),
            (Some(stream), None) => kinds.from(stream),
            (None, None) => kinds,
        }
    }

    pub fn has(&self, stream: StreamId) -> bool {
        self.streams && self.only.is_none_or(|only| only == stream)
    }
}

pub fn fill_one(end: &mut Endpoint, want: &Want, room: usize) -> Option<(Filled, Vec<u8>)> {
    let mut out = vec![UNTOUCHED; room];
    let filled = end.fill(&mut out, &want.fill()).expect("open");
    let len = filled.map_or(0, |filled| filled.len);
    let behind = out.split_off(len);
    assert!(behind.iter().all(|&byte| byte == UNTOUCHED), "bytes behind");
    filled.map(|filled| (filled, out))
}
