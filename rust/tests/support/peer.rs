//! A server whose peer is the test: payloads of chosen frames go in, and what it makes is acknowledged by the next one.
#![allow(dead_code)]

use gotsavena::{
    Dir, Endpoint, Frame, PeerLimits, ReceiveFault, Received, Role, Settings, StreamId, put,
    write_varint,
};

pub struct Driven {
    pub end: Endpoint,
    number: u64,
    made: u64,
    bytes: Vec<u8>,
}

/// What a peer grants that holds nothing back.
pub fn wide_limits() -> PeerLimits {
    Settings::default()
        .conn_window(1 << 40)
        .stream_windows(1 << 30)
        .streams(1 << 17, 1 << 21)
        .limits()
}

/// A byte of a stream.
pub fn byte(stream: StreamId, offset: u64) -> Frame<'static> {
    Frame::Stream {
        stream,
        offset,
        fin: false,
        bytes: b"x",
    }
}

impl Driven {
    pub fn new(settings: Settings, peer: PeerLimits) -> Driven {
        Driven {
            end: Endpoint::new(Role::Server, settings, peer).expect("in range"),
            number: 0,
            made: 0,
            bytes: vec![0; 1 << 16],
        }
    }

    /// How many bytes of the heap are the test's.
    pub fn buffer(&self) -> u64 {
        self.bytes.capacity() as u64
    }

    /// A payload comes, which acknowledges all that was made.
    pub fn try_take(&mut self, frames: &[Frame<'_>]) -> Result<Received, ReceiveFault> {
        let mut len = 0;
        if let Some(largest) = self.made.checked_sub(1) {
            len = put_ack(0, largest, &mut self.bytes);
        }
        for frame in frames {
            len += put(frame, &mut self.bytes[len..]).expect("it fits");
        }
        self.number += 1;
        self.end.receive(self.number - 1, &self.bytes[..len])
    }

    pub fn take(&mut self, frames: &[Frame<'_>]) {
        assert_eq!(self.try_take(frames), Ok(Received::Done));
    }

    /// A payload comes that acknowledges what was made from this number on.
    pub fn take_acks_from(&mut self, first: u64) {
        let len = put_ack(first, self.made - 1, &mut self.bytes);
        let taken = self.end.receive(self.number, &self.bytes[..len]);
        assert_eq!(taken, Ok(Received::Done));
        self.number += 1;
    }

    /// The same of many frames, by a hundred.
    pub fn take_all<'a>(&mut self, frames: impl Iterator<Item = Frame<'a>>) {
        let frames: Vec<Frame<'a>> = frames.collect();
        frames.chunks(100).for_each(|some| self.take(some));
    }

    /// A packet in a room of so many bytes: its number.
    pub fn make(&mut self, room: usize) -> Option<u64> {
        let made = self.end.make_packet(&mut self.bytes[..room]);
        let number = made.expect("memory")?.number;
        self.made = number + 1;
        Some(number)
    }

    /// All that is pending goes out: the numbers of the packets.
    pub fn send(&mut self) -> Vec<u64> {
        std::iter::from_fn(|| self.make(1200)).collect()
    }

    /// All that was sent is acknowledged.
    pub fn acknowledge(&mut self) {
        self.send();
        self.take(&[Frame::Ping]);
        self.send();
    }

    /// The numbers up to the present one are skipped, so that the next payload comes behind a gap.
    pub fn skip_number(&mut self) {
        self.number += 1;
    }

    pub fn theirs(&self, dir: Dir, index: u64) -> StreamId {
        StreamId::from_parts(Role::Client, dir, index).expect("below 2^62")
    }

    /// The peer's stream of this index opens, and all below it.
    pub fn open(&mut self, dir: Dir, index: u64) -> StreamId {
        let stream = self.theirs(dir, index);
        self.take(&[Frame::Stream {
            stream,
            offset: 0,
            fin: false,
            bytes: b"",
        }]);
        stream
    }
}

/// An ACK of the numbers from one to another.
fn put_ack(first: u64, largest: u64, out: &mut [u8]) -> usize {
    let mut spelled = [0; 8];
    let len = write_varint(largest - first, &mut spelled).expect("below 2^62");
    let frame = Frame::Ack {
        largest,
        delay: 0,
        ranges: &spelled[..len],
        ecn: None,
    };
    put(&frame, out).expect("it fits")
}
