//! What an end keeps of streams, in bytes that its calls took and haven't given back.

#[path = "support/counting.rs"]
mod counting;

use counting::LIVE;
use gotsavena::{Dir, Endpoint, Read, Received, Role, Settings, StreamId};

fn live() -> usize {
    LIVE.get() as usize
}

const REQUEST: usize = 1;
const ANSWER: usize = 200 * 1024;

struct Two {
    client: Endpoint,
    server: Endpoint,
}

impl Two {
    fn new(settings: Settings) -> Self {
        let end =
            |role| Endpoint::new(role, settings, settings.limits()).expect("the settings fit");
        Two {
            client: end(Role::Client),
            server: end(Role::Server),
        }
    }

    /// Packets go to and fro until none is due.
    fn settle(&mut self) {
        loop {
            let there = carry(&mut self.client, &mut self.server);
            let back = carry(&mut self.server, &mut self.client);
            if there + back == 0 {
                return;
            }
        }
    }

    /// A request, and an answer to it that is read to its end.
    fn exchange(&mut self) {
        let (mut bytes, mut read) = ([0; 16 * 1024], 0);
        let stream = self.client.open(Dir::Bidi).expect("a stream");
        send(&mut self.client, stream, &[7; REQUEST]);
        self.settle();
        assert_eq!(self.server.accept(), Some(stream));
        assert_eq!(
            self.server.read(stream, &mut bytes),
            Ok(Read::Bytes(REQUEST))
        );
        assert_eq!(self.server.read(stream, &mut bytes), Ok(Read::End));
        send(&mut self.server, stream, &[9; ANSWER]);
        self.settle();
        loop {
            match self
                .client
                .read(stream, &mut bytes)
                .expect("a stream that is open")
            {
                Read::Bytes(count) => read += count,
                Read::End => break,
                other => panic!("{other:?}"),
            }
        }
        assert_eq!(read, ANSWER);
        self.settle();
    }
}

/// Each packet that is due arrives; answers how many there were.
fn carry(from: &mut Endpoint, to: &mut Endpoint) -> usize {
    let (mut payload, mut count) = ([0; 1200], 0);
    while let Some(made) = from.make_packet(&mut payload).expect("a packet") {
        let taken = to.receive(made.number, &payload[..made.len]);
        assert_eq!(taken, Ok(Received::Done));
        count += 1;
    }
    count
}

fn send(end: &mut Endpoint, stream: StreamId, bytes: &[u8]) {
    assert_eq!(end.write(stream, bytes), Ok(bytes.len()));
    end.finish(stream).expect("a stream that is open");
}

/// Ends whose streams have the widest windows, and room for 8 of them at once.
fn wide() -> Two {
    let settings = Settings::small()
        .conn_window(1 << 20)
        .stream_windows(1 << 20)
        .send_buffer(1 << 20)
        .streams(STREAMS as u64, 1000);
    Two::new(settings)
}

const STREAMS: usize = 8;

/// A stream that is over keeps at most 1,280 bytes at both ends together, whatever its windows are and whatever it carried.
fn streams_that_are_over_keep_no_buffers() {
    let mut two = wide();
    two.exchange();
    let (before, streams) = (live(), 500);
    for _ in 0..streams {
        two.exchange();
    }
    let grown = live().saturating_sub(before);
    assert!(
        grown < streams * 1280,
        "{grown} bytes for {streams} streams"
    );
}

/// A byte takes 64 bytes, and at most 512 for what is noted of it at both ends, however wide its stream's window is.
fn a_byte_takes_no_window() {
    let mut two = wide();
    let streams: Vec<_> = (0..STREAMS)
        .map(|_| two.client.open(Dir::Bidi).expect("a stream"))
        .collect();
    // The frame of the last one opens them all.
    let (last, others) = streams.split_last().expect("some streams");
    assert_eq!(two.client.write(*last, &[7]), Ok(1));
    two.settle();
    let before = live();
    for stream in others {
        assert_eq!(two.client.write(*stream, &[7]), Ok(1));
        two.settle();
    }
    let grown = live().saturating_sub(before);
    assert!(
        grown <= others.len() * (64 + 512),
        "{grown} bytes for {} of a peer",
        others.len()
    );
}

/// A ring that grew keeps the bytes in it, and goes once all are read.
fn a_ring_follows_its_span() {
    let mut two = wide();
    let stream = two.client.open(Dir::Bidi).expect("a stream");
    let sent: Vec<u8> = (0..300_000u32).map(|n| (n % 251) as u8).collect();
    let (mut read, mut bytes) = (Vec::with_capacity(sent.len()), [0; 7000]);
    for piece in sent.chunks(60_000) {
        assert_eq!(two.client.write(stream, piece), Ok(piece.len()));
        two.settle();
        // Some are left each time, so that the ring goes round.
        for _ in 0..6 {
            let Read::Bytes(count) = two.server.read(stream, &mut bytes).expect("a stream") else {
                panic!("bytes are there");
            };
            read.extend_from_slice(&bytes[..count]);
        }
        two.settle();
    }
    let before = live();
    while let Read::Bytes(count) = two.server.read(stream, &mut bytes).expect("a stream") {
        read.extend_from_slice(&bytes[..count]);
    }
    assert_eq!(read, sent);
    assert!(live() + (1 << 16) <= before, "a ring stays");
}

/// Of 400,000 bytes that came 10,000 aren't read: the ring, which held them all, is of four times as many at most.
fn a_ring_shrinks_as_it_is_read() {
    let mut two = wide();
    let stream = two.client.open(Dir::Bidi).expect("a stream");
    let sent: Vec<u8> = (0..400_000u32).map(|n| (n % 251) as u8).collect();
    assert_eq!(two.client.write(stream, &sent), Ok(sent.len()));
    two.settle();
    let (mut read, mut bytes) = (Vec::with_capacity(sent.len()), [0; 1300]);
    let before = live();
    while read.len() < 390_000 {
        let Read::Bytes(count) = two.server.read(stream, &mut bytes).expect("a stream") else {
            panic!("bytes are there");
        };
        read.extend_from_slice(&bytes[..count]);
    }
    assert!(live() + 400_000 <= before + 4 * 10_000, "a wide ring stays");
    while let Read::Bytes(count) = two.server.read(stream, &mut bytes).expect("a stream") {
        read.extend_from_slice(&bytes[..count]);
    }
    assert_eq!(read, sent);
}

/// What an end tells that it holds is what its calls took, beside what is noted of a stream: nothing at first, 64 bytes for
/// a byte, and nothing once the stream was read to its end and all is acknowledged, or as the stream is reset.
fn what_is_held_is_told() {
    const NOTED: u64 = 1024;
    let mut two = wide();
    let nothing = two.client.held();
    assert_eq!((nothing.receiving, nothing.sending), (0, 0));
    assert_eq!(two.server.held(), nothing);
    let stream = two.client.open(Dir::Bidi).expect("a stream");
    assert_eq!(two.client.write(stream, &[7]), Ok(1));
    two.settle();
    assert_eq!(two.server.held().receiving, 64);
    assert!(two.client.held().sending <= 4096);

    let (before, told) = (live() as u64, two.client.held().sending);
    assert_eq!(two.client.write(stream, &[8; ANSWER]), Ok(ANSWER));
    let (grown, sending) = (live() as u64 - before, two.client.held().sending);
    assert!(ANSWER as u64 <= sending && sending <= 2 << 20);
    assert!(sending - told <= grown && grown <= sending - told + NOTED);

    two.client.finish(stream).expect("a stream that is open");
    two.settle();
    let before = live() as u64;
    let receiving = two.server.held().receiving;
    assert!(two.server.stored() <= receiving);
    assert!(receiving <= 4 * two.server.spent() + 4096);
    let mut bytes = [0; 4096];
    while let Read::Bytes(_) = two.server.read(stream, &mut bytes).expect("a stream") {}
    assert_eq!(two.server.held().receiving, 0);
    let given = before - live() as u64;
    assert!(receiving <= given && given <= receiving + NOTED);
    two.settle();
    assert_eq!((two.client.held(), two.server.held()), (nothing, nothing));

    let stream = two.client.open(Dir::Bidi).expect("a stream");
    let before = live() as u64;
    assert_eq!(two.client.write(stream, &[9; ANSWER]), Ok(ANSWER));
    two.client.reset(stream, 7).expect("a stream that is open");
    assert_eq!(two.client.held(), nothing);
    assert!(live() as u64 <= before + NOTED);
}

/// From its second byte on a stream's buffer is all that a write takes, if it isn't cut short: what `held` tells then moves as the allocator's
/// count does, and stays within the size of the send buffer.
fn a_write_takes_what_held_tells() {
    for size in [1000, 5000, 100_000, 262_144] {
        let settings = Settings::small().send_buffer(size);
        let end = || Endpoint::new(Role::Client, settings, settings.limits());
        let mut client = end().expect("the settings fit");
        let stream = client.open(Dir::Bidi).expect("a stream");
        assert_eq!(client.write(stream, &[7]), Ok(1));
        assert!(client.held().sending <= 64, "a byte takes no whole buffer");
        for len in [1, 63, 500, 4000, 40_000, size] {
            let bytes = vec![9; len.min(client.room(stream) as usize)];
            let (before, told) = (live() as u64, client.held().sending);
            assert_eq!(client.write(stream, &bytes), Ok(bytes.len()));
            let (grown, sending) = (live() as u64 - before, client.held().sending);
            assert_eq!(grown, sending - told, "{len} bytes of {size}");
            assert!(client.kept_sum() <= sending && sending <= size as u64);
        }
        assert_eq!(client.held().sending, size as u64);
    }
}

#[test]
fn what_streams_hold() {
    what_is_held_is_told();
    a_write_takes_what_held_tells();
    streams_that_are_over_keep_no_buffers();
    a_byte_takes_no_window();
    a_ring_follows_its_span();
    a_ring_shrinks_as_it_is_read();
}

// The figures that README.md and docs/LIMITS.md quote.
#[test]
fn an_end_without_streams_takes_its_own_value() {
    println!("figure idle_bytes {}", size_of::<Endpoint>());
    let left = [1200, 16_383].map(ping);
    assert_eq!(left[0], left[1]);
    println!("figure ping_bytes {}", left[0]);
}

/// What a PING leaves of the heap, with the packet that answers it in this room.
fn ping(room: usize) -> usize {
    const PING: u8 = 0x01;
    let mut payload = vec![0; room];
    let before = live();
    let mut end = Two::new(Settings::default()).server;
    assert_eq!(live(), before);
    assert_eq!(end.receive(0, &[PING]), Ok(Received::Done));
    let made = end.make_packet(&mut payload).expect("memory");
    assert!(made.is_some());
    live() - before
}
