//! Works that show growth: with the window, with packets in flight, with streams that are over, and with streams that wait.

use crate::counted::turns_of;
use crate::counting::{counted_late, gotsavena_counted};
use crate::ends::{Load, PLAIN};
use crate::pattern::Source;
use crate::requests::{Manner, Past, Requests};
use gotsavena::{Dir, Endpoint, Fill, Read, Role, Settings, StreamId};
use std::hint::black_box;

/// Packets arrive shuffled in groups of this many.
const BLOCK: usize = 64;

/// How many packets arrive before an ACK is sent.
const ACK_EACH: usize = 10;

const ROOM: usize = 1200;

/// Two endpoints, a stream, and the packets in flight.
struct Lossy {
    sender: Endpoint,
    reader: Endpoint,
    stream: StreamId,
    source: Source,
    given: u64,
    packets: Vec<(u64, usize, Vec<u8>)>,
    out: Vec<u8>,
    made: u64,
    random: u64,
}

impl Lossy {
    fn new(window: u64) -> Lossy {
        let settings = Settings::small()
            .conn_window(window)
            .stream_windows(window)
            .send_buffer(window as usize)
            .streams(8, 8);
        let end = |role| {
            Endpoint::new(role, settings, settings.limits()).expect("the settings are in range")
        };
        let mut sender = end(Role::Client);
        Lossy {
            stream: sender.open(Dir::Uni).expect("the peer grants some"),
            sender,
            reader: end(Role::Server),
            source: Source::new(16 << 10),
            given: 0,
            packets: Vec::new(),
            out: vec![0; 64 << 10],
            made: 0,
            random: 1,
        }
    }

    /// Makes this many packets before the first one arrives. A tenth is lost, the others arrive shuffled.
    fn turn(&mut self, under_way: usize) {
        self.make(under_way);
        let mut packets = std::mem::take(&mut self.packets);
        packets
            .chunks_mut(BLOCK)
            .for_each(|block| self.shuffle(block));
        let (mut lost, mut came) = (Vec::new(), 0);
        for (number, len, payload) in &packets {
            if number % 10 == 0 {
                lost.push(*number);
                continue;
            }
            let taken = self.reader.receive(*number, &payload[..*len]);
            _ = taken.expect("an honest packet");
            self.read();
            came += 1;
            if came % ACK_EACH == 0 {
                self.answer();
            }
        }
        self.answer();
        for number in lost {
            let _ = self.sender.declare_lost(number);
        }
        self.packets = packets;
    }

    fn make(&mut self, under_way: usize) {
        self.packets
            .resize_with(under_way, || (0, 0, vec![0; ROOM]));
        let mut count = 0;
        while count < under_way {
            while let Ok(some @ 1..) = self.sender.write(self.stream, self.source.at(self.given)) {
                self.given += some as u64;
            }
            let (number, len, payload) = &mut self.packets[count];
            let Ok(Some(made)) = self.sender.make_packet(payload) else {
                break;
            };
            (*number, *len) = (made.number, made.len);
            count += 1;
        }
        self.packets.truncate(count);
        self.made += count as u64;
    }

    // The constants of Knuth's MMIX generator, so that each run is the same.
    fn shuffle<T>(&mut self, block: &mut [T]) {
        for at in (1..block.len()).rev() {
            self.random = self
                .random
                .wrapping_mul(6_364_136_223_846_793_005)
                .wrapping_add(1_442_695_040_888_963_407);
            block.swap(at, (self.random >> 33) as usize % (at + 1));
        }
    }

    fn read(&mut self) {
        while self.reader.accept().is_some() {}
        while let Ok(Read::Bytes(some)) = self.reader.read(self.stream, &mut self.out) {
            black_box(&self.out[..some]);
        }
    }

    fn answer(&mut self) {
        let mut payload = [0; ROOM];
        if let Ok(Some(made)) = self.reader.make_packet(&mut payload) {
            let taken = self.sender.receive(made.number, &payload[..made.len]);
            _ = taken.expect("an honest packet");
        }
    }
}

/// Packets on a stream with this window, this many in flight, a tenth lost and the others shuffled.
pub fn lossy(window: u64, under_way: usize, turns: u64) -> u64 {
    let mut ends = Lossy::new(window);
    for _ in 0..turns {
        ends.turn(under_way);
    }
    let before = ends.made;
    gotsavena_counted(&mut || {
        for _ in 0..turns {
            ends.turn(under_way);
        }
    });
    ends.made - before
}

/// Packets of 128 bytes on 16 streams, this many in flight.
pub fn outstanding(packets: usize, turns: u64) -> u64 {
    let load = Load {
        active: 16,
        open: 16,
        write: 1200,
        burst: packets,
        room: 128,
        fill: packets * 128 + (256 << 10),
        ..PLAIN
    };
    turns_of(load, turns, turns)
}

/// Requests on a connection that had this many before.
pub fn requests(ended: u64) -> u64 {
    let units = 64;
    let mut requests = Requests::new(Manner::Packets, ended + 1000);
    for _ in 0..ended {
        requests.play();
    }
    counted_late(&mut || {
        for _ in 0..units {
            requests.play();
        }
    });
    units
}

/// The past of works of events: many requests, or as few as fit in the tables' first room.
pub const LONG_PAST: u64 = (1 << 18) + 100;
pub const SHORT_PAST: u64 = 1 << 10;

// Two endpoints that are asked for events after each packet, after so many requests of which none waits to be told.
fn with_past(past: Past, ended: u64) -> Requests {
    let mut requests = Requests::new(Manner::Events, ended + 1000);
    requests.play_past(past, ended);
    requests
}

/// Requests with events, after so many with this past.
pub fn events_after(past: Past, ended: u64) -> u64 {
    let units = 64;
    let mut requests = with_past(past, ended);
    counted_late(&mut || {
        for _ in 0..units {
            requests.play();
        }
    });
    units
}

/// The question for an event where there is none, after so many requests with this past.
pub fn none_after(past: Past, ended: u64) -> u64 {
    let turns = 32;
    let mut requests = with_past(past, ended);
    counted_late(&mut || {
        for _ in 0..turns {
            requests.ask_in_vain();
        }
    });
    turns * 2
}

/// Packets are filled while this many streams have pending bytes.
pub fn fills(streams: u64) -> u64 {
    let settings = Settings::small()
        .conn_window(16 << 20)
        .stream_windows(1024)
        .send_buffer(1024)
        .streams(streams, streams);
    let mut end = Endpoint::new(Role::Client, settings, settings.limits()).expect("in range");
    for _ in 0..streams {
        let stream = end.open(Dir::Uni).expect("the peer grants as many");
        assert_eq!(end.write(stream, &[7; 200]), Ok(200));
    }
    let mut payload = [0; ROOM];
    let units = 16;
    gotsavena_counted(&mut || {
        for _ in 0..units {
            let filled = end.fill(&mut payload, &Fill::all());
            _ = black_box(filled.expect("there is memory").expect("bytes are due"));
        }
    });
    units
}
