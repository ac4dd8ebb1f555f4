// The works of bench/src/growth.rs, which show how work grows.
use std::hint::black_box;

use bytes::Bytes;

use super::super::streams::{RecvStream, SendStream};
use super::attacks::{counted_late, gotsavena_counted};
use super::counted::turns_of;
use super::ends::{End, Load, PLAIN};
use super::requests::{Manner, Requests, fill, streams_of};
use super::{pattern, place};
use crate::{Dir, Side, StreamId};

const BLOCK: usize = 64;
const ACK_EACH: usize = 10;
const ROOM: usize = 1200;
const WRITE: usize = 16 << 10;

struct Lossy {
    sender: End,
    reader: End,
    id: StreamId,
    source: Vec<u8>,
    given: u64,
    packets: Vec<(u64, Vec<u8>)>,
    out: Vec<u8>,
    made: u64,
    random: u64,
}

impl Lossy {
    fn new(window: u32) -> Self {
        let end = |side| End::with(side, 8, window.into(), window, window);
        let mut sender = end(Side::Client);
        Lossy {
            id: streams_of(&mut sender).open(Dir::Uni).unwrap(),
            sender,
            reader: end(Side::Server),
            source: pattern(WRITE),
            given: 0,
            packets: Vec::new(),
            out: vec![0; 64 << 10],
            made: 0,
            random: 1,
        }
    }

    fn turn(&mut self, under_way: usize) {
        while self.packets.len() < under_way {
            self.write();
            match self.sender.make(ROOM) {
                Some(packet) => self.packets.push(packet),
                None => break,
            }
        }
        self.made += self.packets.len() as u64;
        let mut packets = std::mem::take(&mut self.packets);
        for block in packets.chunks_mut(BLOCK) {
            self.shuffle(block);
        }
        let (mut lost, mut came) = (Vec::new(), 0);
        for (number, payload) in packets.drain(..) {
            if number % 10 == 0 {
                lost.push(number);
                continue;
            }
            self.reader.receive(number, Bytes::from(payload));
            self.read();
            came += 1;
            if came % ACK_EACH == 0 {
                self.answer();
            }
        }
        self.answer();
        for number in lost {
            self.sender.lose(number);
        }
        while self.sender.streams.poll().is_some() {}
        self.packets = packets;
    }

    fn write(&mut self) {
        let end = &mut self.sender;
        let mut stream = SendStream {
            id: self.id,
            state: &mut end.streams,
            pending: &mut end.pending,
            conn_state: &end.state,
        };
        loop {
            let from = place(self.given);
            match stream.write(&self.source[from..from + WRITE]) {
                Ok(some) if some > 0 => self.given += some as u64,
                _ => break,
            }
        }
    }

    fn shuffle<T>(&mut self, block: &mut [T]) {
        for at in (1..block.len()).rev() {
            self.random = self
                .random
                .wrapping_mul(6_364_136_223_846_793_005)
                .wrapping_add(1_442_695_040_888_963_407);
            block.swap(at, (self.random >> 33) as usize % (at + 1));
        }
    }

    fn read(&mut self) {
        let end = &mut self.reader;
        while end.streams.poll().is_some() {}
        while streams_of(end).accept(Dir::Uni).is_some() {}
        let mut stream = RecvStream {
            id: self.id,
            state: &mut end.streams,
            pending: &mut end.pending,
        };
        let mut chunks = match stream.read(true) {
            Ok(chunks) => chunks,
            Err(_) => return,
        };
        while let Ok(Some(chunk)) = chunks.next(self.out.len()) {
            self.out[..chunk.bytes.len()].copy_from_slice(&chunk.bytes);
            black_box(&self.out);
        }
        let _ = chunks.finalize();
    }

    fn answer(&mut self) {
        if let Some((number, payload)) = self.reader.make(ROOM) {
            self.sender.receive(number, Bytes::from(payload));
        }
    }
}

pub fn lossy(window: u32, under_way: usize, turns: u64) -> u64 {
    let mut ends = Lossy::new(window);
    for _ in 0..turns {
        ends.turn(under_way);
    }
    let before = ends.made;
    gotsavena_counted(&mut || {
        for _ in 0..turns {
            ends.turn(under_way);
        }
    });
    ends.made - before
}

pub fn outstanding(packets: usize, turns: u64) -> u64 {
    let load = Load {
        active: 16,
        open: 16,
        write: 1200,
        burst: packets,
        room: 128,
        fill: packets * 128 + (256 << 10),
        ..PLAIN
    };
    turns_of(load, turns, turns)
}

pub fn requests(ended: u64) -> u64 {
    let units = 64;
    let mut requests = Requests::new(Manner::Packets);
    for _ in 0..ended {
        requests.play();
    }
    counted_late(&mut || {
        for _ in 0..units {
            requests.play();
        }
    });
    units
}

pub fn fills(streams: u32) -> u64 {
    let mut end = End::with(Side::Client, streams, 16 << 20, 16 << 20, 1024);
    for _ in 0..streams {
        let id = streams_of(&mut end).open(Dir::Uni).unwrap();
        let mut stream = SendStream {
            id,
            state: &mut end.streams,
            pending: &mut end.pending,
            conn_state: &end.state,
        };
        assert_eq!(stream.write(&[7; 200]), Ok(200));
    }
    let units = 16;
    gotsavena_counted(&mut || {
        for _ in 0..units {
            black_box(fill(&mut end));
        }
    });
    units
}
