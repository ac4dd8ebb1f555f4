//! Bare copies of a packet's bytes, through as much memory as `loop` uses. A stream layer that copies each byte as often can't be faster.

use crate::clock::time;
use crate::{Row, Run};
use std::hint::black_box;

// The sizes of the bytes that the application writes, of the send buffer, and of the buffer that it reads into.
const SOURCE: usize = 16 << 10;
const SENDING: usize = 1 << 20;
const OUT: usize = 64 << 10;

/// How many packets are in flight.
const BURST: usize = 10;

/// A ring into which pieces are put and from which they are taken.
struct Place {
    bytes: Vec<u8>,
    put: usize,
    taken: usize,
}

impl Place {
    fn new(size: usize) -> Place {
        Place {
            bytes: vec![1; size],
            put: 0,
            taken: 0,
        }
    }

    fn put(&mut self, piece: &[u8]) {
        let at = next(&mut self.put, piece.len(), self.bytes.len());
        self.bytes[at..at + piece.len()].copy_from_slice(piece);
    }

    fn take(&mut self, each: usize) -> &[u8] {
        let at = next(&mut self.taken, each, self.bytes.len());
        black_box(&self.bytes[at..at + each])
    }
}

// Where the next piece is.
fn next(at: &mut usize, each: usize, size: usize) -> usize {
    let from = if *at + each > size { 0 } else { *at };
    *at = from + each;
    from
}

// Copies the pieces of a burst from each buffer to the next.
fn copies(count: usize, each: usize) -> Run {
    let packets = BURST * each;
    let receiving = packets.next_power_of_two();
    let sizes: &[usize] = match count {
        2 => &[SENDING, packets, receiving],
        3 => &[SOURCE, SENDING, packets, OUT],
        _ => &[SOURCE, SENDING, packets, receiving, OUT],
    };
    let mut places: Vec<Place> = sizes.iter().map(|&size| Place::new(size)).collect();
    let bursts = (256 << 20) / packets;
    let time = time(|| {
        for _ in 0..bursts {
            for stage in 1..places.len() {
                let (before, after) = places.split_at_mut(stage);
                for _ in 0..BURST {
                    after[0].put(before[stage - 1].take(each));
                }
            }
        }
    });
    black_box(&places.last().expect("there are some").bytes);
    Run {
        time,
        units: (bursts * BURST) as u64,
    }
}

pub fn rows() -> Vec<Row> {
    let row = |name, run| Row {
        name,
        unit: "packet",
        run,
    };
    vec![
        row("copies-2-of-1200", || copies(2, 1200)),
        row("copies-3-of-1200", || copies(3, 1200)),
        row("copies-4-of-1200", || copies(4, 1200)),
        row("copies-2-of-16383", || copies(2, 16_383)),
        row("copies-3-of-16383", || copies(3, 16_383)),
        row("copies-4-of-16383", || copies(4, 16_383)),
    ]
}
