//! Random runs of two ends against a plain model: a map from stream to the bytes that were written to it.

mod support;

use gotsavena::{Dir, Endpoint, LostFault, Read, Received, Settings, StreamId, UseFault};
use std::collections::BTreeMap;
use support::{Random, two_ends};

const SEEDS: u64 = 1000;
const EVENTS: usize = 250;

/// What one end wrote to a stream, and what the other one read of it.
#[derive(Default)]
struct Lane {
    written: Vec<u8>,
    read: usize,
    finished: bool,
    reset: Option<u64>,
    stopped: Option<u64>,
    ended: bool,
}

struct Run {
    ends: [Endpoint; 2],
    made: [Vec<Vec<u8>>; 2],
    /// By the end that sends.
    lanes: [BTreeMap<StreamId, Lane>; 2],
    window: u64,
    random: Random,
    what: String,
}

impl Run {
    fn new(seed: u64) -> Run {
        let mut random = Random::new(seed);
        // So narrow that nearly each write and packet meets a limit; the others meet one now and then.
        let tiny = seed % 16 == 0;
        let (most, most_of_streams, buffer) = if tiny { (4, 4, 64) } else { (4000, 2000, 3000) };
        let window = 1 + random.below(most);
        let settings = Settings::small()
            .conn_window(window)
            .stream_windows(1 + random.below(most_of_streams))
            .send_buffer(1 + random.below(buffer) as usize)
            .streams(random.below(5), 5 + random.below(5));
        Run {
            ends: two_ends(settings),
            made: [Vec::new(), Vec::new()],
            lanes: [BTreeMap::new(), BTreeMap::new()],
            window,
            random,
            what: format!("seed {seed}"),
        }
    }

    fn event(&mut self) {
        let side = self.random.below(2) as usize;
        match self.random.below(16) {
            0 => self.open(side),
            1 => self.accept(side),
            2..=4 => self.write(side),
            5 => self.finish_or_break(side),
            6..=8 => self.read(side),
            9..=11 => _ = self.make(side),
            12 => self.lose(side),
            _ => self.deliver(side),
        }
        self.look();
    }

    fn open(&mut self, side: usize) {
        let dir = if self.random.chance(50) {
            Dir::Bidi
        } else {
            Dir::Uni
        };
        if let Ok(stream) = self.ends[side].open(dir) {
            self.meet(side, stream);
        }
    }

    fn accept(&mut self, side: usize) {
        if let Some(stream) = self.ends[side].accept() {
            self.meet(1 - side, stream);
        }
    }

    // The lanes of a stream that an end opened.
    fn meet(&mut self, opener: usize, stream: StreamId) {
        self.lanes[opener].entry(stream).or_default();
        if stream.dir() == Dir::Bidi {
            self.lanes[1 - opener].entry(stream).or_default();
        }
    }

    // A stream on which an end sends, as far as it is known.
    fn a_lane(&mut self, sender: usize) -> Option<StreamId> {
        let known = self.lanes[sender].len() as u64;
        if known == 0 {
            return None;
        }
        let place = self.random.below(known) as usize;
        self.lanes[sender].keys().nth(place).copied()
    }

    fn write(&mut self, side: usize) {
        let Some(stream) = self.a_lane(side) else {
            return;
        };
        let count = self.random.below(600) as usize;
        let bytes = self.random.bytes(count);
        let lane = self.lanes[side].get_mut(&stream).expect("known");
        match self.ends[side].write(stream, &bytes) {
            Ok(count) => {
                assert!(!lane.finished && lane.reset.is_none(), "{}", self.what);
                lane.written.extend_from_slice(&bytes[..count]);
            }
            Err(UseFault::Finished) => assert!(lane.finished, "{}", self.what),
            Err(UseFault::WasReset) => {
                assert!(
                    lane.reset.is_some() || lane.stopped.is_some(),
                    "{}",
                    self.what
                );
            }
            // The peer opened it, and this end doesn't know yet.
            Err(UseFault::NoSuchStream) => {}
            Err(fault) => panic!("{}: {fault}", self.what),
        }
    }

    fn finish_or_break(&mut self, side: usize) {
        let Some(stream) = self.a_lane(side) else {
            return;
        };
        let code = self.random.below(9);
        match self.random.below(8) {
            0 => {
                if self.ends[side].reset(stream, code).is_ok() {
                    let lane = self.lanes[side].get_mut(&stream).expect("known");
                    lane.reset = lane.reset.or(Some(code));
                }
            }
            1 => {
                if self.ends[1 - side].stop(stream, code).is_ok() {
                    let lane = self.lanes[side].get_mut(&stream).expect("known");
                    lane.stopped = lane.stopped.or(Some(code));
                }
            }
            _ => {
                if self.ends[side].finish(stream).is_ok() {
                    self.lanes[side].get_mut(&stream).expect("known").finished = true;
                }
            }
        }
    }

    // An end reads what the other one wrote.
    fn read(&mut self, side: usize) {
        if let Some(stream) = self.a_lane(1 - side) {
            let size = self.random.below(700) as usize;
            self.read_some(side, stream, size);
        }
    }

    fn read_some(&mut self, side: usize, stream: StreamId, size: usize) -> bool {
        let mut into = vec![0; size];
        let lane = self.lanes[1 - side].get_mut(&stream).expect("known");
        let read = match self.ends[side].read(stream, &mut into) {
            Err(UseFault::NoSuchStream) => return false,
            read => read.unwrap_or_else(|fault| panic!("{}: {fault}", self.what)),
        };
        match read {
            Read::Bytes(count) => {
                let next = &lane.written[lane.read..lane.read + count];
                assert_eq!(&into[..count], next, "{}, stream {stream}", self.what);
                assert!(lane.stopped.is_none(), "{}", self.what);
                lane.read += count;
                count > 0
            }
            Read::End => {
                assert!(lane.finished, "{}", self.what);
                let whole = lane.read == lane.written.len();
                assert!(whole || lane.stopped.is_some(), "{}", self.what);
                lane.ended = true;
                false
            }
            Read::Reset(code) => {
                let codes = [lane.reset, lane.stopped];
                assert!(codes.contains(&Some(code)), "{}", self.what);
                lane.ended = true;
                false
            }
            Read::Wait => {
                assert!(!lane.ended, "{}", self.what);
                false
            }
        }
    }

    fn make(&mut self, side: usize) -> bool {
        let mut out = vec![0; 128 + self.random.below(1200) as usize];
        let made = self.ends[side].make_packet(&mut out).expect("it is open");
        let Some(made) = made else { return false };
        assert_eq!(made.number, self.made[side].len() as u64, "{}", self.what);
        self.made[side].push(out[..made.len].to_vec());
        true
    }

    fn lose(&mut self, side: usize) {
        let number = self.random.below(self.made[side].len() as u64 + 1);
        match self.ends[side].declare_lost(number) {
            Ok(()) | Err(LostFault::NotOutstanding) => {}
            Err(fault) => panic!("{}: {fault}", self.what),
        }
    }

    // One of the last packets, most often, in any order and again; or an older one.
    fn deliver(&mut self, side: usize) {
        let count = self.made[side].len() as u64;
        if count > 0 {
            let back = if self.random.chance(80) {
                count.min(4)
            } else {
                count
            };
            let number = count - 1 - self.random.below(back);
            self.bring(side, number);
        }
    }

    fn bring(&mut self, side: usize, number: u64) {
        let payload = &self.made[side][number as usize];
        match self.ends[1 - side].receive(number, payload) {
            Ok(Received::Done | Received::Duplicate | Received::BelowFloor) => {}
            other => panic!("{}: packet {number}: {other:?}", self.what),
        }
    }

    // What stands after every call.
    fn look(&self) {
        for end in &self.ends {
            assert!(end.stored() <= self.window, "{}", self.what);
            assert!(end.stored() <= end.granted(), "{}", self.what);
            assert!(end.spent() <= end.granted(), "{}", self.what);
            assert_eq!(end.closing(), None, "{}", self.what);
        }
    }

    // The network is good from now on, readers read on, and what was to come comes.
    fn calm(&mut self) {
        for round in 0.. {
            assert!(round < 20_000, "{}: it doesn't end", self.what);
            let mut moved = false;
            for side in 0..2 {
                while self.make(side) {
                    let number = self.made[side].len() as u64 - 1;
                    self.bring(side, number);
                    self.look();
                    moved = true;
                }
                self.accept(side);
                for stream in self.lanes[1 - side].keys().copied().collect::<Vec<_>>() {
                    while self.read_some(side, stream, 512) {
                        moved = true;
                    }
                }
            }
            if !moved {
                break;
            }
        }
    }

    fn end(&mut self) {
        for side in 0..2 {
            for number in 0..self.made[side].len() as u64 {
                match self.ends[side].declare_lost(number) {
                    Ok(()) | Err(LostFault::NotOutstanding) => {}
                    Err(fault) => panic!("{}: {fault}", self.what),
                }
            }
        }
        self.calm();
        for (stream, lane) in self.lanes.iter().flatten() {
            let broken = lane.reset.is_some() || lane.stopped.is_some();
            let whole = lane.read == lane.written.len() && lane.ended == lane.finished;
            assert!(broken || whole, "{}, stream {stream}", self.what);
        }
    }
}

#[test]
fn random_runs_keep_to_the_model() {
    let mut bytes = 0;
    for seed in 0..SEEDS {
        let mut run = Run::new(seed);
        for _ in 0..EVENTS {
            run.event();
        }
        run.end();
        bytes += run
            .lanes
            .iter()
            .flatten()
            .map(|(_, lane)| lane.read)
            .sum::<usize>();
    }
    assert!(bytes > 500_000, "{bytes} bytes were read");
}
