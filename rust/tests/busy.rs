//! Each stream by itself, on a connection that never rests: once nothing that was sent of it is missing, and its reader has no news, what was
//! read is what was sent; and where its end was sent, both halves are in their last state.
//!
//! `STREAMS=100000 cargo test --release --test busy` plays so many streams; 100 are played where nothing is said.

mod support;

use gotsavena::{
    Dir, Endpoint, LostFault, Peek, Read, Received, RecvState, SendReport, SendState, Settings,
    StreamId, UseFault,
};
use std::collections::{BTreeMap, VecDeque};
use support::{Random, two_ends};

/// So many streams are at work at a time, beside the one that always is.
const AT_WORK: usize = 30;

/// So many payloads of an end can still come, first or again.
const UNDERWAY: usize = 64;

/// What one end wrote to a stream, and what the other one read of it and did.
#[derive(Default)]
struct Lane {
    written: Vec<u8>,
    read: Vec<u8>,
    stopped: bool,
    told_end: bool,
}

struct Run {
    ends: [Endpoint; 2],
    underway: [VecDeque<(u64, Vec<u8>)>; 2],
    /// By the end that sends.
    lanes: [BTreeMap<StreamId, Lane>; 2],
    /// The client's stream that is never finished, and on which bytes always wait.
    always: StreamId,
    opened: u64,
    ended: u64,
    /// How often a stream was found at rest, and how often its sender had something to send then.
    rests: u64,
    sends: u64,
    resets: u64,
    stops: u64,
    random: Random,
}

impl Run {
    fn new(seed: u64, streams: u64) -> Run {
        let settings = Settings::small()
            .conn_window(4096)
            .stream_windows(700)
            .send_buffer(1500)
            .streams(AT_WORK as u64 + 1, streams + 2);
        let mut ends = two_ends(settings);
        let always = ends[0].open(Dir::Uni).expect("granted");
        let mut lanes = [BTreeMap::new(), BTreeMap::new()];
        lanes[0].insert(always, Lane::default());
        Run {
            ends,
            underway: [VecDeque::new(), VecDeque::new()],
            lanes,
            always,
            opened: 0,
            ended: 0,
            rests: 0,
            sends: 0,
            resets: 0,
            stops: 0,
            random: Random::new(seed),
        }
    }

    fn play(&mut self, streams: u64) {
        while self.ended < streams {
            if self.opened < streams && self.lanes[0].len() + self.lanes[1].len() < AT_WORK {
                self.open();
            }
            self.keep_at_work();
            self.event();
            for side in 0..2 {
                if let Some(stream) = self.a_lane(side) {
                    self.look_at(side, stream);
                    self.forget_if_over(side, stream);
                }
            }
        }
    }

    fn open(&mut self) {
        let side = self.random.below(2) as usize;
        let dir = [Dir::Bidi, Dir::Uni][self.random.below(2) as usize];
        // A refusal tells the peer, which grants more as streams end.
        let Ok(stream) = self.ends[side].open(dir) else {
            return;
        };
        self.opened += 1;
        self.lanes[side].insert(stream, Lane::default());
        if dir == Dir::Bidi {
            self.lanes[1 - side].insert(stream, Lane::default());
        }
    }

    /// Bytes of that stream are always unsent or underway, so that one end or the other has something to do.
    fn keep_at_work(&mut self) {
        if self.ends[0].unsent(self.always) == 0 {
            self.write(0, self.always);
        }
        assert!(!self.ends.iter().all(is_idle), "it rests");
    }

    fn event(&mut self) {
        let side = self.random.below(2) as usize;
        match self.random.below(16) {
            0..=2 => {
                if let Some(stream) = self.a_lane(side) {
                    self.write(side, stream);
                }
            }
            3 => self.end_stream(side),
            4..=6 => self.read(side),
            7..=9 => self.make(side),
            10 => self.lose(side),
            _ => self.deliver(side),
        }
    }

    /// A stream on which an end sends.
    fn a_lane(&mut self, sender: usize) -> Option<StreamId> {
        let count = self.lanes[sender].len() as u64;
        let place = self.random.below(count.max(1)) as usize;
        self.lanes[sender].keys().nth(place).copied()
    }

    fn write(&mut self, side: usize, stream: StreamId) {
        let count = 1 + self.random.below(300) as usize;
        let bytes = self.random.bytes(count);
        match self.ends[side].write(stream, &bytes) {
            Ok(count) => {
                let lane = self.lanes[side].get_mut(&stream).expect("at work");
                lane.written.extend_from_slice(&bytes[..count]);
            }
            Err(UseFault::Finished | UseFault::WasReset | UseFault::NoSuchStream) => {}
            Err(fault) => panic!("{fault}"),
        }
    }

    /// The application finishes or resets a stream, or its reader stops it.
    fn end_stream(&mut self, side: usize) {
        let Some(stream) = self.a_lane(side).filter(|&it| it != self.always) else {
            return;
        };
        let lane = self.lanes[side].get_mut(&stream).expect("at work");
        match self.random.below(12) {
            0 => self.resets += u64::from(self.ends[side].reset(stream, 7).is_ok()),
            1 => {
                let is_stopped = self.ends[1 - side].stop(stream, 8).is_ok();
                lane.stopped |= is_stopped;
                self.stops += u64::from(is_stopped);
            }
            // Both ends have to know a stream before it can be over.
            _ => _ = self.ends[side].finish(stream),
        }
    }

    /// The least stream with news from one on is read, with a copy or without one.
    fn read(&mut self, side: usize) {
        let from = self.a_lane(1 - side).unwrap_or(self.always);
        let Some(stream) = self.ends[side].next_readable(from) else {
            return;
        };
        let lane = self.lanes[1 - side].get_mut(&stream).expect("at work");
        let size = 1 + self.random.below(500) as usize;
        if self.random.chance(50) {
            let mut into = vec![0; size];
            match self.ends[side].read(stream, &mut into).expect("open") {
                Read::Bytes(count) => lane.read.extend_from_slice(&into[..count]),
                Read::End => lane.told_end = true,
                Read::Reset(_) | Read::Wait => {}
            }
        } else {
            if let Peek::Bytes(front, back) = self.ends[side].peek(stream).expect("open") {
                let shown = [front, back].concat();
                lane.read.extend(shown.into_iter().take(size));
            }
            let taken = self.ends[side].consume(stream, size).expect("open");
            lane.told_end |= taken.at_end || taken.read == Read::End;
        }
    }

    fn make(&mut self, side: usize) {
        let mut out = vec![0; 128 + self.random.below(1200) as usize];
        if let Some(made) = self.ends[side].make_packet(&mut out).expect("it is open") {
            out.truncate(made.len);
            self.underway[side].push_back((made.number, out));
        }
        if self.underway[side].len() > UNDERWAY {
            self.underway[side].pop_front();
        }
    }

    /// The oldest packet is declared lost, or one that may still come.
    fn lose(&mut self, side: usize) {
        let newest = self.underway[side].back().map_or(0, |packet| packet.0);
        let from = newest.saturating_sub(self.random.below(2 * UNDERWAY as u64));
        let lost = self.ends[side].next_outstanding([0, from][self.random.below(2) as usize]);
        if let Some(number) = lost {
            match self.ends[side].declare_lost(number) {
                Ok(()) | Err(LostFault::NotOutstanding) => {}
                Err(fault) => panic!("{fault}"),
            }
        }
    }

    /// Any packet that is underway, in any order and again, mostly a late one.
    fn deliver(&mut self, side: usize) {
        let count = self.underway[side].len() as u64;
        if count > 0 {
            let back = if self.random.chance(80) { 3 } else { count };
            let place = count - 1 - self.random.below(back.min(count));
            let (number, payload) = &self.underway[side][place as usize];
            match self.ends[1 - side].receive(*number, payload) {
                Ok(Received::Done | Received::Duplicate | Received::BelowFloor) => {}
                other => panic!("packet {number}: {other:?}"),
            }
        }
    }
}

fn is_idle(end: &Endpoint) -> bool {
    let first = StreamId::new(0).expect("it is a stream's number");
    !end.is_sendable() && end.next_outstanding(0).is_none() && end.next_readable(first).is_none()
}

// What holds of one stream
impl Run {
    fn states(&self, side: usize, stream: StreamId) -> (Option<SendReport>, Option<RecvState>) {
        let send = self.ends[side].report(stream).and_then(|both| both.send);
        let recv = self.ends[1 - side]
            .report(stream)
            .and_then(|both| both.recv);
        (send, recv.map(|half| half.state))
    }

    fn look_at(&mut self, side: usize, stream: StreamId) {
        let lane = &self.lanes[side][&stream];
        assert!(lane.written.starts_with(&lane.read), "stream {stream}");
        let (Some(send), recv) = self.states(side, stream) else {
            return;
        };
        let acked = self.ends[side].acked_below(stream).expect("it sends");
        let sent = lane.written.len() as u64 - self.ends[side].unsent(stream);
        let end_sent = send.final_size.is_some();
        let has_news = self.ends[1 - side].next_readable(stream) == Some(stream);
        let is_acked = acked == sent && (!end_sent || send.state == SendState::DataRecvd);
        if send.reset_code.is_some() || has_news || !is_acked {
            return;
        }
        self.rests += 1;
        self.sends += u64::from(self.ends[side].is_sendable());
        let what = format!("stream {stream} of end {side}: {send:?}, {recv:?}");
        if !lane.stopped {
            assert_eq!(lane.read, lane.written[..acked as usize], "{what}");
            assert_eq!(lane.told_end, end_sent, "{what}");
        }
        if end_sent {
            assert_eq!(recv, Some(RecvState::DataRead), "{what}");
        }
    }

    /// A direction whose halves are in their last states isn't looked at any more.
    fn forget_if_over(&mut self, side: usize, stream: StreamId) {
        let (send, recv) = self.states(side, stream);
        let sent = send.map(|half| half.state);
        let is_over = matches!(sent, Some(SendState::DataRecvd | SendState::ResetRecvd))
            && matches!(recv, Some(RecvState::DataRead | RecvState::ResetRead));
        if is_over {
            self.lanes[side].remove(&stream);
            // A stream is over with its last direction.
            self.ended += u64::from(!self.lanes[1 - side].contains_key(&stream));
        }
    }
}

#[test]
fn each_stream_is_read_on_a_connection_that_never_rests() {
    let streams = std::env::var("STREAMS").map_or(100, |told| told.parse().expect("a number"));
    let mut run = Run::new(1, streams);
    run.play(streams);
    println!(
        "{streams} streams, {} rests, {} of them beside something to send",
        run.rests, run.sends
    );
    // (far below what this seed gives: it only sees that no kind of stream is missing)
    assert!(run.sends > streams, "{} of {}", run.sends, run.rests);
    assert!(run.resets > streams / 50, "{} resets", run.resets);
    assert!(run.stops > streams / 50, "{} stops", run.stops);
}
