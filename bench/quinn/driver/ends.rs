// Two endpoints in one process, and what the rows do with them.
use std::collections::BTreeMap;
use std::hint::black_box;
use std::time::Instant;

use bytes::Bytes;

use super::super::State;
use super::super::spaces::{Dedup, PendingAcks, Retransmits, SentPacket, ThinRetransmits};
use super::super::stats::FrameStats;
use super::super::streams::{RecvStream, SendStream, Streams, StreamsState};
use super::{check, pattern, place};
use crate::frame::{Ack, Frame, Iter};
use crate::range_set::ArrayRangeSet;
use crate::transport_parameters::TransportParameters;
use crate::{Dir, Side, StreamId};

pub struct End {
    pub streams: StreamsState,
    pub pending: Retransmits,
    pub acks: PendingAcks,
    pub dedup: Dedup,
    pub sent: BTreeMap<u64, SentPacket>,
    pub next: u64,
    pub stats: FrameStats,
    pub state: State,
    pub now: Instant,
}

impl End {
    pub fn new(side: Side, load: &Load) -> Self {
        let to_send = u64::from(load.window) * u64::from(load.active);
        Self::with(side, 8192, to_send, 16 << 20, load.window)
    }

    // An endpoint with these limits on streams, this send window and these receive windows.
    pub fn with(side: Side, streams: u32, to_send: u64, conn_window: u32, window: u32) -> Self {
        let streams = streams.into();
        let mut state = StreamsState::new(
            side,
            streams,
            streams,
            to_send,
            conn_window.into(),
            window.into(),
        );
        state.set_params(&TransportParameters {
            initial_max_data: conn_window.into(),
            initial_max_stream_data_bidi_local: window.into(),
            initial_max_stream_data_bidi_remote: window.into(),
            initial_max_stream_data_uni: window.into(),
            initial_max_streams_bidi: streams,
            initial_max_streams_uni: streams,
            ..TransportParameters::default()
        });
        Self::of(state)
    }

    pub fn of(streams: StreamsState) -> Self {
        End {
            streams,
            pending: Retransmits::default(),
            acks: PendingAcks::default(),
            dedup: Dedup::new(),
            sent: BTreeMap::new(),
            next: 0,
            stats: FrameStats::default(),
            state: State::Established,
            now: Instant::now(),
        }
    }

    pub fn make(&mut self, room: usize) -> Option<(u64, Vec<u8>)> {
        let mut payload = Vec::with_capacity(room);
        let mut largest_acked = None;
        if self.acks.can_send() {
            Ack::encode(0, self.acks.ranges(), None, &mut payload);
            largest_acked = self.acks.ranges().iter().next_back().map(|run| run.end - 1);
            self.acks.acks_sent();
        }
        let only_ack = payload.len();
        let mut retransmits = ThinRetransmits::default();
        self.streams.write_control_frames(
            &mut payload,
            &mut self.pending,
            &mut retransmits,
            &mut self.stats,
            room,
        );
        let stream_frames = self.streams.write_stream_frames(&mut payload, room);
        if payload.is_empty() {
            return None;
        }
        let number = self.next;
        self.next += 1;
        let packet = SentPacket {
            time_sent: self.now,
            size: payload.len() as u16,
            ack_eliciting: payload.len() > only_ack,
            largest_acked,
            retransmits,
            stream_frames,
        };
        self.sent.insert(number, packet);
        Some((number, payload))
    }

    pub fn receive(&mut self, number: u64, payload: Bytes) {
        if self.dedup.insert(number) {
            return;
        }
        self.acks.insert_one(number, self.now);
        let asks = self.take(payload);
        self.acks.packet_received(asks);
        self.tell_of_counts();
    }

    // Processes a payload's frames and returns whether one of them asks for an ACK.
    pub fn take(&mut self, payload: Bytes) -> bool {
        let len = payload.len();
        let mut asks = false;
        for frame in Iter::new(payload) {
            asks |= frame.is_ack_eliciting();
            match frame {
                Frame::Stream(frame) => {
                    if self.streams.received(frame, len).unwrap().should_transmit() {
                        self.pending.max_data = true;
                    }
                }
                Frame::Ack(ack) => self.acked(&ack),
                Frame::MaxData(limit) => self.streams.received_max_data(limit),
                Frame::MaxStreamData { id, offset } => {
                    self.streams.received_max_stream_data(id, offset).unwrap()
                }
                Frame::MaxStreams { dir, count } => {
                    self.streams.received_max_streams(dir, count).unwrap()
                }
                Frame::ResetStream(frame) => {
                    if self.streams.received_reset(frame).unwrap().should_transmit() {
                        self.pending.max_data = true;
                    }
                }
                Frame::StopSending(frame) => self
                    .streams
                    .received_stop_sending(frame.id, frame.error_code),
                // quinn's connection only logs that the peer is blocked.
                Frame::Padding | Frame::Ping | Frame::StreamDataBlocked { .. } => {}
                other => panic!("{:?}", other),
            }
        }
        asks
    }

    // Streams are over, so the peer may open more.
    pub fn tell_of_counts(&mut self) {
        for dir in Dir::iter() {
            if self.streams.take_max_streams_dirty(dir) {
                self.pending.max_stream_id[dir as usize] = true;
            }
        }
    }

    pub fn in_flight(&self) -> usize {
        self.sent.len()
    }

    fn newly_acked(&self, ack: &Ack) -> ArrayRangeSet {
        let mut newly = ArrayRangeSet::new();
        for run in ack.iter() {
            for (&number, _) in self.sent.range(run) {
                newly.insert_one(number);
            }
        }
        newly
    }

    pub fn acked(&mut self, ack: &Ack) {
        for number in self.newly_acked(ack).elts() {
            let packet = self.sent.remove(&number).unwrap();
            if let Some(largest) = packet.largest_acked {
                self.acks.subtract_below(largest);
            }
            if let Some(told) = packet.retransmits.get() {
                for (id, _) in &told.reset_stream {
                    self.streams.reset_acked(*id);
                }
            }
            for frame in packet.stream_frames {
                self.streams.received_ack_of(frame);
            }
        }
    }

    pub fn lose(&mut self, number: u64) {
        if let Some(packet) = self.sent.remove(&number) {
            for frame in packet.stream_frames {
                self.streams.retransmit(frame);
            }
            self.pending |= packet.retransmits;
        }
    }
}

#[derive(Clone, Copy)]
pub struct Load {
    pub active: u32,
    pub open: u32,
    pub window: u32,
    pub write: usize,
    pub burst: usize,
    pub lose: u64,
    pub total: u64,
    pub room: usize,
    pub fill: usize,
}

pub const PLAIN: Load = Load {
    active: 1,
    open: 1,
    window: 1 << 20,
    write: 16 << 10,
    burst: 10,
    lose: 0,
    total: 128 << 20,
    room: 1200,
    fill: 256 << 10,
};

pub struct Pair {
    pub sender: End,
    pub reader: End,
    pub ids: Vec<StreamId>,
    pub load: Load,
    pub source: Vec<u8>,
    pub given: Vec<u64>,
    pub taken: Vec<u64>,
    pub out: Vec<u8>,
    pub packets: Vec<(u64, Vec<u8>)>,
    pub lost: Vec<u64>,
    pub made: u64,
    pub written: u64,
}

impl Pair {
    pub fn new(load: Load) -> Self {
        let mut sender = End::new(Side::Client, &load);
        let reader = End::new(Side::Server, &load);
        let mut ids = Vec::new();
        for number in 0..load.open.max(load.active) {
            let dir = if number < 4096 { Dir::Uni } else { Dir::Bi };
            ids.push(
                Streams {
                    state: &mut sender.streams,
                    conn_state: &sender.state,
                }
                .open(dir)
                .unwrap(),
            );
        }
        ids.truncate(load.active as usize);
        Pair {
            sender,
            reader,
            ids,
            load,
            source: pattern(load.write),
            given: vec![0; load.active as usize],
            taken: vec![0; load.active as usize],
            out: vec![0; 64 << 10],
            packets: Vec::new(),
            lost: Vec::new(),
            made: 0,
            written: 0,
        }
    }

    pub fn write(&mut self) {
        let each = self.load.write;
        let times = self.load.fill / each / self.ids.len() + 1;
        for (&id, given) in self.ids.iter().zip(&mut self.given) {
            let end = &mut self.sender;
            let mut stream = SendStream {
                id,
                state: &mut end.streams,
                pending: &mut end.pending,
                conn_state: &end.state,
            };
            for _ in 0..times {
                let from = place(*given);
                let count = stream.write(&self.source[from..from + each]).unwrap_or(0);
                *given += count as u64;
                self.written += count as u64;
                if count < each {
                    break;
                }
            }
        }
    }

    pub fn carry(&mut self) {
        for _ in 0..self.load.burst {
            match self.sender.make(self.load.room) {
                Some(packet) => self.packets.push(packet),
                None => break,
            }
        }
        for (number, payload) in self.packets.drain(..) {
            self.made += 1;
            if self.load.lose > 0 && self.made % self.load.lose == 0 {
                self.lost.push(number);
            } else {
                self.reader.receive(number, Bytes::from(payload));
            }
        }
    }

    pub fn read(&mut self) -> u64 {
        let end = &mut self.reader;
        while end.streams.poll().is_some() {}
        while (Streams {
            state: &mut end.streams,
            conn_state: &end.state,
        })
        .accept(Dir::Uni)
        .is_some()
        {}
        let mut count = 0;
        for (&id, taken) in self.ids.iter().zip(&mut self.taken) {
            let mut stream = RecvStream {
                id,
                state: &mut end.streams,
                pending: &mut end.pending,
            };
            let mut chunks = match stream.read(true) {
                Ok(chunks) => chunks,
                Err(_) => continue,
            };
            while let Ok(Some(chunk)) = chunks.next(self.out.len()) {
                self.out[..chunk.bytes.len()].copy_from_slice(&chunk.bytes);
                black_box(&self.out);
                check(*taken, &self.out[..chunk.bytes.len()]);
                *taken += chunk.bytes.len() as u64;
                count += chunk.bytes.len() as u64;
            }
            let _ = chunks.finalize();
        }
        count
    }

    pub fn answer(&mut self) {
        if let Some((number, payload)) = self.reader.make(self.load.room) {
            self.sender.receive(number, Bytes::from(payload));
        }
        for number in self.lost.drain(..) {
            self.sender.lose(number);
        }
        while self.sender.streams.poll().is_some() {}
    }

    pub fn play(&mut self, turns: u64) {
        for _ in 0..turns {
            self.write();
            self.carry();
            self.read();
            self.answer();
        }
    }
}
