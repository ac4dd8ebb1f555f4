// A request of one byte and a response of 1 KiB on a new stream each time, one after the other.
use std::hint::black_box;

use bytes::Bytes;

use super::super::spaces::ThinRetransmits;
use super::super::streams::{RecvStream, SendStream, Streams};
use super::ends::End;
use super::{Run, check, pattern, time};
use crate::frame::StreamMetaVec;
use crate::{Dir, Side, StreamId};

// How the applications use the endpoints.
#[derive(Clone, Copy, PartialEq, Eq)]
pub enum Manner {
    // By packets. Events are polled only where that is needed: when the request arrived, and at the end.
    Packets,
    // By packets. Each endpoint is polled for events after it received packets.
    Events,
    // By frames, without records of packets, and the events are polled.
    Steps,
}

const ANSWER: usize = 1024;

pub struct Requests {
    client: End,
    server: End,
    answer: Vec<u8>,
    manner: Manner,
}

impl Requests {
    pub fn new(manner: Manner) -> Self {
        Requests {
            client: End::with(Side::Client, 100, 1 << 20, 1 << 20, 4096),
            server: End::with(Side::Server, 100, 1 << 20, 1 << 20, 4096),
            answer: pattern(ANSWER),
            manner,
        }
    }

    pub fn play(&mut self) {
        let id = streams_of(&mut self.client).open(Dir::Bi).unwrap();
        write_and_finish(&mut self.client, id, &self.answer[..1]);
        if self.manner == Manner::Steps {
            self.by_steps(id);
        } else {
            self.by_packets(id);
        }
    }

    fn by_packets(&mut self, id: StreamId) {
        let polls = self.manner == Manner::Events;
        let (client, server) = (&mut self.client, &mut self.server);
        hand_on(client, server);
        poll(server);
        answer(server, id, &self.answer[..ANSWER]);
        hand_on(server, client);
        if polls {
            poll(client);
        }
        read_to_end(client, id, ANSWER);
        hand_on(client, server);
        if polls {
            poll(server);
        }
        poll(client);
    }

    fn by_steps(&mut self, id: StreamId) {
        let (client, server) = (&mut self.client, &mut self.server);
        let (asked, payload) = fill(client);
        take(server, payload);
        poll(server);
        answer(server, id, &self.answer[..ANSWER]);
        let (answered, payload) = fill(server);
        acked(client, asked);
        take(client, payload);
        poll(client);
        read_to_end(client, id, ANSWER);
        acked(server, answered);
        poll(server);
        poll(client);
        // Sends MAX_STREAMS, so that the peer may open one more.
        let is_due = server.pending.max_data || server.pending.max_stream_id.iter().any(|&it| it);
        if is_due || server.streams.can_send_stream_data() {
            let (_, payload) = fill(server);
            take(client, payload);
        }
        black_box(client.streams.can_send_stream_data());
    }
}

pub fn streams_of(end: &mut End) -> Streams<'_> {
    Streams {
        state: &mut end.streams,
        conn_state: &end.state,
    }
}

fn poll(end: &mut End) {
    while let Some(event) = end.streams.poll() {
        black_box(event);
    }
}

// Writes the frames of a packet, without a record of the packet.
pub fn fill(end: &mut End) -> (StreamMetaVec, Bytes) {
    let mut payload = Vec::with_capacity(1200);
    let mut retransmits = ThinRetransmits::default();
    let (pending, stats) = (&mut end.pending, &mut end.stats);
    end.streams
        .write_control_frames(&mut payload, pending, &mut retransmits, stats, 1200);
    let frames = end.streams.write_stream_frames(&mut payload, 1200);
    (frames, Bytes::from(payload))
}

fn take(end: &mut End, payload: Bytes) {
    end.take(payload);
    end.tell_of_counts();
}

fn acked(end: &mut End, frames: StreamMetaVec) {
    for frame in frames {
        end.streams.received_ack_of(frame);
    }
}

fn answer(server: &mut End, id: StreamId, bytes: &[u8]) {
    assert_eq!(streams_of(server).accept(Dir::Bi), Some(id));
    read_to_end(server, id, 1);
    write_and_finish(server, id, bytes);
}

fn write_and_finish(end: &mut End, id: StreamId, bytes: &[u8]) {
    let mut stream = SendStream {
        id,
        state: &mut end.streams,
        pending: &mut end.pending,
        conn_state: &end.state,
    };
    assert_eq!(stream.write(bytes), Ok(bytes.len()));
    stream.finish().unwrap();
}

// Copies the bytes out, as the other drivers do.
fn read_to_end(end: &mut End, id: StreamId, len: usize) {
    let (mut out, mut count) = ([0; 2048], 0);
    let mut stream = RecvStream {
        id,
        state: &mut end.streams,
        pending: &mut end.pending,
    };
    let mut chunks = stream.read(true).unwrap();
    while let Some(chunk) = chunks.next(2048).unwrap() {
        out[count..count + chunk.bytes.len()].copy_from_slice(&chunk.bytes);
        count += chunk.bytes.len();
    }
    let _ = chunks.finalize();
    assert_eq!(count, len);
    check(0, &out[..len]);
    black_box(&out);
}

// Delivers all that one endpoint has pending to the other.
fn hand_on(from: &mut End, to: &mut End) {
    while let Some((number, payload)) = from.make(1200) {
        to.receive(number, Bytes::from(payload));
    }
}

// The cost of each of a thousand requests, after this many.
pub fn request_after(ended: u64, manner: Manner) -> Run {
    let mut requests = Requests::new(manner);
    let units = 1_000;
    for _ in 0..ended {
        requests.play();
    }
    let time = time(|| {
        for _ in 0..units {
            requests.play();
        }
    });
    Run { time, units }
}
