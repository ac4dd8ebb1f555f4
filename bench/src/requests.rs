//! A request of one byte and a response of 1 KiB on a new stream each time, one after the other.

use crate::clock::time;
use crate::ends::take;
use crate::pattern::{self, Source};
use crate::scaling::hand_on;
use crate::{Row, Run};
use gotsavena::{Dir, Endpoint, Fill, Read, Role, Settings, StreamId, Token};
use std::hint::black_box;

/// How the applications use the endpoints.
#[derive(Clone, Copy, PartialEq, Eq)]
pub enum Manner {
    /// By packets, without events.
    Packets,
    /// By packets. Each endpoint is asked for events after it received packets.
    Events,
    /// By frames, as a stack does that has its own packets: `fill`, `take_frame`, tokens and events.
    Steps,
}

/// What becomes of the streams of requests.
#[derive(Clone, Copy, PartialEq, Eq)]
pub enum Past {
    /// Each ends.
    Plain,
    /// Of 64 one is cancelled: reset and stopped by the client.
    Cancelled,
    /// The first one stays open.
    OneOpen,
}

const CANCELLED: u64 = 0x10c;

const ANSWER: usize = 1024;

pub struct Requests {
    client: Endpoint,
    server: Endpoint,
    answer: Source,
    manner: Manner,
}

impl Requests {
    /// Two endpoints for at most this many requests.
    pub fn new(manner: Manner, in_all: u64) -> Requests {
        let settings = Settings::small()
            .conn_window(1 << 20)
            .stream_windows(4096)
            .send_buffer(4096)
            .streams(100, in_all);
        let end = |role| {
            Endpoint::new(role, settings, settings.limits()).expect("the settings are in range")
        };
        Requests {
            client: end(Role::Client),
            server: end(Role::Server),
            answer: Source::new(ANSWER),
            manner,
        }
    }

    pub fn play(&mut self) {
        let stream = self
            .client
            .open(Dir::Bidi)
            .expect("the count grew as streams ended");
        write_and_finish(&mut self.client, stream, b"?");
        if self.manner == Manner::Steps {
            self.by_steps(stream);
        } else {
            self.by_packets(stream);
        }
    }

    /// So many requests, with such a past.
    pub fn play_past(&mut self, past: Past, count: u64) {
        for number in 0..count {
            match past {
                Past::Cancelled if number % 64 == 0 => self.cancel(),
                Past::OneOpen if number == 0 => _ = self.leave_open(),
                _ => self.play(),
            }
        }
    }

    fn cancel(&mut self) {
        let stream = self.leave_open();
        let Requests { client, server, .. } = self;
        client.reset(stream, CANCELLED).expect("it is open");
        client.stop(stream, CANCELLED).expect("it is open");
        hand_on(client, server);
        poll(server);
        let mut bytes = [0; 8];
        assert_eq!(server.read(stream, &mut bytes), Ok(Read::Reset(CANCELLED)));
        hand_on(server, client);
        poll(client);
        // An owner that leaves a reset unread keeps the stream open.
        assert_eq!(client.read(stream, &mut bytes), Ok(Read::Reset(CANCELLED)));
        poll(client);
        hand_on(client, server);
        poll(server);
    }

    fn leave_open(&mut self) -> StreamId {
        let Requests { client, server, .. } = self;
        let stream = client
            .open(Dir::Bidi)
            .expect("the count grew as streams ended");
        assert_eq!(client.write(stream, b"?"), Ok(1));
        hand_on(client, server);
        poll(server);
        assert_eq!(server.accept(), Some(stream));
        hand_on(server, client);
        poll(client);
        stream
    }

    /// Both endpoints are asked for an event, where there is none.
    pub fn ask_in_vain(&mut self) {
        for end in [&mut self.client, &mut self.server] {
            assert_eq!(end.next_event(), Ok(None));
        }
    }

    fn by_packets(&mut self, stream: StreamId) {
        let polls = self.manner == Manner::Events;
        let Requests { client, server, .. } = self;
        hand_on(client, server);
        if polls {
            poll(server);
        }
        answer(server, self.answer.at(0));
        hand_on(server, client);
        if polls {
            poll(client);
        }
        read_to_end(client, stream, ANSWER);
        hand_on(client, server);
        if polls {
            poll(server);
            poll(client);
        }
    }

    fn by_steps(&mut self, stream: StreamId) {
        let Requests { client, server, .. } = self;
        let asked = fill_and_take(client, server).expect("bytes are due");
        poll(server);
        answer(server, self.answer.at(0));
        let mut payload = [0; 1200];
        let filled = server.fill(&mut payload, &Fill::all());
        let filled = filled.expect("there is memory").expect("bytes are due");
        client.acked(asked).expect("it was given");
        take(client, &payload[..filled.len]);
        poll(client);
        read_to_end(client, stream, ANSWER);
        server.acked(filled.token).expect("it was given");
        poll(server);
        poll(client);
        // Sends MAX_STREAMS, so that the peer may open one more.
        let is_sendable = server.is_sendable();
        if let Some(token) = is_sendable.then(|| fill_and_take(server, client)).flatten() {
            server.acked(token).expect("it was given");
        }
        black_box(client.is_sendable());
    }
}

// Fills a packet and hands its frames to the other endpoint. Returns the packet's token.
fn fill_and_take(from: &mut Endpoint, to: &mut Endpoint) -> Option<Token> {
    let mut payload = [0; 1200];
    let filled = from.fill(&mut payload, &Fill::all());
    let filled = filled.expect("there is memory")?;
    take(to, &payload[..filled.len]);
    Some(filled.token)
}

/// Takes all events of an endpoint.
pub fn poll(end: &mut Endpoint) {
    while let Some(event) = end.next_event().expect("there is memory") {
        black_box(event);
    }
}

fn answer(server: &mut Endpoint, bytes: &[u8]) {
    let asked = server.accept().expect("the request came");
    read_to_end(server, asked, 1);
    write_and_finish(server, asked, bytes);
}

fn write_and_finish(end: &mut Endpoint, stream: StreamId, bytes: &[u8]) {
    assert_eq!(end.write(stream, bytes), Ok(bytes.len()));
    end.finish(stream).expect("it is open");
}

// The request's byte isn't one of the pattern.
fn read_to_end(end: &mut Endpoint, stream: StreamId, len: usize) {
    let mut bytes = [0; 2048];
    let mut count = 0;
    while count < len {
        match end.read(stream, &mut bytes[count..]) {
            Ok(Read::Bytes(some)) => count += some,
            other => panic!("bytes are missing: {other:?}"),
        }
    }
    assert_eq!(count, len);
    if len == ANSWER {
        pattern::check(0, &bytes[..len]);
    }
    assert_eq!(end.read(stream, &mut bytes), Ok(Read::End));
}

/// The cost of each of a thousand requests, after this many.
fn after(ended: u64, manner: Manner) -> Run {
    let mut requests = Requests::new(manner, 1 << 16);
    let units = 1_000;
    for _ in 0..ended {
        requests.play();
    }
    let time = time(|| {
        for _ in 0..units {
            requests.play();
        }
    });
    Run { time, units }
}

pub fn rows() -> Vec<Row> {
    let row = |name, run| Row {
        name,
        unit: "request",
        run,
    };
    vec![
        row("request", || after(0, Manner::Packets)),
        row("request-after-60000", || after(60_000, Manner::Packets)),
        row("request-events", || after(0, Manner::Events)),
        row("steps", || after(0, Manner::Steps)),
    ]
}
