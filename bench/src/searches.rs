//! The cost of finding one stream among 10,000 open ones: the one that is readable or writable, has something to send, or is over.

use crate::clock::time;
use crate::scaling::hand_on;
use crate::{Row, Run};
use gotsavena::{Dir, Endpoint, Read, Role, Settings, StreamId};
use std::hint::black_box;

/// How many streams of each direction the client opens, and how many bidirectional ones the server opens.
const OPENED: [u64; 3] = [4096, 4096, 1808];

/// Two endpoints with 10,000 open streams. One byte was sent and read on each.
struct Crowd {
    client: Endpoint,
    server: Endpoint,
    streams: Vec<StreamId>,
}

impl Crowd {
    fn new() -> Crowd {
        let settings = Settings::small()
            .conn_window(1 << 20)
            .stream_windows(256)
            .send_buffer(256)
            .streams(4096, 4096);
        let end = |role| {
            Endpoint::new(role, settings, settings.limits()).expect("the settings are in range")
        };
        let (mut client, mut server) = (end(Role::Client), end(Role::Server));
        let mut streams = begun(&mut client, Dir::Uni, OPENED[0]);
        streams.extend(begun(&mut client, Dir::Bidi, OPENED[1]));
        streams.extend(begun(&mut server, Dir::Bidi, OPENED[2]));
        let mut crowd = Crowd {
            client,
            server,
            streams,
        };
        crowd.settle();
        crowd
    }

    /// Each endpoint sends what is pending and reads all, until nothing is left.
    fn settle(&mut self) {
        for _ in 0..3 {
            hand_on(&mut self.client, &mut self.server);
            hand_on(&mut self.server, &mut self.client);
            for &stream in &self.streams {
                read_all(&mut self.client, stream);
                read_all(&mut self.server, stream);
            }
        }
    }

    /// The client's last unidirectional stream.
    fn last(&self) -> StreamId {
        StreamId::from_parts(Role::Client, Dir::Uni, OPENED[0] - 1).expect("it is below 2^62")
    }
}

// Opens this many streams and writes one byte to each.
fn begun(end: &mut Endpoint, dir: Dir, count: u64) -> Vec<StreamId> {
    let mut begin = || {
        let stream = end.open(dir).expect("the peer grants as many");
        end.write(stream, b"?").expect("it is open");
        stream
    };
    (0..count).map(|_| begin()).collect()
}

fn read_all(end: &mut Endpoint, stream: StreamId) {
    let mut bytes = [0; 256];
    while let Ok(Read::Bytes(_)) = end.read(stream, &mut bytes) {}
}

// Times a search that begins at the lowest stream and has to find this one.
fn timed(
    end: &Endpoint,
    stream: StreamId,
    next: fn(&Endpoint, StreamId) -> Option<StreamId>,
) -> Run {
    let least = StreamId::new(0).expect("it is below 2^62");
    let units = 1_000_000;
    assert_eq!(next(end, least), Some(stream));
    let time = time(|| {
        for _ in 0..units {
            black_box(next(black_box(end), least));
        }
    });
    Run { time, units }
}

fn readable() -> Run {
    let mut crowd = Crowd::new();
    let last = crowd.last();
    crowd.client.write(last, b"!").expect("it is open");
    hand_on(&mut crowd.client, &mut crowd.server);
    timed(&crowd.server, last, Endpoint::next_readable)
}

fn sendable() -> Run {
    let mut crowd = Crowd::new();
    let last = crowd.last();
    crowd.client.write(last, b"!").expect("it is open");
    timed(&crowd.client, last, Endpoint::next_sendable)
}

fn writable() -> Run {
    let mut crowd = Crowd::new();
    let last = crowd.last();
    for &stream in crowd.streams.iter().filter(|&&stream| stream != last) {
        // (The server opened no unidirectional stream, so the client can finish each.)
        crowd.client.finish(stream).expect("it is open");
    }
    timed(&crowd.client, last, Endpoint::next_writable)
}

fn ended() -> Run {
    let mut crowd = Crowd::new();
    let last = crowd.last();
    crowd.client.finish(last).expect("it is open");
    crowd.settle();
    timed(&crowd.server, last, Endpoint::next_ended)
}

// Whether anything is pending; here bytes of the last stream are.
fn due() -> Run {
    let mut crowd = Crowd::new();
    crowd.client.write(crowd.last(), b"!").expect("it is open");
    let units = 1_000_000;
    let time = time(|| {
        for _ in 0..units {
            assert!(black_box(&crowd.client).is_sendable());
        }
    });
    Run { time, units }
}

pub fn rows() -> Vec<Row> {
    let row = |name, run| Row {
        name,
        unit: "search",
        run,
    };
    vec![
        row("search-readable-10000", readable),
        row("search-sendable-10000", sendable),
        row("search-due-10000", due),
        row("search-writable-10000", writable),
        row("search-ended-10000", ended),
    ]
}
