//! Windows that grow by themselves. A limit that is small against bandwidth and delay makes a stream slow (RFC 9000, section 4.3), and
//! which one is small the stream layer can't know: it has no clock.
//!
//! Where as much as a window was read in less than two round trips, the window may be what holds the sender back, and it doubles. That
//! goes for each stream and for the connection, whose window stays twice that of any stream at least.

use gotsavena::{Dir, Endpoint, PeerLimits, Role, StreamId};
use std::collections::BTreeMap;
use std::time::{Duration, Instant};

/// The runs of received bytes that a connection may have beside what its streams and its window account for.
const FEW_RUNS: u64 = 1 << 14;
/// The most that a window accounts for.
const MOST_OF_WINDOW: u64 = 1 << 18;

pub struct Windows {
    role: Role,
    first: PeerLimits,
    most: u64,
    conn: Window,
    /// How many bidirectional streams of this end have a lower number than one on which bytes came, or that one's.
    own_bidi: u64,
    streams: BTreeMap<StreamId, Window>,
    came: Vec<StreamId>,
}

struct Window {
    size: u64,
    read: u64,
    since: Instant,
}

impl Window {
    fn new(size: u64, now: Instant) -> Window {
        Window {
            size,
            read: 0,
            since: now,
        }
    }

    /// So many bytes were read by now. Answers whether the window is wider for it.
    fn grows(&mut self, read: u64, most: u64, round_trip: Duration, now: Instant) -> bool {
        if read - self.read < self.size {
            return false;
        }
        let was_used_up = now - self.since < 2 * round_trip && self.size < most;
        if was_used_up {
            self.size = most.min(2 * self.size);
        }
        (self.read, self.since) = (read, now);
        was_used_up
    }
}

impl Windows {
    pub fn new(role: Role, first: PeerLimits, most: u64, now: Instant) -> Windows {
        Windows {
            role,
            first,
            most,
            conn: Window::new(first.max_data, now),
            own_bidi: 0,
            streams: BTreeMap::new(),
            came: Vec::new(),
        }
    }

    /// Into how many runs received bytes may fall: two for each stream that may be open, as each that has bytes counts, and one for each
    /// packet that the connection's window may have under way. A run takes at most 32 bytes, and on streams that were stopped no window
    /// bounds them; so a peer with more is closed.
    pub fn most_runs(&self) -> u64 {
        let halves = self.first.streams_bidi + self.first.streams_uni + self.own_bidi;
        FEW_RUNS + 2 * halves + MOST_OF_WINDOW.min(self.conn.size / 1_000)
    }

    /// Something came of a stream. The next look is at such streams alone: one on which nothing comes costs nothing.
    pub fn came(&mut self, stream: StreamId, now: Instant) {
        if stream.dir() == Dir::Bidi && stream.initiator() == self.role {
            self.own_bidi = self.own_bidi.max(stream.index() + 1);
        }
        let first = self.first(stream);
        if first < self.most && self.came.last() != Some(&stream) {
            self.came.push(stream);
            let begun = || Window::new(first, now);
            self.streams.entry(stream).or_insert_with(begun);
        }
    }

    fn first(&self, stream: StreamId) -> u64 {
        match stream.dir() {
            Dir::Uni => self.first.uni,
            Dir::Bidi if stream.initiator() == self.role => self.first.bidi_local,
            Dir::Bidi => self.first.bidi_remote,
        }
    }

    /// Looks how much was read of what came, and lets windows grow. That a closed end takes none is as well.
    pub fn look(&mut self, end: &mut Endpoint, round_trip: Duration, now: Instant) {
        if self.came.is_empty() {
            return;
        }
        let before = self.conn.size;
        for stream in std::mem::take(&mut self.came) {
            let Some(read) = read_of(end, stream) else {
                self.streams.remove(&stream);
                continue;
            };
            let Some(window) = self.streams.get_mut(&stream) else {
                continue;
            };
            if window.grows(read, self.most, round_trip, now) {
                _ = end.set_stream_window(stream, window.size);
                self.conn.size = self.conn.size.max(2 * window.size);
            }
        }
        self.conn
            .grows(end.taken_sum(), 2 * self.most, round_trip, now);
        if self.conn.size > before {
            _ = end.set_conn_window(self.conn.size);
        }
    }
}

fn read_of(end: &Endpoint, stream: StreamId) -> Option<u64> {
    let half = end.report(stream)?.recv?;
    let is_open = half.final_size.is_none() && half.stop_code.is_none();
    is_open.then_some(half.read_count)
}

#[cfg(test)]
mod tests {
    use super::*;
    use gotsavena::{Read, Received, Settings};

    const ROUND_TRIP: Duration = Duration::from_millis(100);
    const FIRST: u64 = 1 << 10;

    struct Pair {
        client: Endpoint,
        server: Endpoint,
        windows: Windows,
        now: Instant,
    }

    impl Pair {
        fn new(most: u64) -> Pair {
            let settings = Settings::small()
                .conn_window(2 * FIRST)
                .stream_windows(FIRST)
                .send_buffer(1 << 20);
            let now = Instant::now();
            let [client, server] = [Role::Client, Role::Server]
                .map(|role| Endpoint::new(role, settings, settings.limits()).unwrap());
            let windows = Windows::new(Role::Server, settings.limits(), most, now);
            Pair {
                client,
                server,
                windows,
                now,
            }
        }

        fn open(&mut self) -> StreamId {
            let stream = self.client.open(Dir::Uni).unwrap();
            self.client.write(stream, &[7; 1 << 20]).unwrap();
            stream
        }

        /// The limits go to the client, and all that may go then to the server, which reads of the stream after so long.
        fn turn(&mut self, stream: StreamId, after: Duration) {
            carry(&mut self.server, &mut self.client, |_| ());
            let Pair {
                client,
                server,
                windows,
                now,
            } = self;
            carry(client, server, |_| windows.came(stream, *now));
            *now += after;
            let mut bytes = [0; 1 << 12];
            while let Ok(Read::Bytes(_)) = server.read(stream, &mut bytes) {}
            windows.look(server, ROUND_TRIP, *now);
        }

        fn window(&self, stream: StreamId) -> u64 {
            self.windows.streams[&stream].size
        }

        fn limit(&self, stream: StreamId) -> u64 {
            self.server.report(stream).unwrap().recv.unwrap().limit
        }
    }

    fn carry(from: &mut Endpoint, to: &mut Endpoint, mut came: impl FnMut(&[u8])) {
        let mut payload = [0; 1200];
        while let Some(made) = from.make_packet(&mut payload).unwrap() {
            let taken = to.receive(made.number, &payload[..made.len]);
            assert_eq!(taken, Ok(Received::Done));
            came(&payload[..made.len]);
        }
    }

    #[test]
    fn a_window_doubles_where_it_is_used_up_in_less_than_two_round_trips() {
        let mut pair = Pair::new(8 * FIRST);
        let stream = pair.open();
        for doubled in [2, 4, 8, 8, 8] {
            pair.turn(stream, ROUND_TRIP);
            assert_eq!(pair.window(stream), doubled * FIRST);
            let read = pair.server.taken(stream).unwrap();
            assert_eq!(pair.limit(stream), read + doubled * FIRST);
            assert_eq!(pair.server.granted(), read + 2 * doubled * FIRST);
        }
    }

    #[test]
    fn one_that_is_used_up_later_stays() {
        let mut pair = Pair::new(8 * FIRST);
        let stream = pair.open();
        for _ in 0..5 {
            pair.turn(stream, 2 * ROUND_TRIP);
        }
        assert_eq!(pair.window(stream), FIRST);
        assert_eq!(pair.windows.conn.size, 2 * FIRST);
        pair.turn(stream, ROUND_TRIP);
        assert_eq!(pair.window(stream), 2 * FIRST);
    }

    #[test]
    fn that_of_the_connection_grows_where_many_streams_share_it() {
        let mut pair = Pair::new(2 * FIRST);
        let streams: [StreamId; 8] = std::array::from_fn(|_| pair.open());
        let mut read = 0;
        for round in 1..=4 {
            carry(&mut pair.server, &mut pair.client, |_| ());
            let (now, windows) = (pair.now, &mut pair.windows);
            carry(&mut pair.client, &mut pair.server, |_| {
                for stream in streams {
                    windows.came(stream, now);
                }
            });
            let mut bytes = [0; 1 << 12];
            for stream in streams {
                if let Ok(Read::Bytes(count)) = pair.server.read(stream, &mut bytes) {
                    read += count as u64;
                }
            }
            pair.now += ROUND_TRIP;
            pair.windows.look(&mut pair.server, ROUND_TRIP, pair.now);
            assert_eq!(pair.server.taken_sum(), read, "in round {round}");
        }
        assert_eq!(pair.windows.conn.size, 4 * FIRST);
    }

    #[test]
    fn a_stream_of_which_no_more_is_read_is_let_go() {
        let mut pair = Pair::new(8 * FIRST);
        let [ended, stopped] = [pair.open(), pair.open()];
        pair.client.reset(ended, 1).unwrap();
        pair.turn(ended, ROUND_TRIP);
        assert!(pair.windows.streams.is_empty());
        pair.server.stop(stopped, 1).unwrap();
        pair.turn(stopped, ROUND_TRIP);
        assert!(pair.windows.streams.is_empty());
        assert_eq!(pair.windows.conn.size, 2 * FIRST);
    }

    #[test]
    fn windows_that_are_as_wide_as_they_may_be_cost_nothing() {
        let mut pair = Pair::new(FIRST);
        let stream = pair.open();
        pair.turn(stream, ROUND_TRIP);
        assert!(pair.windows.came.is_empty() && pair.windows.streams.is_empty());
    }
}
