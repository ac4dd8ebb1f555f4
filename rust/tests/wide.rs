//! Ends of the widest settings: a window that holds a long fat path.

use gotsavena::{
    Dir, Endpoint, Read, Received, Role, SendState, Settings, Share, StreamId, Tuning,
};
use std::collections::VecDeque;

const WINDOW: usize = 1 << 28;

fn two_ends(settings: Settings) -> [Endpoint; 2] {
    [Role::Client, Role::Server]
        .map(|role| Endpoint::new(role, settings, settings.limits()).expect("in range"))
}

/// The packets that are due go across, and are acknowledged as they come.
fn carry(from: &mut Endpoint, to: &mut Endpoint) -> usize {
    let mut payload = [0; 1200];
    let mut count = 0;
    while let Some(made) = from.make_packet(&mut payload).expect("memory") {
        let taken = to.receive(made.number, &payload[..made.len]);
        assert_eq!(taken, Ok(Received::Done));
        count += 1;
    }
    count
}

fn settle(client: &mut Endpoint, server: &mut Endpoint) {
    while carry(client, server) + carry(server, client) > 0 {}
}

#[test]
fn a_window_of_256_mib_is_sent_without_a_read() {
    let settings = Settings::small()
        .conn_window(WINDOW as u64)
        .stream_windows(WINDOW as u64)
        .send_buffer(WINDOW);
    let [mut client, mut server] = two_ends(settings);
    let stream = client.open(Dir::Uni).expect("a stream");
    let chunk = vec![7; 1 << 20];
    let mut sent = 0;
    while sent < WINDOW {
        sent += client.write(stream, &chunk).expect("it is open");
        settle(&mut client, &mut server);
    }
    assert_eq!(client.write(stream, &[7]), Ok(1));
    settle(&mut client, &mut server);
    assert_eq!(server.stored(), WINDOW as u64);
    assert_eq!(server.granted(), WINDOW as u64);
    assert_eq!(server.accept(), Some(stream));
    let mut bytes = vec![0; 1 << 20];
    let mut read = 0;
    while let Ok(Read::Bytes(count)) = server.read(stream, &mut bytes) {
        assert!(bytes[..count].iter().all(|byte| *byte == 7));
        read += count;
    }
    assert_eq!(read, WINDOW);
    settle(&mut client, &mut server);
    assert_eq!(server.read(stream, &mut bytes), Ok(Read::Bytes(1)));
}

/// A path from one end to the other: 1 Gbit/s, and 50 ms until a packet is there. Times are nanoseconds.
#[derive(Default)]
struct Path {
    free_at: u64,
    packets: VecDeque<(u64, u64, Vec<u8>)>,
}

impl Path {
    /// Each packet that an end makes while the path is free leaves at once.
    fn leave(&mut self, from: &mut Endpoint, now: u64) {
        let mut payload = [0; 1200];
        while self.free_at <= now {
            let Some(made) = from.make_packet(&mut payload).expect("memory") else {
                return;
            };
            self.free_at = now.max(self.free_at) + 8 * made.len as u64;
            let bytes = payload[..made.len].to_vec();
            self.packets
                .push_back((self.free_at + 50_000_000, made.number, bytes));
        }
    }

    /// Those that are there by now come.
    fn arrive(&mut self, to: &mut Endpoint, now: u64) {
        while self.packets.front().is_some_and(|packet| packet.0 <= now) {
            let (_, number, bytes) = self.packets.pop_front().expect("one is there");
            assert_eq!(to.receive(number, &bytes), Ok(Received::Done));
        }
    }

    /// When something changes here next.
    fn next(&self, now: u64) -> u64 {
        let there = self.packets.front().map_or(u64::MAX, |packet| packet.0);
        if self.free_at > now {
            there.min(self.free_at)
        } else {
            there
        }
    }
}

const SIZE: usize = 32 << 20;

/// How long these bytes take over such a path, until the last of it is acknowledged, with so large windows and buffers, in
/// nanoseconds. Limits move by such a share of a window.
fn transfer(window: usize, step: Share) -> u64 {
    let settings = Settings::small()
        .conn_window(window as u64)
        .stream_windows(window as u64)
        .send_buffer(window);
    let tuning = Tuning::default().credit_step(step);
    let [mut client, mut server] = [Role::Client, Role::Server].map(|role| {
        Endpoint::with_tuning(role, settings, tuning, settings.limits()).expect("in range")
    });
    let (mut there, mut back) = (Path::default(), Path::default());
    let stream = client.open(Dir::Uni).expect("a stream");
    let (mut written, mut read, mut now) = (0, 0, 0);
    let mut bytes = vec![0; 1 << 16];
    loop {
        there.arrive(&mut server, now);
        back.arrive(&mut client, now);
        if is_over(&client, stream) {
            assert_eq!(read, SIZE);
            return now;
        }
        while let Ok(Read::Bytes(count)) = server.read(stream, &mut bytes) {
            read += count;
        }
        while written < SIZE {
            let most = bytes.len().min(SIZE - written);
            match client.write(stream, &bytes[..most]).expect("it is open") {
                0 => break,
                count => written += count,
            }
        }
        if written == SIZE {
            _ = client.finish(stream);
        }
        there.leave(&mut client, now);
        back.leave(&mut server, now);
        now = there.next(now).min(back.next(now));
    }
}

fn is_over(end: &Endpoint, stream: StreamId) -> bool {
    let half = end.report(stream).and_then(|report| report.send);
    half.is_some_and(|half| half.state == SendState::DataRecvd)
}

/// What the bytes take on such a path by themselves, in nanoseconds: a bit for each.
const SENDING: u64 = 8 * SIZE as u64;
const ROUND_TRIP: u64 = 100_000_000;

#[test]
fn a_long_fat_path_is_used_up() {
    // The window is twice what is in flight in a round trip.
    let took = transfer(25_000_000, Share::Half);
    assert!(
        took <= SENDING + SENDING / 10 + ROUND_TRIP,
        "{took} nanoseconds"
    );
}

#[test]
fn small_steps_need_narrower_windows() {
    // A seventh more than what is in flight in a round trip takes no longer than twice as much: 268 ms for the bytes, 2 for the headers of
    // their frames, and a round trip.
    let took = transfer(14_300_000, Share::Eighth);
    assert!(took <= 370_300_000, "{took} nanoseconds");
    assert!(transfer(25_000_000, Share::Half) >= 370_200_000);
    // Exactly what is in flight in a round trip.
    let took = transfer(12_500_000, Share::Eighth);
    assert!(
        took <= SENDING + 3 * SENDING / 10 + ROUND_TRIP,
        "{took} nanoseconds"
    );
}

/// The window of a stream that grows by itself: where as much as a window was taken in less than two round trips, it may be
/// what holds the sender back, and it doubles. The connection's stays above it.
struct Growing {
    window: u64,
    taken: u64,
    since: u64,
}

impl Growing {
    const MOST: u64 = 1 << 26;

    fn look(&mut self, end: &mut Endpoint, stream: StreamId, now: u64) {
        let taken = end.taken(stream).unwrap_or(0);
        if taken - self.taken < self.window {
            return;
        }
        if now - self.since < 2 * ROUND_TRIP && self.window < Self::MOST {
            self.window *= 2;
            end.set_stream_window(stream, self.window).expect("open");
            end.set_conn_window(2 * self.window).expect("open");
        }
        (self.taken, self.since) = (taken, now);
    }
}

/// The same transfer, with a window that begins so small and grows. Answers its time and the window at its end.
fn growing_transfer(window: u64) -> (u64, u64) {
    let settings = Settings::small()
        .conn_window(2 * window)
        .stream_windows(window)
        .send_buffer(SIZE);
    let tuning = Tuning::default().credit_step(Share::Eighth);
    let [mut client, mut server] = [Role::Client, Role::Server].map(|role| {
        Endpoint::with_tuning(role, settings, tuning, settings.limits()).expect("in range")
    });
    let (mut there, mut back) = (Path::default(), Path::default());
    let stream = client.open(Dir::Uni).expect("a stream");
    assert_eq!(client.write(stream, &vec![7; SIZE]), Ok(SIZE));
    client.finish(stream).expect("open");
    let mut growing = Growing {
        window,
        taken: 0,
        since: 0,
    };
    let mut bytes = vec![0; 1 << 16];
    let mut now = 0;
    while !is_over(&client, stream) {
        there.arrive(&mut server, now);
        back.arrive(&mut client, now);
        while let Ok(Read::Bytes(_)) = server.read(stream, &mut bytes) {}
        growing.look(&mut server, stream, now);
        there.leave(&mut client, now);
        back.leave(&mut server, now);
        now = there.next(now).min(back.next(now));
    }
    (now, growing.window)
}

#[test]
fn a_window_that_grows_uses_up_a_long_fat_path() {
    let (took, window) = growing_transfer(1 << 18);
    // Seven doublings, a round trip for each, to more than what is in flight in one: 0.87 seconds.
    assert!(took <= 870_000_000, "{took} nanoseconds");
    assert!(
        (1 << 24..=Growing::MOST).contains(&window),
        "{window} bytes"
    );
}

#[test]
fn a_narrow_window_that_stays_takes_long() {
    // Of 256 KiB a round trip of 100 ms brings half, by default, and seven eighths where limits move by eighths: for 32 MiB 256 of them, or 147,
    // less a few, since the packet with which a limit moves goes past its share.
    for (step, seconds) in [(Share::Half, 25.4), (Share::Eighth, 14.4)] {
        let took = transfer(1 << 18, step) as f64 / 1e9;
        assert!((took - seconds).abs() < 0.05, "{took} seconds");
    }
}

#[test]
fn a_limit_moves_once_its_share_was_read() {
    for (step, parts) in [
        (Share::Half, 2),
        (Share::Quarter, 4),
        (Share::Eighth, 8),
        (Share::Sixteenth, 16),
    ] {
        let settings = Settings::small()
            .conn_window(1 << 16)
            .stream_windows(1 << 16)
            .send_buffer(1 << 16);
        let tuning = Tuning::default().credit_step(step);
        let [mut client, mut server] = [Role::Client, Role::Server].map(|role| {
            Endpoint::with_tuning(role, settings, tuning, settings.limits()).expect("in range")
        });
        let stream = client.open(Dir::Uni).expect("a stream");
        assert_eq!(client.write(stream, &[7; 1 << 16]), Ok(1 << 16));
        settle(&mut client, &mut server);
        let step = (1 << 16) / parts;
        let mut bytes = vec![0; step - 1];
        assert_eq!(server.read(stream, &mut bytes), Ok(Read::Bytes(step - 1)));
        settle(&mut client, &mut server);
        assert_eq!(server.granted(), 1 << 16);
        assert_eq!(server.read(stream, &mut [0]), Ok(Read::Bytes(1)));
        assert_eq!(server.granted(), (1 << 16) + step as u64);
        settle(&mut client, &mut server);
        assert_eq!(client.write(stream, &vec![7; step]), Ok(step));
        settle(&mut client, &mut server);
        assert_eq!(server.stored(), 1 << 16);
    }
}
