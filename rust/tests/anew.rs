//! Windows and grants that the application changes during a connection.

use gotsavena::{
    Dir, Endpoint, Frame, OpenFault, Read, Received, SetFault, Settings, StreamId, frames,
};

mod support;
use support::Random;
use support::pairs::{carry, ends, rest};

/// All that is there of a stream is read. Answers how many bytes, and whether the end came.
fn read_all(end: &mut Endpoint, stream: StreamId) -> (usize, bool) {
    let mut bytes = [0; 1000];
    let mut count = 0;
    loop {
        match end.read(stream, &mut bytes) {
            Ok(Read::Bytes(more)) => count += more,
            Ok(Read::End) => return (count, true),
            _ => return (count, false),
        }
    }
}

#[test]
fn a_greater_window_is_told_at_once() {
    let settings = Settings::small()
        .conn_window(1000)
        .bidi_local_window(100_000)
        .bidi_remote_window(100_000)
        .send_buffer(100_000);
    let (mut client, mut server) = ends(settings);
    let stream = client.open(Dir::Bidi).expect("granted");
    assert_eq!(client.write(stream, &[7; 5000]), Ok(5000));
    rest(&mut client, &mut server);
    assert_eq!((server.spent(), server.granted()), (1000, 1000));
    assert_eq!(client.credit_left(), 0);
    // One byte more is less than any step, and yet it is told.
    assert_eq!(server.set_conn_window(1001), Ok(()));
    let mut payload = [0; 1200];
    let made = server.make_packet(&mut payload).expect("memory");
    let made = made.expect("the limit is to be told");
    let text = &payload[..made.len];
    assert!(frames(text).any(
        |frame| matches!(frame, Ok(placed) if placed.frame == Frame::MaxData { maximum: 1001 })
    ));
    assert_eq!(client.receive(made.number, text), Ok(Received::Done));
    rest(&mut client, &mut server);
    assert_eq!(server.spent(), 1001);
    assert_eq!(server.set_conn_window(1 << 40), Ok(()));
    rest(&mut client, &mut server);
    assert_eq!(server.spent(), 5000);
    assert_eq!(read_all(&mut server, stream), (5000, false));
    assert_eq!(server.granted(), 1 << 40);
}

#[test]
fn a_smaller_window_lets_the_limit_stand() {
    let settings = Settings::small()
        .conn_window(1000)
        .bidi_remote_window(100_000)
        .send_buffer(100_000);
    let (mut client, mut server) = ends(settings);
    assert_eq!(server.set_conn_window(100), Ok(()));
    assert_eq!(server.granted(), 1000);
    let stream = client.open(Dir::Bidi).expect("granted");
    let mut taken = 0;
    for _ in 0..30 {
        client.write(stream, &[7; 90]).expect("open");
        rest(&mut client, &mut server);
        taken += read_all(&mut server, stream).0 as u64;
        let window = server.granted() - taken;
        assert!(server.granted() >= 1000);
        if server.granted() > 1000 {
            assert!((51..=100).contains(&window), "{window}");
        }
    }
    assert_eq!(taken, 30 * 90);
}

#[test]
fn a_grant_moves_the_count_at_once_and_takes_nothing_back() {
    let (mut client, mut server) = ends(Settings::small().bidi_streams(1, 6));
    let first = client.open(Dir::Bidi).expect("granted");
    assert_eq!(client.open(Dir::Bidi), Err(OpenFault::Blocked(1)));
    assert_eq!(server.set_grant(Dir::Bidi, 3), Ok(()));
    assert_eq!(server.granted_streams(Dir::Bidi), 3);
    assert_eq!(server.granted_streams(Dir::Uni), 8);
    rest(&mut client, &mut server);
    let second = client.open(Dir::Bidi).expect("granted now");
    assert_eq!(server.set_grant(Dir::Bidi, 0), Ok(()));
    for stream in [first, second] {
        client.finish(stream).expect("open");
        rest(&mut client, &mut server);
        assert_eq!(server.accept(), Some(stream));
        assert_eq!(read_all(&mut server, stream), (0, true));
        server.finish(stream).expect("open");
        rest(&mut client, &mut server);
        // A stream that ended makes no room for another one.
        assert_eq!(server.granted_streams(Dir::Bidi), 3);
    }
    assert!(client.open(Dir::Bidi).is_ok());
    assert_eq!(client.open(Dir::Bidi), Err(OpenFault::Blocked(3)));
    // Beside the two that ended there is room for two, and in all for six.
    assert_eq!(server.set_grant(Dir::Bidi, 2), Ok(()));
    assert_eq!(server.granted_streams(Dir::Bidi), 4);
    assert_eq!(server.set_grant(Dir::Bidi, 1 << 17), Ok(()));
    assert_eq!(server.granted_streams(Dir::Bidi), 6);
    rest(&mut client, &mut server);
    for _ in 3..6 {
        assert!(client.open(Dir::Bidi).is_ok());
    }
    assert_eq!(client.open(Dir::Bidi), Err(OpenFault::Blocked(6)));
}

#[test]
fn what_is_out_of_range_is_refused() {
    let (_, mut server) = ends(Settings::small());
    let before = format!("{server:?}");
    for window in [0, (1 << 40) + 1, u64::MAX] {
        assert_eq!(server.set_conn_window(window), Err(SetFault::OutOfRange));
    }
    for dir in [Dir::Bidi, Dir::Uni] {
        for streams in [(1 << 17) + 1, u64::MAX] {
            assert_eq!(server.set_grant(dir, streams), Err(SetFault::OutOfRange));
        }
    }
    assert_eq!(format!("{server:?}"), before);
    assert_eq!(
        server.receive(0, &[0x1c, 7, 0, 0]),
        Ok(Received::PeerClosed(7))
    );
    let before = format!("{server:?}");
    assert_eq!(server.set_conn_window(10), Err(SetFault::Closed));
    assert_eq!(server.set_conn_window(0), Err(SetFault::Closed));
    assert_eq!(server.set_grant(Dir::Uni, 10), Err(SetFault::Closed));
    assert_eq!(format!("{server:?}"), before);
}

/// One end's limits, and the widest window that was set.
struct Seen {
    granted: u64,
    counts: [u64; 2],
    taken: u64,
    widest: u64,
}

impl Seen {
    fn look(&mut self, end: &Endpoint) {
        let counts = [Dir::Bidi, Dir::Uni].map(|dir| end.granted_streams(dir));
        assert!(end.granted() >= self.granted);
        assert!(counts[0] >= self.counts[0] && counts[1] >= self.counts[1]);
        assert!(counts.iter().all(|&count| count <= 200));
        assert!(end.stored() <= end.granted() - self.taken);
        assert!(end.granted() - self.taken <= self.widest);
        (self.granted, self.counts) = (end.granted(), counts);
    }
}

// Whatever is set and when, no limit and no count falls, what is granted lies within the widest window, and all arrives.
#[test]
fn anything_may_be_set_at_any_time() {
    for seed in 0..40 {
        let mut random = Random::new(seed);
        let settings = Settings::small()
            .conn_window(500)
            .bidi_streams(2, 200)
            .uni_streams(1, 200);
        let (mut client, mut server) = ends(settings);
        let mut seen = Seen {
            granted: 500,
            counts: [2, 1],
            taken: 0,
            widest: 500,
        };
        let (mut written, mut open) = (0, Vec::new());
        for _ in 0..400 {
            match random.below(6) {
                0 => {
                    let window = 1 + random.below(2000);
                    assert_eq!(server.set_conn_window(window), Ok(()));
                    seen.widest = seen.widest.max(window);
                }
                1 => {
                    let dir = if random.chance(50) {
                        Dir::Bidi
                    } else {
                        Dir::Uni
                    };
                    assert_eq!(server.set_grant(dir, random.below(8)), Ok(()));
                }
                2 => {
                    if let Ok(stream) = client.open(Dir::Uni) {
                        let sent = client.write(stream, &[1; 300]).expect("open");
                        client.finish(stream).expect("open");
                        written += sent as u64;
                        open.push(stream);
                    }
                }
                3 => _ = carry(&mut client, &mut server),
                4 => _ = carry(&mut server, &mut client),
                _ => open.retain(|&stream| {
                    let (bytes, ended) = read_all(&mut server, stream);
                    seen.taken += bytes as u64;
                    !ended
                }),
            }
            seen.look(&server);
        }
        while !open.is_empty() {
            rest(&mut client, &mut server);
            open.retain(|&stream| {
                let (bytes, ended) = read_all(&mut server, stream);
                seen.taken += bytes as u64;
                !ended
            });
            seen.look(&server);
        }
        assert_eq!(seen.taken, written, "seed {seed}");
    }
}

// What is set anew is nothing that the peer was told at first: a packet tells it, and once that is acknowledged no other does.
#[test]
fn what_was_told_at_first_stays() {
    let (mut client, mut server) = ends(Settings::small().conn_window(1000));
    assert_eq!(server.set_conn_window(2000), Ok(()));
    assert_eq!(server.set_grant(Dir::Uni, 4), Ok(()));
    assert_eq!(server.granted_streams(Dir::Uni), 8);
    assert_eq!(carry(&mut server, &mut client), 1);
    assert_eq!(client.credit_left(), 2000);
    rest(&mut client, &mut server);
    assert_eq!(server.set_conn_window(500), Ok(()));
    assert_eq!(server.set_conn_window(2000), Ok(()));
    assert!(!server.is_sendable());
}
