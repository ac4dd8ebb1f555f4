//! Windows of streams that the application changes during a connection.

use gotsavena::{
    Dir, Endpoint, Frame, Read, Received, RecvReport, SetFault, Settings, StreamId, frames,
};

mod support;
use support::Random;
use support::pairs::{carry, ends, rest};

fn receiving(end: &Endpoint, stream: StreamId) -> RecvReport {
    let half = end.report(stream).and_then(|report| report.recv);
    half.expect("it is open")
}

fn limit(end: &Endpoint, stream: StreamId) -> u64 {
    receiving(end, stream).limit
}

/// Reads at most so many bytes.
fn read(end: &mut Endpoint, stream: StreamId, most: usize) -> usize {
    match end.read(stream, &mut vec![0; most]) {
        Ok(Read::Bytes(count)) => count,
        _ => 0,
    }
}

fn narrow(window: u64) -> Settings {
    Settings::small()
        .conn_window(1 << 20)
        .stream_windows(window)
        .send_buffer(1 << 16)
}

#[test]
fn a_greater_window_is_told_at_once() {
    let (mut client, mut server) = ends(narrow(1000));
    let stream = client.open(Dir::Bidi).expect("granted");
    let other = client.open(Dir::Bidi).expect("granted");
    for stream in [stream, other] {
        assert_eq!(client.write(stream, &[7; 5000]), Ok(5000));
    }
    rest(&mut client, &mut server);
    assert_eq!(server.stored(), 2000);
    // One byte more is less than any step, and yet it is told.
    assert_eq!(server.set_stream_window(stream, 1001), Ok(()));
    let mut payload = [0; 1200];
    let made = server.make_packet(&mut payload).expect("memory");
    let made = made.expect("the limit is to be told");
    let text = &payload[..made.len];
    assert!(frames(text).any(|frame| matches!(
        frame, Ok(placed) if matches!(placed.frame, Frame::MaxStreamData { maximum: 1001, .. })
    )));
    assert_eq!(client.receive(made.number, text), Ok(Received::Done));
    rest(&mut client, &mut server);
    assert_eq!(server.stored(), 2001);
    assert_eq!(server.set_stream_window(stream, 1 << 30), Ok(()));
    rest(&mut client, &mut server);
    // The other stream's stays as it was, and one that opens later begins with the setting.
    assert_eq!(server.stored(), 6000);
    assert_eq!(limit(&server, other), 1000);
    let third = client.open(Dir::Bidi).expect("granted");
    assert_eq!(client.write(third, &[7; 5000]), Ok(5000));
    rest(&mut client, &mut server);
    assert_eq!(server.stored(), 7000);
}

#[test]
fn a_smaller_window_lets_the_limit_stand() {
    let (mut client, mut server) = ends(narrow(1000));
    let stream = client.open(Dir::Bidi).expect("granted");
    client.write(stream, &[7]).expect("open");
    rest(&mut client, &mut server);
    assert_eq!(server.set_stream_window(stream, 100), Ok(()));
    assert_eq!(limit(&server, stream), 1000);
    let mut taken = read(&mut server, stream, 1) as u64;
    for _ in 0..30 {
        client.write(stream, &[7; 90]).expect("open");
        rest(&mut client, &mut server);
        taken += read(&mut server, stream, 90) as u64;
        let window = limit(&server, stream) - taken;
        if limit(&server, stream) > 1000 {
            assert!((51..=100).contains(&window), "{window}");
        }
    }
    assert_eq!(taken, 1 + 30 * 90);
}

#[test]
fn once_the_length_is_known_no_limit_moves() {
    let (mut client, mut server) = ends(narrow(1000));
    let stream = client.open(Dir::Uni).expect("granted");
    client.write(stream, b"abc").expect("open");
    client.finish(stream).expect("open");
    rest(&mut client, &mut server);
    assert_eq!(server.set_stream_window(stream, 2000), Ok(()));
    assert_eq!(limit(&server, stream), 1000);
    assert!(!server.is_sendable());
    assert_eq!(read(&mut server, stream, 10), 3);
}

#[test]
fn what_is_out_of_range_is_refused() {
    let (mut client, mut server) = ends(narrow(1000));
    let stream = client.open(Dir::Uni).expect("granted");
    client.write(stream, b"abc").expect("open");
    rest(&mut client, &mut server);
    let unknown = StreamId::new(6).expect("small");
    let before = format!("{server:?}");
    for window in [0, (1 << 30) + 1, u64::MAX] {
        let refused = Err(SetFault::OutOfRange);
        assert_eq!(server.set_stream_window(stream, window), refused);
        assert_eq!(server.set_stream_window(unknown, window), refused);
    }
    let refused = Err(SetFault::NoSuchStream);
    assert_eq!(server.set_stream_window(unknown, 10), refused);
    let refused = Err(SetFault::WrongDirection);
    assert_eq!(client.set_stream_window(stream, 10), refused);
    assert_eq!(format!("{server:?}"), before);
    let closing = [0x1c, 7, 0, 0];
    assert_eq!(server.receive(9, &closing), Ok(Received::PeerClosed(7)));
    assert_eq!(server.set_stream_window(stream, 0), Err(SetFault::Closed));
}

// Whatever is set and when, no limit falls, what is granted lies within the widest window, and all arrives.
#[test]
fn anything_may_be_set_at_any_time() {
    for seed in 0..40 {
        let mut random = Random::new(seed);
        let (mut client, mut server) = ends(narrow(500));
        let streams = [Dir::Bidi, Dir::Uni].map(|dir| client.open(dir).expect("granted"));
        for stream in streams {
            assert_eq!(client.write(stream, &[1; 20_000]), Ok(20_000));
        }
        rest(&mut client, &mut server);
        let mut seen = [(500, 0, 500); 2];
        for _ in 0..400 {
            let which = random.below(2) as usize;
            let (granted, taken, widest) = &mut seen[which];
            match random.below(4) {
                0 => {
                    let window = 1 + random.below(2000);
                    assert_eq!(server.set_stream_window(streams[which], window), Ok(()));
                    *widest = window.max(*widest);
                }
                1 => _ = carry(&mut client, &mut server),
                2 => _ = carry(&mut server, &mut client),
                _ => *taken += read(&mut server, streams[which], 300) as u64,
            }
            let limit = limit(&server, streams[which]);
            assert!(limit >= *granted, "seed {seed}");
            assert!(limit - *taken <= *widest, "seed {seed}");
            *granted = limit;
        }
        for (stream, (_, taken, _)) in streams.iter().zip(&mut seen) {
            loop {
                rest(&mut client, &mut server);
                match read(&mut server, *stream, 300) {
                    0 => break,
                    count => *taken += count as u64,
                }
            }
            assert_eq!(*taken, 20_000, "seed {seed}");
        }
    }
}
