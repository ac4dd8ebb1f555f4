//! Writes that keep within credit, and what waits to be sent, beside a plain count.

use gotsavena::{
    Dir, Endpoint, Frame, PeerLimits, Read, Received, Role, Settings, StreamId, Tuning, UseFault,
    frames,
};

struct Draws(u64);

impl Draws {
    fn below(&mut self, n: u64) -> u64 {
        self.0 ^= self.0 << 13;
        self.0 ^= self.0 >> 7;
        self.0 ^= self.0 << 17;
        self.0 % n
    }
}

fn small() -> Settings {
    Settings::default()
        .stream_windows(700)
        .conn_window(1500)
        .send_buffer(900)
}

fn prudent(role: Role, settings: Settings, peer: PeerLimits) -> Endpoint {
    let tuning = Tuning::default().within_credit(true);
    Endpoint::with_tuning(role, settings, tuning, peer).expect("in range")
}

// How many bytes of a stream are kept: those from the lowest offset on that isn't acknowledged, and none after a reset.
fn kept(end: &Endpoint, stream: StreamId) -> u64 {
    let send = end.report(stream).and_then(|report| report.send);
    let send = send.expect("open");
    match send.reset_code {
        Some(_code) => 0,
        None => send.written - end.acked_below(stream).expect("open"),
    }
}

// What waits is what each stream tells, and has credit; what is kept is what wasn't acknowledged.
fn check(end: &Endpoint, streams: &[StreamId], within: bool) {
    let plain: u64 = streams.iter().map(|&stream| end.unsent(stream)).sum();
    assert_eq!(end.unsent_sum(), plain);
    let kept: u64 = streams.iter().map(|&stream| kept(end, stream)).sum();
    assert_eq!(end.kept_sum(), kept);
    if !within {
        return;
    }
    assert!(plain <= end.credit_left());
    for &stream in streams {
        assert!(!end.is_blocked(stream));
        let send = end.report(stream).and_then(|report| report.send);
        assert!(send.expect("open").written <= send.expect("open").limit);
    }
}

// A packet goes, and comes or is lost.
fn pass(from: &mut Endpoint, to: &mut Endpoint, draws: &mut Draws, within: bool) {
    let mut payload = [0; 300];
    let Some(made) = from.make_packet(&mut payload).expect("open") else {
        return;
    };
    let text = &payload[..made.len];
    for frame in frames(text) {
        let frame = frame.expect("a frame").frame;
        let blocked = matches!(
            frame,
            Frame::DataBlocked { .. } | Frame::StreamDataBlocked { .. }
        );
        assert!(!(within && blocked), "{frame:?}");
    }
    if draws.below(5) == 0 {
        let _ = from.declare_lost(made.number);
    } else {
        assert_eq!(to.receive(made.number, text), Ok(Received::Done));
    }
}

fn run(seed: u64, within: bool) {
    let mut draws = Draws(seed);
    let settings = small();
    let mut client = if within {
        prudent(Role::Client, settings, settings.limits())
    } else {
        Endpoint::new(Role::Client, settings, settings.limits()).expect("in range")
    };
    let mut server = Endpoint::new(Role::Server, settings, settings.limits()).expect("in range");
    let mut streams = Vec::new();
    for _ in 0..4 {
        streams.push(client.open(Dir::Uni).expect("granted"));
    }
    let bytes = [7; 1000];
    for _ in 0..600 {
        let stream = streams[draws.below(4) as usize];
        match draws.below(16) {
            0..=5 => {
                let len = draws.below(1000) as usize;
                let room = client.room(stream) as usize;
                match client.write(stream, &bytes[..len]) {
                    Ok(count) => assert_eq!(count, room.min(len)),
                    Err(fault) => {
                        assert!(matches!(fault, UseFault::Finished | UseFault::WasReset));
                        assert_eq!(room, 0);
                    }
                }
            }
            6..=9 => pass(&mut client, &mut server, &mut draws, within),
            10..=11 => pass(&mut server, &mut client, &mut draws, false),
            12..=14 => {
                let mut into = [0; 400];
                if let Ok(Read::Bytes(count)) = server.read(stream, &mut into) {
                    assert!(into[..count].iter().all(|&byte| byte == 7));
                }
            }
            _ => {
                if draws.below(8) == 0 {
                    match draws.below(3) {
                        0 => drop(client.reset(stream, 1)),
                        1 => drop(client.finish(stream)),
                        _ => drop(server.stop(stream, 2)),
                    }
                }
            }
        }
        check(&client, &streams, within);
    }
}

#[test]
fn what_waits_has_credit_in_random_runs() {
    for seed in 1..60 {
        run(seed, true);
    }
}

#[test]
fn what_waits_is_what_each_stream_tells() {
    for seed in 1..60 {
        run(seed, false);
    }
}

#[test]
fn a_write_is_cut_to_the_lesser_credit() {
    let settings = small();
    let mut end = prudent(Role::Client, settings, settings.limits());
    let (a, b, c) = (
        end.open(Dir::Uni).expect("granted"),
        end.open(Dir::Uni).expect("granted"),
        end.open(Dir::Uni).expect("granted"),
    );
    // The stream's limit, then the connection's, less what waits.
    assert_eq!(end.room(a), 700);
    assert_eq!(end.write(a, &[0; 900]), Ok(700));
    assert_eq!((end.room(a), end.write(a, b"x")), (0, Ok(0)));
    assert_eq!(end.write(b, &[0; 900]), Ok(700));
    assert_eq!(end.room(c), 100);
    assert_eq!(end.write(c, &[0; 900]), Ok(100));
    assert_eq!((end.unsent_sum(), end.credit_left()), (1500, 1500));
    // What was reset before it was sent gives its credit back.
    end.reset(b, 3).expect("open");
    assert_eq!((end.unsent_sum(), end.room(c)), (800, 600));
}

#[test]
fn by_default_the_buffer_alone_counts() {
    let settings = small();
    let mut end = Endpoint::new(Role::Client, settings, settings.limits()).expect("in range");
    let stream = end.open(Dir::Uni).expect("granted");
    assert_eq!(end.room(stream), 900);
    assert_eq!(end.write(stream, &[0; 1000]), Ok(900));
    assert_eq!(end.unsent_sum(), 900);
}
