//! Counts of streams that move by shares of a grant, what counts as taken, and an end that is read on once it closed.

use gotsavena::{
    Consumed, Dir, Endpoint, Frame, PeerLimits, Read, ReceiveFault, Received, Role, Settings,
    Share, StreamId, Tuning, UseFault, frames,
};

const GRANT: u64 = 100;

fn settings() -> Settings {
    Settings::default().streams(GRANT, 20_000)
}

fn tuned(role: Role, tuning: Tuning) -> Endpoint {
    let peer: PeerLimits = settings().limits();
    Endpoint::with_tuning(role, settings(), tuning, peer).expect("in range")
}

/// What is due goes across. Answers how many MAX_STREAMS frames it held.
fn carry(from: &mut Endpoint, to: &mut Endpoint) -> (usize, usize) {
    let mut payload = [0; 1200];
    let (mut packets, mut counts) = (0, 0);
    while let Some(made) = from.make_packet(&mut payload).expect("memory") {
        let text = &payload[..made.len];
        counts += frames(text)
            .filter(|frame| matches!(frame, Ok(placed) if matches!(placed.frame, Frame::MaxStreams { .. })))
            .count();
        assert_eq!(to.receive(made.number, text), Ok(Received::Done));
        packets += 1;
    }
    (packets, counts)
}

fn rest(client: &mut Endpoint, server: &mut Endpoint) -> usize {
    let mut counts = 0;
    loop {
        let (there, _) = carry(client, server);
        let (back, told) = carry(server, client);
        counts += told;
        if there + back == 0 {
            return counts;
        }
    }
}

/// So many requests, each of which ends before the next begins. Answers how many MAX_STREAMS frames the server sent.
fn requests(step: Option<Share>, count: usize) -> usize {
    let mut client = tuned(Role::Client, Tuning::default());
    let mut server = tuned(Role::Server, Tuning::default().count_step(step));
    let mut bytes = [0; 8];
    let mut told = 0;
    for _ in 0..count {
        let stream = client.open(Dir::Bidi).expect("it is granted");
        client.write(stream, b"request").expect("it is open");
        client.finish(stream).expect("it is open");
        told += rest(&mut client, &mut server);
        assert_eq!(server.accept(), Some(stream));
        assert_eq!(server.read(stream, &mut bytes), Ok(Read::Bytes(7)));
        assert_eq!(server.read(stream, &mut bytes), Ok(Read::End));
        server.write(stream, b"answer").expect("it is open");
        server.finish(stream).expect("it is open");
        told += rest(&mut client, &mut server);
        assert_eq!(client.read(stream, &mut bytes), Ok(Read::Bytes(6)));
        assert_eq!(client.read(stream, &mut bytes), Ok(Read::End));
    }
    told
}

#[test]
fn an_idle_connection_tells_one_count_for_each_step() {
    assert_eq!(requests(None, 10_000), 10_000);
    // An eighth of a hundred are twelve.
    assert_eq!(requests(Some(Share::Eighth), 10_000), 10_000 / 12);
    // A step is no more than the grant, so no client waits for ever.
    assert_eq!(requests(Some(Share::Half), 1_000), 1_000 / 50);
}

#[test]
fn all_granted_streams_may_be_open_at_once_and_end() {
    for step in [Share::Half, Share::Quarter, Share::Eighth, Share::Sixteenth] {
        for grant in [1, 2, 3, 15, 16, 17, 100] {
            let own = Settings::default().streams(grant, 10 * grant + 1);
            let tuning = Tuning::default().count_step(Some(step));
            let mut client = Endpoint::new(Role::Client, own, own.limits()).expect("in range");
            let mut server =
                Endpoint::with_tuning(Role::Server, own, tuning, own.limits()).expect("in range");
            let mut opened = 0;
            while opened < 10 * grant + 1 {
                let mut streams = Vec::new();
                while let Ok(stream) = client.open(Dir::Uni) {
                    client.finish(stream).expect("it is open");
                    streams.push(stream);
                }
                assert!(!streams.is_empty(), "{step:?} of {grant}: a client waits");
                opened += streams.len() as u64;
                rest(&mut client, &mut server);
                for stream in streams {
                    assert_eq!(server.read(stream, &mut [0]), Ok(Read::End));
                }
                rest(&mut client, &mut server);
            }
            assert_eq!(server.granted_streams(Dir::Uni), 10 * grant + 1);
        }
    }
}

#[test]
fn what_was_taken_is_told_of_each_stream_and_in_all() {
    let mut client = tuned(Role::Client, Tuning::default());
    let mut server = tuned(Role::Server, Tuning::default());
    let [read, stopped, broken] = [(); 3].map(|()| client.open(Dir::Uni).expect("granted"));
    for stream in [read, stopped, broken] {
        client.write(stream, b"hello").expect("it is open");
    }
    rest(&mut client, &mut server);
    assert_eq!(server.taken(read), Some(0));
    assert_eq!(server.read(read, &mut [0; 3]), Ok(Read::Bytes(3)));
    server.stop(stopped, 0).expect("it is open");
    client.reset(broken, 0).expect("it is open");
    rest(&mut client, &mut server);
    assert_eq!(server.taken(read), Some(3));
    assert_eq!(server.taken(stopped), Some(5));
    assert_eq!(server.taken(broken), Some(5));
    assert_eq!(server.taken_sum(), 13);
    // A half that only sends takes nothing, and a stream that isn't open neither.
    assert_eq!(client.taken(read), None);
    assert_eq!(server.taken(StreamId::new(40).expect("a number")), None);
}

// A server to which three streams came, of which the last is over, and that then closed by the peer's fault.
fn closed(tuning: Tuning) -> (Endpoint, [StreamId; 3]) {
    let mut client = tuned(Role::Client, Tuning::default());
    let mut server = tuned(Role::Server, tuning);
    let streams = [(); 3].map(|()| client.open(Dir::Uni).expect("granted"));
    for stream in streams {
        client.write(stream, b"hello").expect("it is open");
    }
    client.finish(streams[1]).expect("it is open");
    rest(&mut client, &mut server);
    // A byte past all credit: FLOW_CONTROL_ERROR.
    let past = [0x0e, 0x02, 0xbf, 0xff, 0xff, 0xff, 0x01, 0x00];
    let fault = server.receive(1000, &past);
    assert!(matches!(fault, Err(ReceiveFault::Closing(closing)) if closing.code == 0x03));
    (server, streams)
}

#[test]
fn a_closed_end_gives_nothing_out() {
    let (mut server, [first, ..]) = closed(Tuning::default());
    assert_eq!(server.next_readable(first), None);
    assert_eq!(server.read(first, &mut [0; 8]), Err(UseFault::Closed));
    assert_eq!(server.consume(first, 8), Err(UseFault::Closed));
}

#[test]
fn a_closed_end_is_read_on_where_its_owner_chose_so() {
    let (mut server, [first, second, third]) = closed(Tuning::default().reads_when_closed(true));
    let mut bytes = [0; 8];
    assert_eq!(server.stored(), 15);
    assert_eq!(server.next_readable(first), Some(first));
    assert_eq!(server.read(first, &mut bytes), Ok(Read::Bytes(5)));
    assert_eq!(&bytes[..5], b"hello");
    assert_eq!(server.read(first, &mut bytes), Ok(Read::Wait));
    assert_eq!(server.next_readable(first), Some(second));
    let all = server.consume(second, 8);
    assert!(matches!(
        all,
        Ok(Consumed {
            read: Read::Bytes(5),
            at_end: true,
            ..
        })
    ));
    assert_eq!(server.next_readable(first), Some(third));
    assert_eq!(server.read(third, &mut bytes), Ok(Read::Bytes(5)));
    assert_eq!((server.stored(), server.next_readable(first)), (0, None));
    // Nothing else goes on.
    assert_eq!(server.stop(third, 0), Err(UseFault::Closed));
    assert!(server.make_packet(&mut [0; 100]).is_err());
    assert!(!server.is_sendable());
    assert!(server.receive(1001, &[0x01]).is_err());
}
