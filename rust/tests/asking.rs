//! What an end is asked, and what it answers as it is.

use gotsavena::{
    Dir, Endpoint, Frame, LostFault, OpenFault, PeerLimits, RaiseFault, Read, ReceiveFault,
    Received, Role, Settings, SetupFault, StreamId, Taken,
};

fn ends(settings: Settings) -> (Endpoint, Endpoint) {
    let client = Endpoint::new(Role::Client, settings, settings.limits()).expect("in range");
    let server = Endpoint::new(Role::Server, settings, settings.limits()).expect("in range");
    (client, server)
}

// One packet from an end to the other, where there is one.
fn pass(from: &mut Endpoint, to: &mut Endpoint) -> Option<u64> {
    let mut payload = [0; 1200];
    let made = from.make_packet(&mut payload).expect("open")?;
    assert_eq!(
        to.receive(made.number, &payload[..made.len]),
        Ok(Received::Done)
    );
    Some(made.number)
}

#[test]
fn an_ack_alone_is_not_sendable() {
    let (mut client, mut server) = ends(Settings::small());
    assert!(!client.is_sendable());
    let stream = client.open(Dir::Bidi).expect("granted");
    assert!(!client.is_sendable());
    client.write(stream, b"hello").expect("open");
    assert!(client.is_sendable());
    assert_eq!(pass(&mut client, &mut server), Some(0));
    assert!(!client.is_sendable());
    // The server owes an ACK and nothing else.
    assert!(!server.is_sendable());
    assert_eq!(pass(&mut server, &mut client), Some(0));
    assert_eq!(pass(&mut server, &mut client), None);
    server.write(stream, b"you").expect("open");
    assert!(server.is_sendable());
}

#[test]
fn a_closed_end_has_nothing_sendable() {
    let (mut client, mut server) = ends(Settings::small());
    let stream = server.open(Dir::Uni).expect("granted");
    server.write(stream, b"late").expect("open");
    assert!(server.is_sendable());
    assert_eq!(server.peer_closed(), None);
    assert_eq!(
        server.receive(0, &[0x1c, 0x07, 0, 0]),
        Ok(Received::PeerClosed(7))
    );
    assert_eq!(server.peer_closed(), Some(7));
    assert_eq!(server.closing(), None);
    assert!(!server.is_sendable());
    // A stream of its own that isn't open: this end closes, and not its peer.
    assert!(client.receive(0, &[0x11, 0x00, 0x05]).is_err());
    assert_eq!(client.peer_closed(), None);
    assert!(client.closing().is_some());
}

#[test]
fn streams_are_left_for_all_time() {
    let (mut client, mut server) = ends(Settings::small().bidi_streams(2, 5).uni_streams(1, 1));
    assert_eq!(server.streams_left(Dir::Bidi), 5);
    assert_eq!(client.open_left(Dir::Bidi), 2);
    let first = client.open(Dir::Bidi).expect("granted");
    assert_eq!(client.open_left(Dir::Bidi), 1);
    client.finish(first).expect("open");
    pass(&mut client, &mut server).expect("due");
    assert_eq!(server.streams_left(Dir::Bidi), 4);
    assert_eq!(client.streams_left(Dir::Bidi), 5);
    assert_eq!(server.streams_left(Dir::Uni), 1);
    let uni = client.open(Dir::Uni).expect("granted");
    client.finish(uni).expect("open");
    pass(&mut client, &mut server).expect("due");
    assert_eq!(server.streams_left(Dir::Uni), 0);
    assert_eq!(client.open_left(Dir::Uni), 0);
    assert_eq!(server.open_left(Dir::Uni), 1);
}

#[test]
fn credit_alone_blocks() {
    let settings = Settings::small()
        .conn_window(10)
        .bidi_local_window(6)
        .bidi_remote_window(6)
        .send_buffer(8);
    let (mut client, mut server) = ends(settings);
    let first = client.open(Dir::Bidi).expect("granted");
    let second = client.open(Dir::Bidi).expect("granted");
    // The buffer is full; credit holds nothing back yet.
    assert_eq!(client.write(first, b"12345678"), Ok(8));
    assert!(!client.is_blocked(first));
    pass(&mut client, &mut server).expect("due");
    // By the stream's limit of 6.
    assert!(client.is_blocked(first));
    assert_eq!(client.write(second, b"1234"), Ok(4));
    assert!(!client.is_blocked(second));
    pass(&mut client, &mut server).expect("due");
    assert!(!client.is_blocked(second));
    // By the connection's credit of 10.
    assert_eq!(client.write(second, b"5"), Ok(1));
    assert!(client.is_blocked(second));
    client.reset(second, 9).expect("open");
    assert!(!client.is_blocked(second));
    assert!(!client.is_blocked(StreamId::new(400).expect("small")));
    // The reader takes all, and its credit comes back.
    let mut bytes = [0; 16];
    assert!(matches!(server.read(first, &mut bytes), Ok(Read::Bytes(_))));
    while pass(&mut server, &mut client).is_some() {}
    assert!(!client.is_blocked(first));
    // A closed end sends nothing, so nothing waits.
    client.write(first, &[7; 8]).expect("open");
    pass(&mut client, &mut server).expect("due");
    assert!(client.is_blocked(first));
    let closed = client.receive(99, &[0x1d, 0x07, 0x00]);
    assert_eq!(closed, Ok(Received::PeerClosed(7)));
    assert!(!client.is_blocked(first));
}

#[test]
fn outstanding_packets_are_found() {
    let (mut client, mut server) = ends(Settings::small());
    let stream = client.open(Dir::Bidi).expect("granted");
    let mut payload = [0; 1200];
    assert_eq!(client.next_outstanding(0), None);
    for number in 0..4 {
        client.write(stream, b"some").expect("open");
        let made = client.make_packet(&mut payload).expect("open");
        let made = made.expect("due");
        assert_eq!(made.number, number);
        if number == 1 {
            let taken = server.receive(made.number, &payload[..made.len]);
            assert_eq!(taken, Ok(Received::Done));
        }
    }
    assert_eq!(client.next_outstanding(0), Some(0));
    assert_eq!(client.next_outstanding(1), Some(1));
    pass(&mut server, &mut client).expect("an ACK");
    assert_eq!(client.next_outstanding(1), Some(2));
    assert_eq!(client.next_outstanding(3), Some(3));
    assert_eq!(client.next_outstanding(4), None);
    assert_eq!(client.next_outstanding(u64::MAX), None);
    assert_eq!(client.declare_lost(0), Ok(()));
    assert_eq!(client.declare_lost(1), Err(LostFault::NotOutstanding));
    assert_eq!(client.next_outstanding(0), Some(2));
}

#[test]
fn reports_tell_resets_and_limits() {
    let (mut client, mut server) = ends(Settings::small());
    let stream = client.open(Dir::Bidi).expect("granted");
    let report = client.report(stream).expect("open");
    let send = report.send.expect("bidirectional");
    assert_eq!(send.reset_code, None);
    assert_eq!(send.limit, Settings::small().limits().bidi_remote);
    client.reset(stream, 41).expect("open");
    pass(&mut client, &mut server).expect("due");
    let send = client.report(stream).expect("open").send;
    assert_eq!(send.expect("bidirectional").reset_code, Some(41));
    let recv = server.report(stream).expect("open").recv;
    assert_eq!(recv.expect("bidirectional").reset_code, Some(41));
    let send = server.report(stream).expect("open").send;
    assert_eq!(send.expect("bidirectional").reset_code, None);
}

#[test]
fn a_report_tells_the_owners_stop() {
    let (mut client, mut server) = ends(Settings::small());
    let stream = client.open(Dir::Bidi).expect("granted");
    client.write(stream, b"abc").expect("room");
    pass(&mut client, &mut server).expect("due");
    let stop_code = |end: &Endpoint| {
        let report = end.report(stream).expect("open");
        report.recv.expect("bidirectional").stop_code
    };
    assert_eq!(stop_code(&server), None);
    server.stop(stream, 7).expect("open");
    server.stop(stream, 8).expect("open");
    assert_eq!(stop_code(&server), Some(7));
    pass(&mut server, &mut client).expect("due");
    assert_eq!(stop_code(&client), None);
}

fn limits(max_data: u64, stream: u64, streams: u64) -> PeerLimits {
    PeerLimits::default()
        .max_data(max_data)
        .bidi_local(stream + 1)
        .bidi_remote(stream)
        .uni(stream + 2)
        .streams_bidi(streams)
        .streams_uni(streams + 1)
}

// A client that remembered small limits takes in those of the handshake.
#[test]
fn limits_rise_and_never_fall() {
    let settings = Settings::small();
    let mut client = Endpoint::new(Role::Client, settings, limits(10, 6, 1)).expect("in range");
    let first = client.open(Dir::Bidi).expect("granted");
    assert_eq!(client.open(Dir::Bidi), Err(OpenFault::Blocked(1)));
    assert_eq!(client.write(first, b"0123456789abcdef"), Ok(16));
    let mut payload = [0; 1200];
    client
        .make_packet(&mut payload)
        .expect("open")
        .expect("due");
    assert!(client.is_blocked(first));
    // What comes is greater in part: the lower part changes nothing.
    let mut mixed = limits(12, 4, 0);
    mixed.bidi_remote = 8;
    assert_eq!(client.raise_limits(mixed), Ok(()));
    let limit = |end: &Endpoint, stream| {
        let report = end.report(stream).expect("open");
        report.send.expect("it sends").limit
    };
    assert_eq!(limit(&client, first), 8);
    assert_eq!(client.open_left(Dir::Bidi), 0);
    assert_eq!(client.open_left(Dir::Uni), 2);
    assert!(client.is_sendable());
    client
        .make_packet(&mut payload)
        .expect("open")
        .expect("due");
    assert!(client.is_blocked(first));
    assert_eq!(client.raise_limits(limits(1000, 100, 4)), Ok(()));
    assert_eq!(limit(&client, first), 100);
    assert!(!client.is_blocked(first));
    let made = client.make_packet(&mut payload).expect("open");
    assert!(made.expect("the freed bytes").len > 8);
    // Streams that open later begin with the greater limit, by their type.
    let second = client.open(Dir::Bidi).expect("granted now");
    assert_eq!(limit(&client, second), 100);
    let uni = client.open(Dir::Uni).expect("granted");
    assert_eq!(limit(&client, uni), 102);
    assert_eq!(client.raise_limits(limits(1, 1, 1)), Ok(()));
    assert_eq!(limit(&client, second), 100);
    assert_eq!(client.open_left(Dir::Bidi), 2);
}

#[test]
fn limits_without_a_number_are_refused() {
    let settings = Settings::small();
    let mut client = Endpoint::new(Role::Client, settings, limits(10, 6, 1)).expect("in range");
    let stream = client.open(Dir::Bidi).expect("granted");
    let before = client.report(stream);
    assert_eq!(
        client.raise_limits(limits(1 << 62, 60, 10)),
        Err(RaiseFault::Refused(SetupFault::OutOfRange))
    );
    assert_eq!(
        client.raise_limits(limits(100, 60, 1 << 60)),
        Err(RaiseFault::Refused(SetupFault::TooManyStreams))
    );
    assert_eq!(client.report(stream), before);
    assert_eq!(client.open_left(Dir::Bidi), 0);
    assert_eq!(
        client.receive(0, &[0x1c, 0x07, 0, 0]),
        Ok(Received::PeerClosed(7))
    );
    assert_eq!(
        client.raise_limits(limits(100, 60, 10)),
        Err(RaiseFault::Closed)
    );
    assert_eq!(client.report(stream), before);
}

// What is outstanding in order.
fn outstanding(end: &Endpoint) -> Vec<u64> {
    let mut numbers = Vec::new();
    let mut from = 0;
    while let Some(number) = end.next_outstanding(from) {
        numbers.push(number);
        from = number + 1;
    }
    numbers
}

// What a payload acknowledged for the first time was outstanding before it and isn't after it.
#[test]
fn newly_acknowledged_packets_are_told_by_what_is_outstanding() {
    let (mut client, mut server) = ends(Settings::small());
    let stream = client.open(Dir::Bidi).expect("granted");
    let mut payloads = Vec::new();
    for _ in 0..5 {
        client.write(stream, b"part").expect("open");
        let mut payload = [0; 200];
        let made = client.make_packet(&mut payload).expect("open");
        payloads.push((made.expect("due"), payload));
    }
    for number in [0, 1, 3] {
        let (made, payload) = payloads[number];
        let taken = server.receive(made.number, &payload[..made.len]);
        assert_eq!(taken, Ok(Received::Done));
    }
    let mut ack = [0; 200];
    let made = server.make_packet(&mut ack).expect("open").expect("an ACK");
    let before = outstanding(&client);
    let told = told(&mut client, 0, &ack[..made.len]);
    let after = outstanding(&client);
    let newly: Vec<u64> = before
        .iter()
        .copied()
        .filter(|number| !after.contains(number))
        .collect();
    assert_eq!(newly, [0, 1, 3]);
    assert_eq!(told, [3, 1, 0]);
    // The same ACK in another packet acknowledges nothing more.
    let taken = client.receive(1, &ack[..made.len]);
    assert_eq!(taken, Ok(Received::Done));
    assert_eq!(outstanding(&client), after);
}

// What a payload newly acknowledges, as it is told while the payload is taken in.
fn told(end: &mut Endpoint, number: u64, payload: &[u8]) -> Vec<u64> {
    let mut numbers = Vec::new();
    _ = end.receive_with_acks(number, payload, |number| numbers.push(number));
    numbers
}

// An end that wrote six packets, 0 to 5.
fn six_sent() -> Endpoint {
    let (mut client, _) = ends(Settings::small());
    let stream = client.open(Dir::Bidi).expect("granted");
    for _ in 0..6 {
        client.write(stream, b"part").expect("open");
        client.make_packet(&mut [0; 200]).expect("open");
    }
    client
}

// Each once, in the order of the ACKs, and of each the highest number first.
#[test]
fn what_a_payload_newly_acknowledges_is_told_once() {
    let (low, both) = ([2, 1, 0, 0, 1], [2, 5, 0, 1, 0, 2, 0]);
    assert_eq!(told(&mut six_sent(), 0, &both), [5, 1]);
    assert_eq!(
        told(&mut six_sent(), 0, &[&low[..], &both].concat()),
        [1, 0, 5]
    );
    assert_eq!(
        told(&mut six_sent(), 0, &[&both[..], &low].concat()),
        [5, 1, 0]
    );
    assert_eq!(
        told(&mut six_sent(), 0, &[2, 5, 0, 0, 5]),
        [5, 4, 3, 2, 1, 0]
    );
    let mut end = six_sent();
    assert_eq!(told(&mut end, 0, &low), [1, 0]);
    // The same payload again, the same ACK in another packet, and a packet that was lost.
    assert_eq!(told(&mut end, 0, &low), []);
    assert_eq!(told(&mut end, 1, &low), []);
    end.declare_lost(4).expect("outstanding");
    assert_eq!(told(&mut end, 2, &[2, 5, 0, 0, 5]), [5, 3, 2]);
    assert_eq!(outstanding(&end), []);
}

// What stood before a fault or a CONNECTION_CLOSE is told, and nothing behind it; a closed end tells nothing.
#[test]
fn what_took_effect_alone_is_told() {
    let (low, high, unsent) = ([2, 1, 0, 0, 1], [2, 4, 0, 0, 0], [2, 9, 0, 0, 9]);
    let close = [0x1d, 0, 0];
    for end in [&close[..], &[0x21], &unsent] {
        let mut client = six_sent();
        let payload = [&high[..], end, &low].concat();
        assert_eq!(told(&mut client, 0, &payload), [4]);
        assert_eq!(outstanding(&client), [0, 1, 2, 3, 5]);
        assert_eq!(told(&mut client, 1, &low), []);
    }
    let mut client = six_sent();
    let mut count = 0;
    let long = vec![0; 65_536];
    let answer = client.receive_with_acks(0, &long, |_| count += 1);
    assert_eq!((answer, count), (Err(ReceiveFault::Invalid), 0));
    let answer = client.receive_with_acks(1 << 62, &low, |_| count += 1);
    assert_eq!((answer, count), (Err(ReceiveFault::Invalid), 0));
}

// The first code that came stays; of a half that was reset before, or that was acknowledged whole, none is told.
#[test]
fn the_code_of_a_stop_is_told_of_a_half_that_was_not_over() {
    let (mut client, mut server) = ends(Settings::small());
    let streams: Vec<_> = (0..4)
        .map(|_| client.open(Dir::Bidi).expect("granted"))
        .collect();
    for &stream in &streams {
        client.write(stream, b"some").expect("open");
    }
    client.finish(streams[2]).expect("open");
    pass(&mut client, &mut server).expect("due");
    pass(&mut server, &mut client).expect("an ACK");
    client.reset(streams[1], 41).expect("open");
    for (code, &stream) in (7..).zip(&streams[..3]) {
        assert_eq!(client.stopped_with(stream), None);
        server.stop(stream, code).expect("open");
    }
    pass(&mut server, &mut client).expect("due");
    let told: Vec<_> = streams.iter().map(|&s| client.stopped_with(s)).collect();
    assert_eq!(told, [Some(7), None, None, None]);
    let reset = |stream| {
        client
            .report(stream)
            .expect("open")
            .send
            .expect("bidirectional")
            .reset_code
    };
    assert_eq!((reset(streams[0]), reset(streams[1])), (Some(7), Some(41)));
    // STOP_SENDING of the third stream and again of the first, with other codes.
    let taken = client.receive(90, &[5, 8, 9, 5, 0, 10]);
    assert_eq!(taken, Ok(Received::Done));
    assert_eq!(client.stopped_with(streams[0]), Some(7));
    assert_eq!(client.stopped_with(streams[2]), None);
    assert_eq!(
        client
            .report(streams[2])
            .expect("open")
            .send
            .expect("bidirectional")
            .reset_code,
        None
    );
    assert_eq!(server.stopped_with(streams[0]), None);
}

#[test]
fn an_owner_keeps_no_count_of_its_own() {
    let settings = Settings::small()
        .conn_window(10)
        .bidi_local_window(6)
        .bidi_remote_window(6)
        .send_buffer(8);
    let (mut client, mut server) = ends(settings);
    let stream = client.open(Dir::Bidi).expect("granted");
    let other = StreamId::new(400).expect("small");
    assert_eq!(client.credit_left(), 10);
    assert_eq!(
        (
            client.room(other),
            client.unsent(other),
            client.acked_below(other)
        ),
        (0, 0, None)
    );
    assert_eq!(client.room(stream), 8);
    assert_eq!(client.acked_below(stream), Some(0));
    // Credit bounds what is sent, and not what is written.
    assert_eq!(client.write(stream, b"12345678"), Ok(8));
    assert_eq!((client.room(stream), client.unsent(stream)), (0, 8));
    assert_eq!(client.credit_left(), 10);
    let number = pass(&mut client, &mut server).expect("due");
    assert_eq!((client.credit_left(), client.unsent(stream)), (4, 2));
    // What is lost is sent again, and neither uses credit nor counts as unsent.
    client.declare_lost(number).expect("outstanding");
    pass(&mut client, &mut server).expect("due");
    assert_eq!((client.credit_left(), client.unsent(stream)), (4, 2));
    assert_eq!(client.acked_below(stream), Some(0));
    // The ACK lets six bytes go.
    while pass(&mut server, &mut client).is_some() {}
    assert_eq!(client.acked_below(stream), Some(6));
    assert_eq!(client.room(stream), 6);
    client.finish(stream).expect("open");
    assert_eq!((client.room(stream), client.unsent(stream)), (0, 2));
    client.reset(stream, 7).expect("open");
    assert_eq!((client.room(stream), client.unsent(stream)), (0, 0));
    assert_eq!(client.acked_below(stream), Some(6));
    // A closed end takes nothing, and still tells the rest.
    assert_eq!(server.room(stream), 8);
    assert!(server.receive(99, &[0x11, 0x01, 0x05]).is_err());
    assert_eq!(
        (server.room(stream), server.acked_below(stream)),
        (0, Some(0))
    );
}

#[test]
fn the_peers_streams_are_given_out_by_direction() {
    let (mut client, mut server) = ends(Settings::small());
    let mut opened = Vec::new();
    for dir in [Dir::Bidi, Dir::Uni, Dir::Uni, Dir::Bidi] {
        let stream = client.open(dir).expect("granted");
        client.finish(stream).expect("open");
        opened.push(stream);
    }
    assert_eq!(server.accept_of(Dir::Uni), None);
    while pass(&mut client, &mut server).is_some() {}
    assert_eq!(server.accept_of(Dir::Uni), Some(opened[1]));
    assert_eq!(server.accept(), Some(opened[0]));
    assert_eq!(server.accept_of(Dir::Bidi), Some(opened[3]));
    assert_eq!(server.accept_of(Dir::Bidi), None);
    assert_eq!(server.accept(), Some(opened[2]));
    assert_eq!(server.accept_of(Dir::Uni), None);
    assert_eq!(client.accept_of(Dir::Bidi), None);
    // A closed end gives none out.
    let late = client.open(Dir::Uni).expect("granted");
    client.finish(late).expect("open");
    pass(&mut client, &mut server).expect("due");
    assert!(server.receive(99, &[0x11, 0x01, 0x05]).is_err());
    assert_eq!(server.accept_of(Dir::Uni), None);
}

#[test]
fn noted_counts_runs_until_a_reset_or_the_end_is_told() {
    let (_, mut server) = ends(
        Settings::small()
            .conn_window(1 << 16)
            .stream_windows(1 << 14),
    );
    let put = |server: &mut Endpoint, stream: u64, offset: u64, fin: bool| {
        let stream = StreamId::new(stream).expect("below 2^62");
        let bytes = b"x";
        let frame = Frame::Stream {
            stream,
            offset,
            fin,
            bytes,
        };
        assert_eq!(server.take_frame(&frame), Ok(Taken::Took));
        server.noted()
    };
    assert_eq!(server.noted(), 0);
    assert_eq!(put(&mut server, 0, 0, false), 1);
    // Each stream counts its runs of offsets, and what fills a gap makes two of them one.
    assert_eq!(put(&mut server, 2, 4, false), 2);
    assert_eq!(put(&mut server, 2, 2, false), 3);
    assert_eq!(put(&mut server, 2, 0, false), 4);
    assert_eq!(put(&mut server, 2, 1, false), 3);
    // More than stand in the set itself.
    for place in 1..1000 {
        assert_eq!(put(&mut server, 6, 2 * place, false), 3 + place);
    }
    assert_eq!(put(&mut server, 6, 2001, false), 1003);
    let six = StreamId::new(6).expect("below 2^62");
    server.stop(six, 1).expect("open");
    assert_eq!(server.noted(), 1003);
    let frame = Frame::ResetStream {
        stream: six,
        code: 1,
        final_size: 2002,
    };
    assert_eq!(server.take_frame(&frame), Ok(Taken::Took));
    assert_eq!(server.noted(), 3);
    // The end of stream 0 comes, and its reader is told.
    assert_eq!(put(&mut server, 0, 1, true), 3);
    let zero = StreamId::new(0).expect("below 2^62");
    let mut bytes = [0; 8];
    assert_eq!(server.read(zero, &mut bytes), Ok(Read::Bytes(2)));
    assert_eq!(server.noted(), 3);
    assert_eq!(server.read(zero, &mut bytes), Ok(Read::End));
    assert_eq!(server.noted(), 2);
}
