//! The worked examples of the repository's README and documents, and what the front answers by itself.

mod support;

use gotsavena::{
    AckRanges, Dir, EcnCounts, Endpoint, FaultKind, Frame, MakeFault, OpenFault, PeerLimits,
    PutFault, Read, ReceiveFault, Received, Role, Settings, SetupFault, StreamId, UseFault, frames,
    put, put_ack, read_varint, write_varint,
};
use support::{Player, two_ends, unhex};

fn stream(number: u64) -> StreamId {
    StreamId::new(number).expect("a stream's number")
}

#[test]
fn the_frames_of_the_readme() {
    let payload = unhex("0b0003616263");
    let found: Vec<_> = frames(&payload).collect::<Result<_, _>>().expect("a frame");
    let expected = Frame::Stream {
        stream: stream(0),
        offset: 0,
        fin: true,
        bytes: b"abc",
    };
    assert_eq!(found.len(), 1);
    assert_eq!((found[0].place, found[0].frame), (0, expected));
    let mut out = [0; 6];
    assert_eq!(put(&expected, &mut out), Ok(6));
    assert_eq!(out[..], payload);
}

#[test]
fn the_script_of_the_readme() {
    let script = "open A bidi\nwrite A 0 68656c6c6f\nmake A 1200\ndeliver A 0\nread B 0 16\n";
    let text = "open A bidi -> stream 0
write A 0 68656c6c6f -> wrote 5
make A 1200 -> packet 0 0a000568656c6c6f
deliver A 0 -> done
read B 0 16 -> bytes 68656c6c6f
lane A 0 written 5 read 5 received no declared none known none
lane B 0 written 0 read 0 received no declared none known none
end A spent 0 granted 4096 stored 0
end B spent 5 granted 4096 stored 0
";
    assert_eq!(Player::new(Settings::small()).play(script), text);
}

#[test]
fn an_end_closes_and_stays_closed() {
    let [_, mut server] = two_ends(Settings::small());
    let mut out = [7; 64];
    assert_eq!(server.close_payload(&mut out), None);
    assert_eq!(out, [7; 64]);
    // An unknown frame type behind a PING.
    let Err(ReceiveFault::Closing(closing)) = server.receive(0, &unhex("013f")) else {
        panic!("it goes on");
    };
    assert_eq!(
        (closing.code, closing.frame_type, closing.place),
        (7, 0x3f, 1)
    );
    let text = "the connection is closed with code 0x07 for a frame of type 0x3f at byte 1";
    assert_eq!(closing.to_string(), text);
    assert_eq!(server.closing(), Some(closing));
    assert_eq!(server.receive(0, &[1]), Err(ReceiveFault::Closing(closing)));
    assert_eq!(server.open(Dir::Bidi), Err(OpenFault::Closed));
    assert_eq!(server.make_packet(&mut [0; 128]), Err(MakeFault::Closed));
    let len = server.close_payload(&mut out).expect("it closed");
    let Some(Ok(placed)) = frames(&out[..len]).next() else {
        panic!("no frame");
    };
    let expected = Frame::ConnectionClose {
        code: 7,
        frame_type: 0x3f,
        reason: b"",
    };
    assert_eq!(placed.frame, expected);
}

#[test]
fn a_peer_closes() {
    let [_, mut server] = two_ends(Settings::small());
    assert_eq!(
        server.receive(3, &unhex("1d2a00")),
        Ok(Received::PeerClosed(42))
    );
    assert_eq!(server.closing(), None);
    assert_eq!(server.receive(4, &[1]), Ok(Received::PeerClosed(42)));
}

#[test]
fn what_a_call_requires_is_invalid_else_and_changes_nothing() {
    let [mut client, mut server] = two_ends(Settings::small());
    let id = client.open(Dir::Bidi).expect("a stream");
    client.write(id, b"abc").expect("room");
    let before = format!("{:?} {:?}", client, client.report(id));
    assert_eq!(client.reset(id, 1 << 62), Err(UseFault::Invalid));
    assert_eq!(client.stop(id, u64::MAX), Err(UseFault::Invalid));
    for room in [0, 1, 127, 16_384, 1 << 20] {
        assert_eq!(
            client.make_packet(&mut vec![0; room]),
            Err(MakeFault::Invalid)
        );
    }
    assert_eq!(client.receive(1 << 62, &[1]), Err(ReceiveFault::Invalid));
    assert_eq!(
        client.receive(0, &vec![0; 65_536]),
        Err(ReceiveFault::Invalid)
    );
    assert_eq!(format!("{:?} {:?}", client, client.report(id)), before);
    for room in [128, 16_383] {
        assert!(matches!(server.make_packet(&mut vec![0; room]), Ok(None)));
    }
    assert_eq!(server.receive(0, &vec![0; 65_535]), Ok(Received::Done));
    assert_eq!(server.receive((1 << 62) - 1, &[1]), Ok(Received::Done));
    assert_eq!(client.reset(id, (1 << 62) - 1), Ok(()));
}

#[test]
fn settings_and_limits_have_ranges() {
    let settings = Settings::small();
    let made = |settings: Settings, peer: PeerLimits| {
        Endpoint::new(Role::Client, settings, peer).map(|_| ())
    };
    let limits = settings.limits();
    let out_of_range = Err(SetupFault::OutOfRange);
    assert_eq!(made(settings, limits), Ok(()));
    assert_eq!(made(settings, PeerLimits::default()), Ok(()));
    assert_eq!(made(settings.conn_window(0), limits), out_of_range);
    assert_eq!(
        made(settings.conn_window((1 << 40) + 1), limits),
        out_of_range
    );
    assert_eq!(
        made(settings.stream_windows((1 << 30) + 1), limits),
        out_of_range
    );
    assert_eq!(made(settings.send_buffer(usize::MAX), limits), out_of_range);
    assert_eq!(made(settings.streams(9, 8), limits), out_of_range);
    assert_eq!(
        made(settings.streams((1 << 17) + 1, 1 << 21), limits),
        out_of_range
    );
    assert_eq!(
        made(settings.streams(8, (1 << 21) + 1), limits),
        out_of_range
    );
    let widest = settings
        .conn_window(1 << 40)
        .stream_windows(1 << 30)
        .send_buffer(1 << 30)
        .streams(1 << 17, 1 << 21);
    assert_eq!(made(widest, widest.limits()), Ok(()));
    let peer = limits.max_data(1 << 62);
    assert_eq!(made(settings, peer), out_of_range);
    let peer = limits.streams_uni((1 << 60) + 1);
    assert_eq!(made(settings, peer), Err(SetupFault::TooManyStreams));
    assert_eq!(SetupFault::TooManyStreams.code(), Some(8));
    assert_eq!(SetupFault::OutOfRange.code(), None);
}

#[test]
fn frames_that_no_payload_spells_are_invalid() {
    let big = 1 << 62;
    let id = stream(0);
    let refused = [
        Frame::MaxData { maximum: big },
        Frame::MaxStreams {
            dir: Dir::Uni,
            count: (1 << 60) + 1,
        },
        Frame::StreamsBlocked {
            dir: Dir::Bidi,
            count: u64::MAX,
        },
        Frame::Stream {
            stream: id,
            offset: big - 3,
            fin: false,
            bytes: b"abc",
        },
        Frame::Crypto {
            offset: u64::MAX,
            bytes: b"a",
        },
        Frame::ResetStream {
            stream: id,
            code: 0,
            final_size: big,
        },
        Frame::StopSending {
            stream: id,
            code: big,
        },
        Frame::NewConnectionId {
            sequence: 0,
            retire: 0,
            identifier: &[],
            reset_token: &[0; 16],
        },
        Frame::NewConnectionId {
            sequence: 0,
            retire: 0,
            identifier: &[0; 21],
            reset_token: &[0; 16],
        },
        Frame::NewConnectionId {
            sequence: 0,
            retire: 0,
            identifier: &[0; 20],
            reset_token: &[0; 15],
        },
        Frame::PathChallenge { bytes: &[0; 7] },
        Frame::PathResponse { bytes: &[0; 9] },
        Frame::ConnectionClose {
            code: big,
            frame_type: 0,
            reason: b"",
        },
        Frame::ConnectionClose {
            code: 0,
            frame_type: big,
            reason: b"",
        },
        Frame::ApplicationClose {
            code: big,
            reason: b"",
        },
        // No length, a gap without a length, a cut number, and a number below zero.
        Frame::Ack {
            largest: 9,
            delay: 0,
            ranges: &[],
            ecn: None,
        },
        Frame::Ack {
            largest: 9,
            delay: 0,
            ranges: &[1, 1],
            ecn: None,
        },
        Frame::Ack {
            largest: 9,
            delay: 0,
            ranges: &[0x40],
            ecn: None,
        },
        Frame::Ack {
            largest: 9,
            delay: 0,
            ranges: &[10],
            ecn: None,
        },
        Frame::Ack {
            largest: big,
            delay: 0,
            ranges: &[0],
            ecn: None,
        },
        Frame::Ack {
            largest: 9,
            delay: big,
            ranges: &[0],
            ecn: None,
        },
        Frame::Ack {
            largest: 9,
            delay: 0,
            ranges: &[0],
            ecn: Some(EcnCounts {
                ect0: 0,
                ect1: big,
                ce: 0,
            }),
        },
    ];
    for frame in refused {
        let mut out = [7; 256];
        assert_eq!(put(&frame, &mut out), Err(PutFault::Invalid), "{frame:?}");
        assert_eq!(out, [7; 256]);
    }
}

#[test]
fn what_is_put_reads_back() {
    let id = stream(7);
    let written = [
        Frame::Padding,
        Frame::Ping,
        Frame::Ack {
            largest: 9,
            delay: 3,
            ranges: &[1, 2, 0],
            ecn: Some(EcnCounts {
                ect0: 1,
                ect1: 2,
                ce: 3,
            }),
        },
        Frame::ResetStream {
            stream: id,
            code: 5,
            final_size: (1 << 62) - 1,
        },
        Frame::StopSending {
            stream: id,
            code: 5,
        },
        Frame::Crypto {
            offset: 5,
            bytes: b"abc",
        },
        Frame::NewToken { bytes: b"token" },
        Frame::Stream {
            stream: id,
            offset: 70,
            fin: true,
            bytes: b"abc",
        },
        Frame::MaxData { maximum: 1 << 40 },
        Frame::MaxStreamData {
            stream: id,
            maximum: 1 << 20,
        },
        Frame::MaxStreams {
            dir: Dir::Bidi,
            count: 1 << 60,
        },
        Frame::DataBlocked { limit: 9 },
        Frame::StreamDataBlocked {
            stream: id,
            limit: 9,
        },
        Frame::StreamsBlocked {
            dir: Dir::Uni,
            count: 9,
        },
        Frame::NewConnectionId {
            sequence: 2,
            retire: 1,
            identifier: &[9; 20],
            reset_token: &[8; 16],
        },
        Frame::RetireConnectionId { sequence: 1 },
        Frame::PathChallenge { bytes: &[1; 8] },
        Frame::PathResponse { bytes: &[2; 8] },
        Frame::ConnectionClose {
            code: 1,
            frame_type: 2,
            reason: b"why",
        },
        Frame::ApplicationClose {
            code: 1,
            reason: b"",
        },
        Frame::HandshakeDone,
    ];
    for frame in written {
        let mut out = [0; 128];
        let len = put(&frame, &mut out).expect("it has a text");
        let found: Vec<_> = frames(&out[..len]).collect();
        assert_eq!(found.len(), 1);
        assert_eq!(found[0].map(|placed| placed.frame), Ok(frame));
        assert_eq!(put(&frame, &mut out[..len - 1]), Err(PutFault::Full));
    }
}

#[test]
fn acks_are_put_and_read() {
    const MOST: u64 = (1 << 62) - 1;
    let mut out = [0; 64];
    let ranges = [(90, 99), (50, 59), (3, 3)];
    let (count, len) = put_ack(&ranges, 64, &mut out).expect("it fits");
    let Some(Ok(placed)) = frames(&out[..len]).next() else {
        panic!("no frame");
    };
    let Frame::Ack {
        largest,
        delay,
        ranges: found,
        ecn,
    } = placed.frame
    else {
        panic!("no ACK");
    };
    let found: Vec<_> = AckRanges::new(largest, found).expect("in range").collect();
    assert_eq!((count, found, delay, ecn), (3, ranges.to_vec(), 64, None));
    assert!(AckRanges::new(1 << 62, &[0]).is_none());
    // Fewer where fewer fit.
    let two = [(90, 99), (50, 59)];
    assert_eq!(put_ack(&two, 0, &mut out[..7]), Ok((1, 6)));
    assert_eq!(put_ack(&two[..1], 0, &mut out[..5]), Err(PutFault::Full));
    // A delay of two bytes needs one byte more, and the longest one seven.
    assert_eq!(put_ack(&two[..1], 64, &mut out[..6]), Err(PutFault::Full));
    assert_eq!(put_ack(&two[..1], 64, &mut out[..7]), Ok((1, 7)));
    assert_eq!(put_ack(&two[..1], MOST, &mut out), Ok((1, 13)));
    assert_eq!(put_ack(&two, MOST + 1, &mut out), Err(PutFault::Invalid));
    let many: Vec<_> = (0..33).rev().map(|n| (2 * n, 2 * n)).collect();
    assert!(put_ack(&many[1..], 0, &mut [0; 128]).is_ok());
    assert_eq!(put_ack(&many, 0, &mut [0; 128]), Err(PutFault::Invalid));
    for ranges in [
        &[][..],
        &[(5, 4)],
        &[(0, MOST), (5, 5)],
        &[(3, 3), (5, 5)],
        &[(4, 5), (3, 3)],
        &[(0, 5), (0, 0)],
        &[(0, MOST + 1)],
        &[(0, u64::MAX)],
    ] {
        assert_eq!(
            put_ack(ranges, 0, &mut [0; 128]),
            Err(PutFault::Invalid),
            "{ranges:?}"
        );
    }
    assert!(put_ack(&[(0, MOST)], 0, &mut [0; 128]).is_ok());
}

#[test]
fn faults_of_payloads() {
    let fault = |text: &str| {
        let fault = frames(&unhex(text)).find_map(Result::err);
        fault.map(|fault| (fault.kind, fault.place, fault.code, fault.frame_type))
    };
    assert_eq!(fault(""), Some((FaultKind::Empty, 0, 0x0a, 0)));
    assert_eq!(fault("4001"), Some((FaultKind::LongType, 0, 0x0a, 1)));
    assert_eq!(fault("011f"), Some((FaultKind::UnknownType, 1, 7, 0x1f)));
    assert_eq!(fault("0b000461"), Some((FaultKind::Truncated, 0, 7, 0x0b)));
    assert_eq!(fault("0200000001"), Some((FaultKind::BelowZero, 0, 7, 2)));
    // A fault ends the iterator.
    let mut rest = frames(&[0x40, 0x01]);
    assert!(matches!(rest.next(), Some(Err(_))));
    assert!(rest.next().is_none());
}

#[test]
fn numbers_are_read_and_written() {
    for (value, len) in [
        (0, 1),
        (63, 1),
        (64, 2),
        (16_383, 2),
        (16_384, 4),
        (1 << 30, 8),
    ] {
        let mut out = [0; 8];
        assert_eq!(write_varint(value, &mut out), Some(len));
        assert_eq!(read_varint(&out), Some((value, len)));
        assert_eq!(read_varint(&out[..len - 1]), None);
        assert_eq!(write_varint(value, &mut out[..len - 1]), None);
    }
    assert_eq!(write_varint(1 << 62, &mut [0; 8]), None);
}

#[test]
fn streams_tell_their_parts() {
    let id = StreamId::from_parts(Role::Client, Dir::Bidi, 3).expect("in range");
    assert_eq!((id.value(), u64::from(id)), (12, 12));
    assert_eq!(
        (id.initiator(), id.dir(), id.index()),
        (Role::Client, Dir::Bidi, 3)
    );
    assert_eq!(format!("{id} {id:?}"), "12 StreamId(12)");
    assert!(id < stream(13));
    assert_eq!(StreamId::from_parts(Role::Client, Dir::Bidi, 1 << 60), None);
    assert_eq!(Role::Client.peer(), Role::Server);
    assert_eq!(
        StreamId::new((1 << 62) - 1).map(StreamId::index),
        Some((1 << 60) - 1)
    );
    assert_eq!(StreamId::new(1 << 62), None);
}

#[test]
fn reads_of_resets_and_ends() {
    let mut player = Player::new(Settings::small());
    let script = "open A uni\nwrite A 2 6162\nreset A 2 9\nmake A 128\ndeliver A 0\nread B 2 16\nopen B uni\nfinish B 3\nmake B 128\ndeliver B 0\nread A 3 16";
    let answers: Vec<_> = script.lines().map(|line| player.line(line)).collect();
    assert_eq!(answers[5], "reset 9");
    assert_eq!(answers[10], "end");
    assert_eq!(player.ends[0].read(stream(3), &mut []), Ok(Read::End));
}

#[test]
fn a_stop_is_told_whatever_its_code() {
    let mut player = Player::new(Settings::small());
    let zeros = "00".repeat(1024);
    let script = format!(
        "open A bidi\nwrite A 0 {zeros}\nmake A 1200\ndeliver A 0\nread B 0 1024\nmake B 1200"
    );
    for line in script.lines() {
        player.line(line);
    }
    let found = |payload: &[u8], wanted| {
        frames(payload)
            .flatten()
            .any(|placed| placed.frame == wanted)
    };
    let raised = Frame::MaxStreamData {
        stream: stream(0),
        maximum: 2048,
    };
    assert!(found(&player.made[1][0], raised));
    // The code is the limit that is told, and not acknowledged.
    assert_eq!(player.line("stop B 0 2048"), "ok");
    player.line("make B 1200");
    let stop = Frame::StopSending {
        stream: stream(0),
        code: 2048,
    };
    assert!(found(&player.made[1][1], stop));
}

#[cfg(feature = "std")]
mod io {
    use super::{Settings, two_ends};
    use gotsavena::{Dir, Received, UseFault};
    use std::io::{ErrorKind, Read, Write};

    #[test]
    fn halves_read_and_write() {
        let [mut client, mut server] = two_ends(Settings::small());
        let id = client.open(Dir::Bidi).expect("a stream");
        let mut sender = client.send_stream(id);
        sender.write_all(b"hello").expect("room");
        sender.flush().expect("nothing to do");
        let full = sender.write_all(&[0; 4096]).expect_err("no room");
        assert_eq!(full.kind(), ErrorKind::WouldBlock);
        sender.finish().expect("it goes on");
        let finished = sender.write(b"x").expect_err("it is finished");
        assert_eq!(finished.kind(), ErrorKind::BrokenPipe);
        assert_eq!(sender.try_write(b"x"), Err(UseFault::Finished));

        let mut payload = [0; 1200];
        let made = client
            .make_packet(&mut payload)
            .expect("open")
            .expect("due");
        let taken = server.receive(made.number, &payload[..made.len]);
        assert_eq!(taken, Ok(Received::Done));
        let mut reader = server.recv_stream(id);
        let mut bytes = [0; 5];
        reader.read_exact(&mut bytes).expect("it came");
        assert_eq!(&bytes, b"hello");
        assert_eq!(reader.read(&mut []).expect("nothing"), 0);
        let mut rest = Vec::new();
        let waits = reader.read_to_end(&mut rest).expect_err("more is to come");
        assert_eq!(waits.kind(), ErrorKind::WouldBlock);
        reader.stop(3).expect("open");

        let other = server.open(Dir::Uni).expect("a stream");
        let error = server
            .recv_stream(other)
            .read(&mut bytes)
            .expect_err("it is for sending");
        assert_eq!(error.kind(), ErrorKind::InvalidInput);
    }

    #[test]
    fn a_reset_is_an_error() {
        let [mut client, mut server] = two_ends(Settings::small());
        let id = client.open(Dir::Uni).expect("a stream");
        client.send_stream(id).reset(42).expect("open");
        let mut payload = [0; 1200];
        let made = client
            .make_packet(&mut payload)
            .expect("open")
            .expect("due");
        let taken = server.receive(made.number, &payload[..made.len]);
        assert_eq!(taken, Ok(Received::Done));
        let mut reader = server.recv_stream(id);
        let error = reader.read(&mut [0; 8]).expect_err("a reset");
        assert_eq!(error.kind(), ErrorKind::ConnectionReset);
        let report = reader.report().expect("a half");
        assert_eq!(report.reset_code, Some(42));
    }
}
