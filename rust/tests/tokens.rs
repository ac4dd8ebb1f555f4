//! Two toy stacks that own their packets: frames come one by one, out of order and again, and tokens are told. What each call does is
//! proved; here calls succeed where memory is there, and a connection comes to its end so.

use gotsavena::{
    Dir, Endpoint, Fill, Frame, Read, Role, Settings, StreamId, TakeFault, Taken, Token,
    TokenFault, Tuning, frames,
};

fn ends() -> (Endpoint, Endpoint) {
    let settings = Settings::small();
    let end = |role| Endpoint::new(role, settings, settings.limits()).expect("in range");
    (end(Role::Client), end(Role::Server))
}

// The frames of the next packet of an end, as they are read in it, and its token.
fn fill(end: &mut Endpoint, payload: &mut [u8]) -> Option<(usize, Token)> {
    let made = end.make_packet(payload).expect("open")?;
    Some((made.len, end.token_of(made.number)))
}

// Hands each frame in, the last one first and each twice, which changes nothing the second time; an ACK is the stack's own affair.
fn hand_in(end: &mut Endpoint, payload: &[u8]) {
    let all: Vec<Frame<'_>> = frames(payload).map(|p| p.expect("a frame").frame).collect();
    for frame in all.iter().rev() {
        let ours = !matches!(frame, Frame::Ack { .. });
        let taken = end.take_frame(frame).expect("lawful");
        assert_eq!(taken != Taken::NotOurs, ours);
    }
    for frame in &all {
        let ours = !matches!(frame, Frame::Ack { .. });
        let taken = if ours {
            Taken::Unchanged
        } else {
            Taken::NotOurs
        };
        assert_eq!(end.take_frame(frame), Ok(taken));
    }
}

// What an end reads of a stream until it has to wait, and whether it came to the end.
fn read(end: &mut Endpoint, stream: StreamId, bytes: &mut Vec<u8>) -> bool {
    let mut into = [0; 100];
    loop {
        match end.read(stream, &mut into).expect("open") {
            Read::Bytes(count) => bytes.extend_from_slice(&into[..count]),
            answer => return answer == Read::End,
        }
    }
}

#[test]
fn a_stream_is_carried_by_frames_and_tokens() {
    let (mut client, mut server) = ends();
    let stream = client.open(Dir::Uni).expect("granted");
    let sent: Vec<u8> = (0..20_000).map(|i| (i * 7) as u8).collect();
    let (mut written, mut came, mut turn) = (0, Vec::new(), 0);
    let mut is_over = false;
    while !is_over {
        turn += 1;
        assert!(turn < 2000, "the stream comes to its end");
        written += client.write(stream, &sent[written..]).unwrap_or(0);
        if written == sent.len() {
            let _again = client.finish(stream);
        }
        let mut payload = [0; 300];
        while let Some((len, token)) = fill(&mut client, &mut payload) {
            // A third counts as lost, so that its bytes go again; every ninth of those came nevertheless, and its ACK is late.
            if token.number % 3 == 0 {
                client.lost(token).expect("made");
            }
            if token.number % 3 != 0 || token.number % 27 == 0 {
                hand_in(&mut server, &payload[..len]);
                client.acked(token).expect("made");
                client.acked(token).expect("it is done");
                client.lost(token).expect("it is done");
            }
        }
        if server.report(stream).is_some() {
            is_over = read(&mut server, stream, &mut came);
        }
        while let Some((len, token)) = fill(&mut server, &mut payload) {
            hand_in(&mut client, &payload[..len]);
            server.acked(token).expect("made");
        }
    }
    assert_eq!(came, sent);
    assert!(!client.is_sendable() && !server.is_sendable());
}

// Each of these frames changes something, or nothing, where they come in this order.
#[test]
fn a_frame_tells_whether_it_changed_anything() {
    let (mut client, mut server) = ends();
    let own = server.open(Dir::Bidi).expect("granted");
    let stream = StreamId::new(0).expect("small");
    let data = |offset, bytes, fin| Frame::Stream {
        stream,
        offset,
        fin,
        bytes,
    };
    let reset = |stream| Frame::ResetStream {
        stream,
        code: 7,
        final_size: 3,
    };
    let stop = |stream| Frame::StopSending { stream, code: 7 };
    let max_of_stream = |stream, maximum| Frame::MaxStreamData { stream, maximum };
    let other = StreamId::new(4).expect("small");
    let settings = Settings::small();
    let (data_limit, streams) = (settings.limits().max_data, settings.limits().streams_bidi);
    let rows = [
        // An empty frame opens its stream, and then does nothing.
        (data(0, b"", false), true),
        (data(0, b"", false), false),
        (data(5, b"", false), false),
        (data(1, b"bc", false), true),
        (data(2, b"c", false), false),
        (data(0, b"abc", false), true),
        (data(0, b"abc", false), false),
        (data(3, b"", true), true),
        (data(0, b"abc", true), false),
        (reset(stream), false),
        (reset(other), true),
        (reset(other), false),
        (stop(stream), true),
        (stop(stream), false),
        (max_of_stream(own, 1), false),
        (max_of_stream(own, 1 << 40), true),
        (max_of_stream(own, 1 << 40), false),
        (
            Frame::MaxData {
                maximum: data_limit,
            },
            false,
        ),
        (
            Frame::MaxData {
                maximum: data_limit + 1,
            },
            true,
        ),
        (
            Frame::MaxStreams {
                dir: Dir::Bidi,
                count: streams,
            },
            false,
        ),
        (
            Frame::MaxStreams {
                dir: Dir::Bidi,
                count: streams + 1,
            },
            true,
        ),
        (Frame::DataBlocked { limit: 9 }, false),
        (
            Frame::StreamsBlocked {
                dir: Dir::Uni,
                count: 9,
            },
            false,
        ),
        (
            Frame::StreamDataBlocked {
                stream: other,
                limit: 9,
            },
            false,
        ),
        (
            Frame::StreamDataBlocked {
                stream: StreamId::new(8).expect("small"),
                limit: 9,
            },
            true,
        ),
    ];
    for (frame, changes) in rows {
        let taken = if changes {
            Taken::Took
        } else {
            Taken::Unchanged
        };
        assert_eq!(server.take_frame(&frame), Ok(taken), "{frame:?}");
    }
    assert_eq!(client.take_frame(&Frame::Ping), Ok(Taken::NotOurs));
}

#[test]
fn values_that_no_text_has_close() {
    let (_, mut server) = ends();
    let stream = StreamId::new(0).expect("small");
    let frame = Frame::Stream {
        stream,
        offset: (1 << 62) - 1,
        fin: false,
        bytes: b"x",
    };
    let Err(TakeFault::Closing(closing)) = server.take_frame(&frame) else {
        panic!("the end closes");
    };
    assert_eq!(
        (closing.code, closing.frame_type, closing.place),
        (0x07, 0x0e, 0)
    );
    // An end that is closed says so again, and is told of no token.
    let again = server.take_frame(&Frame::Ping);
    assert_eq!(again, Err(TakeFault::Closing(closing)));
    let token = server.token_of(0);
    assert_eq!(server.acked(token), Err(TokenFault::Closed));
}

// A server refuses 0-RTT, and a fresh end takes the place of the one that sent it: the tokens of the two are told apart.
#[test]
fn a_fresh_end_takes_no_token_of_the_one_before() {
    let settings = Settings::default();
    let begun = |epoch| {
        let tuning = Tuning::default().epoch(epoch);
        let mut end = Endpoint::with_tuning(Role::Client, settings, tuning, settings.limits())?;
        let stream = end.open(Dir::Uni).expect("granted");
        end.write(stream, b"hello").expect("room");
        let filled = end.fill(&mut [0; 100], &Fill::all()).expect("open");
        Ok::<_, gotsavena::SetupFault>((end, filled.expect("bytes are due").token))
    };
    let (_, early) = begun(7).expect("in range");
    let (mut fresh, token) = begun(8).expect("in range");
    assert_eq!((early.epoch, token.epoch), (7, 8));
    assert_eq!(early.number, token.number);
    for _ in 0..2 {
        assert_eq!(fresh.acked(early), Err(TokenFault::NotGiven));
        assert_eq!(fresh.lost(early), Err(TokenFault::NotGiven));
    }
    assert_eq!(fresh.next_outstanding(0), Some(token.number));
    assert_eq!(fresh.lost(token), Ok(()));
    assert_eq!(fresh.acked(token), Ok(()));
}

// A packet that is filled in parts has one token, and of its parts none is told twice.
#[test]
fn parts_of_a_packet_have_one_token() {
    let (mut client, _) = ends();
    let streams = [0; 3].map(|_| client.open(Dir::Uni).expect("granted"));
    let mut tokens = Vec::new();
    for stream in streams {
        client.write(stream, b"hello").expect("room");
        let filled = client.fill(&mut [0; 100], &Fill::data().only(stream));
        tokens.push(filled.expect("open").expect("bytes are due").token);
    }
    let [one, two, three] = tokens[..] else {
        panic!("each stream sends");
    };
    assert_eq!(one.and(three), None);
    assert_eq!(two.and(one), None);
    let token = one
        .and(two)
        .and_then(|both| both.and(three))
        .expect("they follow");
    assert_eq!((token.first, token.number), (one.number, three.number));
    let next = Token {
        number: three.number + 1,
        ..token
    };
    assert_eq!(client.acked(next), Err(TokenFault::NotGiven));
    assert_eq!(client.acked(two), Ok(()));
    assert_eq!(client.lost(token), Ok(()));
    assert_eq!(client.next_outstanding(0), None);
    assert!(client.is_sendable(), "two of the three are due again");
    assert_eq!(client.acked(token), Ok(()));
    assert!(!client.is_sendable(), "a late acknowledgement counts");
}
