//! Any call with any argument answers: none panics, and one that is `Invalid` changes nothing.

mod support;

use gotsavena::{
    AckRanges, Dir, Endpoint, Frame, MakeFault, PeerLimits, ReceiveFault, Role, Settings, StreamId,
    UseFault, frames, put, put_ack, read_varint, write_varint,
};
use support::Random;

const ENDS: usize = 400;
const CALLS: usize = 250;

// A number of any size, often one at a border.
fn number(random: &mut Random) -> u64 {
    let near = random.below(5).wrapping_sub(2);
    match random.below(5) {
        0 => random.word(),
        1 => random.below(30),
        2 => (1_u64 << 62).wrapping_add(near),
        3 => (1_u64 << random.below(64)).wrapping_add(near),
        _ => near,
    }
}

fn stream(random: &mut Random) -> StreamId {
    let wanted = if random.chance(80) {
        random.below(40)
    } else {
        number(random)
    };
    StreamId::new(wanted).unwrap_or(StreamId::new(3).expect("small"))
}

fn size(random: &mut Random) -> usize {
    match random.below(4) {
        0 => random.below(70_000) as usize,
        1 => [0, 1, 127, 128, 16_383, 16_384, 65_535, 65_536][random.below(8) as usize],
        _ => random.below(300) as usize,
    }
}

fn an_end(random: &mut Random) -> Option<Endpoint> {
    let mut usual = |value: u64| {
        if random.chance(97) {
            value
        } else {
            number(random)
        }
    };
    let settings = Settings::small()
        .conn_window(usual(5000))
        .bidi_local_window(usual(900))
        .bidi_remote_window(usual(800))
        .uni_window(usual(700))
        .send_buffer(usual(1500) as usize)
        .bidi_streams(usual(4), usual(9))
        .uni_streams(usual(4), usual(9));
    let peer = PeerLimits::default()
        .max_data(usual(3000))
        .bidi_local(usual(900))
        .bidi_remote(usual(900))
        .uni(usual(900))
        .streams_bidi(usual(5))
        .streams_uni(usual(5));
    let role = if usual(0) % 2 == 0 {
        Role::Client
    } else {
        Role::Server
    };
    Endpoint::new(role, settings, peer).ok()
}

fn told(end: &Endpoint, stream: StreamId) -> String {
    let counts = (
        end.granted_streams(Dir::Bidi),
        end.granted_streams(Dir::Uni),
    );
    let asked = (
        end.is_sendable(),
        (end.is_blocked(stream), end.credit_left()),
        (
            end.room(stream),
            end.unsent(stream),
            end.acked_below(stream),
        ),
        (end.kept_sum(), end.peek(stream)),
        (end.stopped_with(stream), end.peer_closed()),
        end.next_outstanding(0),
        end.streams_left(Dir::Bidi),
        end.open_left(Dir::Uni),
    );
    format!("{end:?} {:?} {counts:?} {asked:?}", end.report(stream))
}

// One call. Answers whether it was invalid.
fn call(end: &mut Endpoint, random: &mut Random, stream: StreamId) -> bool {
    let (length, code) = (size(random), number(random));
    match random.below(13) {
        0 => {
            _ = end.open(if random.chance(50) {
                Dir::Bidi
            } else {
                Dir::Uni
            })
        }
        1 => _ = end.accept(),
        2 => _ = end.write(stream, &vec![1; length]),
        3 => _ = end.finish(stream),
        4 => return end.reset(stream, code) == Err(UseFault::Invalid),
        5 => return end.stop(stream, code) == Err(UseFault::Invalid),
        6 => _ = end.read(stream, &mut vec![0; length]),
        7 => return end.make_packet(&mut vec![0; length]) == Err(MakeFault::Invalid),
        8 => _ = end.declare_lost(code),
        9 => _ = end.raise_limits(any_limits(random)),
        10 => _ = end.set_conn_window(number(random)),
        11 => _ = end.set_grant(stream.dir(), code),
        _ => {
            let mut payload = vec![0; length];
            let frame = any_frame(random, stream);
            _ = put(&frame, &mut payload);
            return end.receive(code, &payload) == Err(ReceiveFault::Invalid);
        }
    }
    false
}

fn any_limits(random: &mut Random) -> PeerLimits {
    PeerLimits::default()
        .max_data(number(random))
        .bidi_local(number(random))
        .bidi_remote(number(random))
        .uni(number(random))
        .streams_bidi(random.below(40))
        .streams_uni(number(random))
}

fn any_frame<'a>(random: &mut Random, stream: StreamId) -> Frame<'a> {
    const BYTES: &[u8] = &[1; 64];
    let (a, b) = (number(random), number(random));
    let bytes = &BYTES[..random.below(65) as usize];
    let fin = random.chance(30);
    match random.below(8) {
        0 => Frame::Ack {
            largest: a,
            delay: b,
            ranges: bytes,
            ecn: None,
        },
        1 => Frame::ResetStream {
            stream,
            code: a,
            final_size: b,
        },
        2 => Frame::MaxStreams {
            dir: Dir::Uni,
            count: a,
        },
        3 => Frame::NewConnectionId {
            sequence: a,
            retire: b,
            identifier: bytes,
            reset_token: bytes,
        },
        4 => Frame::Crypto { offset: a, bytes },
        5 => Frame::MaxStreamData { stream, maximum: a },
        _ => Frame::Stream {
            stream,
            offset: a,
            fin,
            bytes,
        },
    }
}

#[test]
fn any_call_answers() {
    let mut random = Random::new(5);
    let (mut made, mut invalid) = (0, 0);
    for _ in 0..ENDS {
        let Some(mut end) = an_end(&mut random) else {
            continue;
        };
        made += 1;
        for _ in 0..CALLS {
            let stream = stream(&mut random);
            let before = told(&end, stream);
            if call(&mut end, &mut random, stream) {
                invalid += 1;
                assert_eq!(before, told(&end, stream));
            }
            assert!(end.stored() <= end.granted() && end.spent() <= end.granted());
        }
    }
    assert!(
        made > 100 && invalid > 2000,
        "{made} ends, {invalid} invalid"
    );
    println!("{} calls of {made} ends, {invalid} invalid", made * CALLS);
    println!("figure tried_calls {}", made * CALLS);
}

#[test]
fn any_frame_and_any_ranges_are_answered() {
    let mut random = Random::new(6);
    let mut written = 0;
    for _ in 0..200_000 {
        let stream = stream(&mut random);
        let frame = any_frame(&mut random, stream);
        let mut out = vec![0; random.below(200) as usize];
        if let Ok(len) = put(&frame, &mut out) {
            written += 1;
            let read: Vec<_> = frames(&out[..len]).collect();
            assert_eq!(read.len(), 1, "{frame:?}");
            assert_eq!(read[0].map(|placed| placed.frame), Ok(frame));
        }
        let ranges: Vec<_> = (0..random.below(4))
            .map(|_| (number(&mut random), number(&mut random)))
            .collect();
        let sent = number(&mut random);
        if let Ok((count, len)) = put_ack(&ranges, sent, &mut out) {
            let Some(Ok(placed)) = frames(&out[..len]).next() else {
                panic!("{ranges:?}");
            };
            let Frame::Ack {
                largest,
                delay,
                ranges: found,
                ..
            } = placed.frame
            else {
                panic!("{ranges:?}");
            };
            let found = AckRanges::new(largest, found).expect("it was read");
            assert!(found.eq(ranges[..count].iter().copied()), "{ranges:?}");
            assert_eq!(delay, sent);
        }
        if let Some(ranges) = AckRanges::new(number(&mut random), &out) {
            assert!(ranges.count() <= out.len());
        }
        let value = number(&mut random);
        if let Some(len) = write_varint(value, &mut out) {
            assert_eq!(read_varint(&out), Some((value, len)));
        }
    }
    assert!(written > 10_000, "{written}");
}
