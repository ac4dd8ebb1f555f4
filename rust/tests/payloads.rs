//! Payloads that no honest peer made: random ones, ones of random frames, and honest ones that were changed. Each ends in
//! Ok or in a closing that stays; what is stored stays within what was granted, and memory within a bound.

#[path = "support/counting.rs"]
mod counting;
mod support;

use counting::LIVE;
use gotsavena::{
    Dir, Endpoint, Frame, MakeFault, ReceiveFault, Received, Role, Settings, StreamId, put,
};
use support::{Random, two_ends};

const PAYLOADS: usize = 100_000;

/// The most memory that one end may have taken here, in bytes: its windows and its sending buffers of 16 streams, twice,
/// and as much again for what it keeps of packets.
const BOUND: i64 = 256 * 1024;

// Payloads of an honest peer: what a client makes over a while.
fn honest_payloads() -> Vec<Vec<u8>> {
    let mut random = Random::new(7);
    let mut payloads = Vec::new();
    for _ in 0..20 {
        let [mut client, mut server] = two_ends(Settings::small());
        let mut streams = Vec::new();
        for turn in 0..40 {
            streams.extend(client.open(if turn % 2 == 0 { Dir::Bidi } else { Dir::Uni }));
            for &stream in &streams {
                let count = random.below(90) as usize;
                _ = client.write(stream, &random.bytes(count));
                match random.below(12) {
                    0 => _ = client.finish(stream),
                    1 => _ = client.reset(stream, 5),
                    2 => _ = client.stop(stream, 6),
                    _ => {}
                }
            }
            let mut out = [0; 300];
            for (from, to) in [(0, 1), (1, 0)] {
                let ends = [&mut client, &mut server];
                let Ok(Some(made)) = ends[from].make_packet(&mut out) else {
                    continue;
                };
                if from == 0 {
                    payloads.push(out[..made.len].to_vec());
                }
                let ends = [&mut client, &mut server];
                let taken = ends[to].receive(made.number, &out[..made.len]);
                assert_eq!(taken, Ok(Received::Done));
            }
            let mut into = [0; 200];
            while let Some(stream) = server.accept() {
                streams.push(stream);
                _ = server.write(stream, b"answer");
            }
            for &stream in &streams {
                _ = server.read(stream, &mut into);
            }
        }
    }
    payloads
}

// A frame with numbers of all sizes.
fn random_frame(random: &mut Random, bytes: &[u8], out: &mut [u8]) -> usize {
    let bits = random.below(20) + if random.chance(10) { 42 } else { 0 };
    let mut number = || random.word() >> (63 - bits.min(61));
    let stream = StreamId::new(number() % 40).expect("small");
    let (a, b) = (number(), number());
    let dir = if a % 2 == 0 { Dir::Bidi } else { Dir::Uni };
    let fin = b % 3 == 0;
    let frame = match random.below(14) {
        0 => Frame::Ack {
            largest: a,
            delay: b,
            ranges: &[0],
            ecn: None,
        },
        1 => Frame::ResetStream {
            stream,
            code: a,
            final_size: b,
        },
        2 => Frame::StopSending { stream, code: a },
        3 => Frame::Crypto { offset: a, bytes },
        4 => Frame::MaxData { maximum: a },
        5 => Frame::MaxStreamData { stream, maximum: a },
        6 => Frame::MaxStreams { dir, count: a },
        7 => Frame::DataBlocked { limit: a },
        8 => Frame::StreamDataBlocked { stream, limit: a },
        9 => Frame::StreamsBlocked { dir, count: a },
        10 => Frame::Ping,
        _ => Frame::Stream {
            stream,
            offset: a % 3000,
            fin,
            bytes,
        },
    };
    put(&frame, out).unwrap_or(0)
}

fn payload(random: &mut Random, honest: &[Vec<u8>]) -> Vec<u8> {
    match random.below(3) {
        0 => {
            let count = random.below(60) as usize;
            random.bytes(count)
        }
        1 => {
            let mut out = vec![0; 600];
            let mut len = 0;
            for _ in 0..1 + random.below(4) {
                let count = random.below(100) as usize;
                let bytes = random.bytes(count);
                len += random_frame(random, &bytes, &mut out[len..]);
            }
            out.truncate(len.max(1));
            out
        }
        _ => {
            let mut bytes = honest[random.below(honest.len() as u64) as usize].clone();
            for _ in 0..random.below(4) {
                let place = random.below(bytes.len() as u64) as usize;
                match random.below(3) {
                    0 => bytes[place] ^= 1 << random.below(8),
                    1 => bytes[place] = random.word() as u8,
                    _ => bytes.truncate(place.max(1)),
                }
            }
            bytes
        }
    }
}

// An end that has opened and written to some streams, so that there is something to hit.
fn busy_server(settings: Settings) -> Endpoint {
    let mut end = Endpoint::new(Role::Server, settings, settings.limits()).expect("it fits");
    for dir in [Dir::Bidi, Dir::Uni] {
        let stream = end.open(dir).expect("allowed");
        end.write(stream, &[1; 900]).expect("open");
        end.make_packet(&mut [0; 300]).expect("open");
    }
    end
}

#[test]
fn hostile_payloads_do_no_harm() {
    let settings = Settings::small();
    let (honest, mut random) = (honest_payloads(), Random::new(1));
    let (mut closings, mut done, mut number, mut most) = (0, 0, 0, 0);
    let mut before = LIVE.get();
    let mut end = busy_server(settings);
    for _ in 0..PAYLOADS {
        let bytes = payload(&mut random, &honest);
        number += random.below(3);
        let received = end.receive(number, &bytes);
        most = most.max(LIVE.get() - before - bytes.capacity() as i64);
        assert!(end.stored() <= end.granted() && end.stored() <= 4096);
        assert!(end.spent() <= end.granted());
        match received {
            Ok(Received::PeerClosed(_)) | Err(_) => {
                closings += 1;
                stays_closed(&mut end, number, received);
                drop(bytes);
                drop(end);
                before = LIVE.get();
                end = busy_server(settings);
                number = 0;
            }
            Ok(Received::NoMemory) => panic!("there is memory"),
            Ok(_) => {
                done += 1;
                use_it(&mut end, &mut random);
            }
        }
    }
    assert!(
        closings > 20_000 && done > 10_000,
        "{closings} closings, {done} went on"
    );
    assert!(most <= BOUND, "{most} bytes");
    println!("{closings} closings, {done} went on, at most {most} bytes of memory");
    println!("figure hostile_payload_bytes {most}");
}

fn use_it(end: &mut Endpoint, random: &mut Random) {
    let mut into = [0; 100];
    match random.below(4) {
        0 => _ = end.accept(),
        1 => _ = end.read(StreamId::new(random.below(40)).expect("small"), &mut into),
        2 => _ = end.make_packet(&mut [0; 400]),
        _ => _ = end.declare_lost(random.below(10)),
    }
}

fn stays_closed(end: &mut Endpoint, number: u64, received: Result<Received, ReceiveFault>) {
    assert_eq!(end.receive(number + 1, &[1]), received);
    assert_eq!(end.receive(number, &[]), received);
    assert_eq!(end.make_packet(&mut [0; 128]), Err(MakeFault::Closed));
    assert_eq!(end.accept(), None);
    let mut out = [0; 64];
    let told = end.close_payload(&mut out).is_some();
    assert_eq!(told, end.closing().is_some());
    assert_eq!(told, received.is_err());
}
