//! A look at a stream, beside a read of what it showed: of whole streams, in order and over gaps, around a ring's end, and of the answers
//! that aren't bytes.

mod support;

use gotsavena::{Dir, Endpoint, Peek, Read, Role, Settings, StreamId, Tuning, UseFault, frames};
use support::Random;

fn ends(settings: Settings) -> (Endpoint, Endpoint) {
    let end = |role| Endpoint::new(role, settings, settings.limits()).expect("in range");
    (end(Role::Client), end(Role::Server))
}

// What a look shows is what a read hands out, and it is all that stands before a gap.
fn look(server: &mut Endpoint, stream: StreamId, random: &mut Random, next: &mut usize) {
    let (shown, whole) = match server.peek(stream).expect("open") {
        Peek::Bytes(front, back) => {
            assert!(!front.is_empty());
            ([front, back].concat(), front.len() + back.len())
        }
        Peek::End => {
            assert_eq!(server.read(stream, &mut [0]), Ok(Read::End));
            return;
        }
        Peek::Reset(code) => {
            assert_eq!(server.read(stream, &mut [0]), Ok(Read::Reset(code)));
            return;
        }
        Peek::Wait => {
            assert_eq!(server.read(stream, &mut [0]), Ok(Read::Wait));
            return;
        }
        other => panic!("{other:?}"),
    };
    for (place, &byte) in shown.iter().enumerate() {
        assert_eq!(byte, byte_at(*next + place));
    }
    let count = 1 + random.below(whole as u64) as usize;
    let mut into = vec![0; count];
    assert_eq!(server.read(stream, &mut into), Ok(Read::Bytes(count)));
    assert_eq!(into, shown[..count]);
    *next += count;
    if count == whole {
        // Nothing more stood in a row.
        let after = server.peek(stream).expect("open");
        assert!(!matches!(after, Peek::Bytes(..)));
    }
}

fn byte_at(offset: usize) -> u8 {
    (offset % 251) as u8
}

fn carry(seed: u64) {
    let mut random = Random::new(seed);
    let (mut client, mut server) = ends(Settings::small().uni_window(3000));
    let stream = client.open(Dir::Uni).expect("granted");
    let (mut written, mut next) = (0, 0);
    let mut waiting: Vec<(u64, Vec<u8>)> = Vec::new();
    for _ in 0..300 {
        let bytes: Vec<u8> = (written..written + random.below(400) as usize)
            .map(byte_at)
            .collect();
        written += client.write(stream, &bytes).expect("open");
        let mut payload = [0; 300];
        if let Some(made) = client.make_packet(&mut payload).expect("open") {
            waiting.push((made.number, payload[..made.len].to_vec()));
        }
        // Some packets come late, so that there are gaps.
        if !waiting.is_empty() && random.chance(60) {
            let at = random.below(waiting.len() as u64) as usize;
            let (number, payload) = waiting.remove(at);
            assert!(server.receive(number, &payload).is_ok());
        }
        if server.report(stream).is_some() {
            look(&mut server, stream, &mut random, &mut next);
        }
        let mut back = [0; 300];
        if let Some(made) = server.make_packet(&mut back).expect("open") {
            assert!(client.receive(made.number, &back[..made.len]).is_ok());
        }
    }
    assert!(next > 0);
}

#[test]
fn a_look_shows_what_a_read_hands_out() {
    for seed in 0..200 {
        carry(seed);
    }
}

#[test]
fn answers_that_are_no_bytes() {
    let (mut client, mut server) = ends(Settings::small());
    let (one, other) = (
        client.open(Dir::Uni).expect("granted"),
        client.open(Dir::Uni).expect("granted"),
    );
    assert_eq!(server.peek(one), Err(UseFault::NoSuchStream));
    assert_eq!(client.peek(one), Err(UseFault::WrongDirection));
    assert_eq!(client.write(other, b"x"), Ok(1));
    let mut payload = [0; 300];
    let made = client
        .make_packet(&mut payload)
        .expect("open")
        .expect("due");
    assert!(server.receive(made.number, &payload[..made.len]).is_ok());
    assert_eq!(server.peek(one), Ok(Peek::Wait));
    assert_eq!(server.peek(other), Ok(Peek::Bytes(b"x", b"")));
    client.reset(other, 7).expect("open");
    client.finish(one).expect("open");
    let made = client
        .make_packet(&mut payload)
        .expect("open")
        .expect("due");
    assert!(server.receive(made.number, &payload[..made.len]).is_ok());
    assert_eq!(server.peek(one), Ok(Peek::End));
    assert_eq!(server.peek(other), Ok(Peek::Reset(7)));
    // It tells nothing for good: a read still does.
    assert_eq!(server.next_readable(one), Some(one));
    assert!(server.receive(99, b"\x1c\x00\x00\x00").is_ok());
    assert_eq!(server.peek(one), Err(UseFault::Closed));
}

#[test]
fn a_closed_end_that_reads_on_shows_on() {
    let settings = Settings::small();
    let tuning = Tuning::default().reads_when_closed(true);
    let mut client = Endpoint::new(Role::Client, settings, settings.limits()).expect("in range");
    let mut server =
        Endpoint::with_tuning(Role::Server, settings, tuning, settings.limits()).expect("in range");
    let stream = client.open(Dir::Uni).expect("granted");
    assert_eq!(client.write(stream, b"abc"), Ok(3));
    let mut payload = [0; 300];
    let made = client
        .make_packet(&mut payload)
        .expect("open")
        .expect("due");
    assert_eq!(frames(&payload[..made.len]).count(), 1);
    assert!(server.receive(made.number, &payload[..made.len]).is_ok());
    assert!(server.receive(99, b"\x1c\x00\x00\x00").is_ok());
    assert_eq!(server.peek(stream), Ok(Peek::Bytes(b"abc", b"")));
}
