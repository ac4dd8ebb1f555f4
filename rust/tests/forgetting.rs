//! Streams that are stopped and forgotten: an end that forgets, beside one that stops and reads on to be told of the end.

mod support;

use gotsavena::{Dir, Endpoint, Read, Settings, StreamId, UseFault};
use support::pairs::{answer_alike, ends_alike};
use support::{Random, two_ends};

fn alike(one: &Endpoint, other: &Endpoint, stream: StreamId) {
    assert_eq!(one.report(stream), other.report(stream));
    assert_eq!(
        (one.granted(), one.stored(), one.spent()),
        (other.granted(), other.stored(), other.spent())
    );
    for dir in [Dir::Bidi, Dir::Uni] {
        assert_eq!(one.granted_streams(dir), other.granted_streams(dir));
    }
    assert_eq!(one.noted(), other.noted());
    assert_eq!(one.next_ended(stream), other.next_ended(stream));
}

// A stream comes to both ends alike, with packets lost, late and twice; from some turn on one forgets it, and the other stops it and
// reads after each packet that comes.
fn carry(seed: u64) {
    let mut random = Random::new(seed);
    let settings = Settings::small().uni_window(2000);
    let (mut client, [mut one, mut other]) = ends_alike(settings);
    let stream = client.open(Dir::Uni).expect("granted");
    let mut left = random.below(4000) as usize;
    let resets = random.chance(20);
    let forgets = random.below(12);
    let mut payload = [0; 300];
    let mut flying: Vec<(u64, Vec<u8>)> = Vec::new();
    let mut forgotten = false;
    for turn in 0.. {
        assert!(turn < 4000, "the stream comes to its end");
        left -= client.write(stream, &vec![7; left]).unwrap_or(0);
        if left == 0 {
            let _again = client.finish(stream);
        }
        if resets && turn == 6 {
            let _whole = client.reset(stream, 9);
        }
        while let Some(made) = client.make_packet(&mut payload).expect("open") {
            if random.chance(20) {
                let _ack_alone = client.declare_lost(made.number);
            } else {
                flying.push((made.number, payload[..made.len].to_vec()));
            }
        }
        for _packet in 0..random.below(4) {
            if flying.is_empty() {
                break;
            }
            let place = random.below(flying.len() as u64) as usize;
            let (number, text) = if random.chance(20) {
                flying[place].clone()
            } else {
                flying.swap_remove(place)
            };
            assert_eq!(one.receive(number, &text), other.receive(number, &text));
            if forgotten {
                let told = other.read(stream, &mut [0; 10]).expect("open");
                assert!(!matches!(told, Read::Bytes(_)));
                assert_eq!(one.next_readable(stream), None);
                alike(&one, &other, stream);
            }
        }
        if one.report(stream).is_none() {
            continue;
        }
        if turn >= forgets && !forgotten {
            forgotten = true;
            one.stop_and_discard(stream, 3).expect("open");
            other.stop(stream, 3).expect("open");
            let _told = other.read(stream, &mut [0; 10]).expect("open");
            alike(&one, &other, stream);
        }
        if forgotten && one.next_ended(stream).is_some() {
            assert_eq!(one.noted(), 0);
            return;
        }
        // What is granted goes back, and the stop.
        answer_alike(&mut one, &mut other, &mut client);
    }
}

#[test]
fn a_forgotten_stream_ends_as_one_that_is_read_on() {
    for seed in 0..1000 {
        carry(seed);
    }
}

#[test]
fn each_forgotten_stream_gives_its_place_to_another() {
    let [mut client, mut server] = two_ends(Settings::small().uni_streams(2, 100));
    let mut payload = [0; 1200];
    for round in 0..20 {
        let stream = client.open(Dir::Uni).expect("granted");
        client.write(stream, b"abc").expect("room");
        let made = client
            .make_packet(&mut payload)
            .expect("open")
            .expect("due");
        assert!(server.receive(made.number, &payload[..made.len]).is_ok());
        let before = server.granted_streams(Dir::Uni);
        server.stop_and_discard(stream, round).expect("open");
        server.stop_and_discard(stream, 99).expect("open");
        assert_eq!(server.next_ended(stream), None);
        assert_eq!(server.granted_streams(Dir::Uni), before);
        let made = server
            .make_packet(&mut payload)
            .expect("open")
            .expect("due");
        assert!(client.receive(made.number, &payload[..made.len]).is_ok());
        let made = client
            .make_packet(&mut payload)
            .expect("open")
            .expect("due");
        assert!(server.receive(made.number, &payload[..made.len]).is_ok());
        assert_eq!(server.next_ended(stream), Some(stream));
        assert_eq!(server.read(stream, &mut []), Ok(Read::Reset(round)));
        assert_eq!(server.granted_streams(Dir::Uni), before + 1);
        let made = server
            .make_packet(&mut payload)
            .expect("open")
            .expect("due");
        assert!(client.receive(made.number, &payload[..made.len]).is_ok());
    }
}

#[test]
fn what_all_came_of_is_over_at_once() {
    let [mut client, mut server] = two_ends(Settings::small());
    let mut payload = [0; 1200];
    let stream = client.open(Dir::Uni).expect("granted");
    client.write(stream, b"abc").expect("room");
    client.finish(stream).expect("open");
    let made = client
        .make_packet(&mut payload)
        .expect("open")
        .expect("due");
    assert!(server.receive(made.number, &payload[..made.len]).is_ok());
    server.stop_and_discard(stream, 7).expect("open");
    assert_eq!(server.next_ended(stream), Some(stream));
    assert_eq!((server.stored(), server.noted()), (0, 0));
}

#[test]
fn only_a_stream_that_comes_in_can_be_forgotten() {
    let (mut client, mut servers) = ends_alike(Settings::small());
    let stream = client.open(Dir::Uni).expect("granted");
    assert_eq!(
        client.stop_and_discard(stream, 1),
        Err(UseFault::WrongDirection)
    );
    assert_eq!(
        servers[0].stop_and_discard(stream, 1),
        Err(UseFault::NoSuchStream)
    );
    assert_eq!(
        client.stop_and_discard(stream, 1 << 62),
        Err(UseFault::Invalid)
    );
}
