//! Bytes that are taken without a copy: an end that consumes, beside one that reads into a slice as long and then into an empty one. That
//! both leave the same is proved; here whole streams are taken so.

mod support;

use gotsavena::{Dir, Read, Settings, UseFault};
use support::Random;
use support::pairs::{answer_alike, ends_alike};

// A stream is carried to both ends alike; one consumes it, the other reads it.
fn carry(seed: u64) {
    let mut random = Random::new(seed);
    let (mut client, mut servers) = ends_alike(Settings::small().uni_window(2000));
    let stream = client.open(Dir::Uni).expect("granted");
    let mut left = random.below(5000) as usize;
    let resets = random.chance(10);
    let mut payload = [0; 300];
    for turn in 0.. {
        assert!(turn < 2000, "the stream comes to its end");
        left -= client.write(stream, &vec![7; left]).unwrap_or(0);
        if left == 0 {
            let _again = client.finish(stream);
        }
        if resets && turn == 3 {
            let _whole = client.reset(stream, 9);
        }
        while let Some(made) = client.make_packet(&mut payload).expect("open") {
            for server in &mut servers {
                let taken = server.receive(made.number, &payload[..made.len]);
                assert!(taken.is_ok());
            }
        }
        if servers[0].report(stream).is_none() {
            continue;
        }
        let most = random.below(700) as usize;
        let [one, other] = &mut servers;
        let consumed = one.consume(stream, most).expect("open");
        let read = other.read(stream, &mut vec![0; most]).expect("open");
        let next = other.read(stream, &mut []).expect("open");
        assert_eq!((consumed.read, consumed.at_end), (read, next == Read::End));
        assert_eq!(one.report(stream), other.report(stream));
        assert_eq!(
            (one.granted(), one.stored(), one.spent()),
            (other.granted(), other.stored(), other.spent())
        );
        if consumed.at_end || matches!(consumed.read, Read::Reset(_)) {
            // It is told, so that the stream gives its place to another.
            assert_eq!(one.next_readable(stream), None);
            return;
        }
        // What is granted goes back.
        answer_alike(one, other, &mut client);
    }
}

#[test]
fn consuming_leaves_what_reading_does() {
    for seed in 0..500 {
        carry(seed);
    }
}

#[test]
fn only_a_stream_that_comes_in_can_be_consumed() {
    let (mut client, mut servers) = ends_alike(Settings::small().uni_window(2000));
    let stream = client.open(Dir::Uni).expect("granted");
    assert_eq!(client.consume(stream, 1), Err(UseFault::WrongDirection));
    assert_eq!(servers[0].consume(stream, 1), Err(UseFault::NoSuchStream));
}
