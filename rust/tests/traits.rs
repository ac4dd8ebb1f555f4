//! Traits that users of iterators, sets and logs expect. Numbers are those of RFC 9000.

use gotsavena::{
    AckRanges, Dir, Endpoint, Event, Fill, Frames, PeerLimits, Read, RecvState, Role, SendState,
    Settings, StreamId, Tuning, frames,
};
use std::collections::HashSet;

// STREAM of stream 0 with "a", PING, STREAM of stream 4 with "b" (section 19.8).
const PAYLOAD: [u8; 9] = [0x0a, 0, 1, b'a', 0x01, 0x0a, 4, 1, b'b'];

#[test]
fn a_clone_of_frames_goes_on_where_the_original_stands() {
    for payload in [&PAYLOAD[..], &[0x01, 0x01, 0x40, 0x01], &[0x01, 0x1f], &[]] {
        let all: Vec<_> = frames(payload).collect();
        let mut walk: Frames<'_> = frames(payload);
        for given in 0..=all.len() {
            let clone = walk.clone();
            assert!(clone.clone().eq(all[given..].iter().copied()));
            assert!(clone.eq(all[given..].iter().copied()));
            // (a clone of a clone has no place of its own to begin at)
            let mut ahead = walk.clone();
            ahead.next();
            assert_eq!(ahead.clone().collect::<Vec<_>>(), ahead.collect::<Vec<_>>());
            walk.next();
        }
        assert!(walk.clone().next().is_none());
    }
    let places: Vec<_> = frames(&PAYLOAD)
        .map(|placed| placed.unwrap().place)
        .collect();
    assert_eq!(places, [0, 4, 5]);
}

#[test]
fn a_clone_of_ranges_goes_on_where_the_original_stands() {
    // The largest is 20, and then lengths and gaps (section 19.3.1).
    let spelled = [2, 1, 0, 3, 4];
    let all = [(18, 20), (15, 15), (6, 10)];
    let mut walk = AckRanges::new(20, &spelled).unwrap();
    for given in 0..=all.len() {
        assert!(walk.clone().eq(all[given..].iter().copied()));
        walk.next();
    }
    assert_eq!(walk.clone().next(), None);
}

#[test]
fn tokens_and_events_stand_in_sets() {
    let settings = Settings::default();
    let mut client = Endpoint::new(Role::Client, settings, settings.limits()).unwrap();
    let mut tokens = HashSet::new();
    for _ in 0..2 {
        let stream = client.open(Dir::Uni).unwrap();
        client.write(stream, b"hello").unwrap();
        let filled = client.fill(&mut [0; 100], &Fill::all()).unwrap().unwrap();
        assert!(tokens.insert(filled.token));
        assert!(!tokens.insert(filled.token));
    }
    let stream = StreamId::new(3).unwrap();
    let events = HashSet::from([
        Event::Readable(stream),
        Event::Writable(stream),
        Event::Readable(stream),
    ]);
    assert_eq!(events.len(), 2);
}

#[test]
fn roles_directions_and_events_have_words() {
    assert_eq!(
        format!("{} {}", Role::Client, Role::Server),
        "client server"
    );
    assert_eq!(
        format!("{} {}", Dir::Bidi, Dir::Uni),
        "bidirectional unidirectional"
    );
    assert_eq!(format!("[{:>8}]", Role::Client), "[  client]");
    let stream = StreamId::new(7).unwrap();
    let told = [
        (Event::Opened(stream), "the peer opened stream 7"),
        (Event::Readable(stream), "stream 7 is readable"),
        (Event::Writable(stream), "stream 7 is writable"),
        (
            Event::Stopped(stream, 0x10c),
            "the peer stopped stream 7 with code 0x10c",
        ),
        (Event::Finished(stream), "all of stream 7 is acknowledged"),
        (
            Event::ResetAcked(stream),
            "the reset of stream 7 is acknowledged",
        ),
        (Event::Ended(stream), "stream 7 ended"),
        (
            Event::Available(Dir::Uni),
            "a unidirectional stream may be opened",
        ),
        (Event::DataBlocked, "the connection's limit blocks the peer"),
        (
            Event::StreamDataBlocked(stream),
            "the limit of stream 7 blocks the peer",
        ),
        (
            Event::StreamsBlocked(Dir::Bidi),
            "the limit on bidirectional streams blocks the peer",
        ),
    ];
    for (event, words) in told {
        assert_eq!(event.to_string(), words);
    }
}

#[test]
fn a_number_of_a_stream_is_below_2_to_the_62() {
    let last = StreamId::new((1 << 62) - 1).unwrap();
    assert_eq!(StreamId::try_from((1 << 62) - 1), Ok(last));
    for number in [1 << 62, u64::MAX] {
        let fault = StreamId::try_from(number).unwrap_err();
        assert!(fault.to_string().contains("2^62"));
    }
}

#[test]
fn streams_follow_one_another() {
    let first = StreamId::new(0).unwrap();
    let few: Vec<_> = std::iter::successors(Some(first), |stream| stream.next())
        .map(StreamId::value)
        .take(5)
        .collect();
    assert_eq!(few, [0, 1, 2, 3, 4]);
    assert_eq!(StreamId::new((1 << 62) - 1).unwrap().next(), None);
}

/// A match of what stays needs no arm for what isn't known yet: that this compiles is the test.
#[test]
fn what_is_read_and_the_states_can_be_matched_whole() {
    let read = |read| match read {
        Read::Bytes(_) | Read::Wait => false,
        Read::End | Read::Reset(_) => true,
    };
    let sent = |state| match state {
        SendState::Ready | SendState::Send | SendState::DataSent | SendState::ResetSent => false,
        SendState::DataRecvd | SendState::ResetRecvd => true,
    };
    let received = |state| match state {
        RecvState::Recv | RecvState::SizeKnown | RecvState::DataRecvd | RecvState::ResetRecvd => {
            false
        }
        RecvState::DataRead | RecvState::ResetRead => true,
    };
    assert!(read(Read::End) && sent(SendState::DataRecvd) && received(RecvState::DataRead));
}

#[test]
fn what_an_application_builds_has_a_default_and_a_setter_for_each_field() {
    let nothing = PeerLimits::default();
    let limits = nothing
        .max_data(1)
        .bidi_local(2)
        .bidi_remote(3)
        .uni(4)
        .streams_bidi(5)
        .streams_uni(6);
    // The parameters of RFC 9000, section 18.2, as an endpoint of these settings tells them.
    let settings = Settings::default()
        .conn_window(1)
        .bidi_local_window(2)
        .bidi_remote_window(3)
        .uni_window(4)
        .bidi_streams(5, 5)
        .uni_streams(6, 6);
    assert_eq!(settings.limits(), limits);
    assert_eq!(
        nothing.stream_data(7),
        nothing.bidi_local(7).bidi_remote(7).uni(7)
    );
    assert_eq!(Tuning::default().epoch(0), Tuning::default());
}
