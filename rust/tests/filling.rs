//! What is filled in, for a packet of a stack that owns its packets.

use gotsavena::{
    Dir, Endpoint, Fill, Filled, Frame, MIN_FILL, MakeFault, Read, Received, Role, Settings,
    StreamId, frames,
};

fn pair() -> (Endpoint, Endpoint) {
    let settings = Settings::small();
    let one = Endpoint::new(Role::Client, settings, settings.limits()).expect("within range");
    let other = Endpoint::new(Role::Server, settings, settings.limits()).expect("within range");
    (one, other)
}

fn fill(end: &mut Endpoint, room: usize, want: Fill) -> Option<(Filled, Vec<u8>)> {
    let mut out = vec![0xee; room];
    let filled = end.fill(&mut out, &want).expect("open, and with memory");
    let len = filled.map_or(0, |it| it.len);
    assert!(out[len..].iter().all(|&byte| byte == 0xee), "bytes behind");
    out.truncate(len);
    filled.map(|it| (it, out))
}

fn streams_of(text: &[u8]) -> Vec<StreamId> {
    frames(text)
        .filter_map(|placed| match placed.expect("whole").frame {
            Frame::Stream { stream, .. } => Some(stream),
            _ => None,
        })
        .collect()
}

fn has_items(text: &[u8]) -> bool {
    frames(text).any(|placed| {
        !matches!(
            placed.expect("whole").frame,
            Frame::Stream { .. } | Frame::Ack { .. }
        )
    })
}

fn has_ack(text: &[u8]) -> bool {
    frames(text).any(|placed| matches!(placed.expect("whole").frame, Frame::Ack { .. }))
}

/// Three streams with bytes, the first of which was reset.
fn busy() -> (Endpoint, [StreamId; 3]) {
    let (mut one, _other) = pair();
    let streams = [0; 3].map(|_| one.open(Dir::Uni).expect("granted"));
    for stream in streams {
        one.write(stream, b"some bytes").expect("room");
    }
    one.reset(streams[0], 7).expect("open");
    (one, streams)
}

#[test]
fn each_kind_alone() {
    let (mut one, streams) = busy();
    let (filled, text) = fill(&mut one, 100, Fill::control()).expect("a reset is due");
    assert!(has_items(&text) && streams_of(&text).is_empty());
    assert_eq!((filled.last_stream, filled.more), (None, false));
    assert!(fill(&mut one, 100, Fill::control()).is_none());
    let (filled, text) = fill(&mut one, 100, Fill::data()).expect("bytes are due");
    assert!(!has_items(&text));
    assert_eq!(streams_of(&text), streams[1..]);
    assert_eq!((filled.last_stream, filled.more), (Some(streams[2]), false));
    assert!(fill(&mut one, 100, Fill::all()).is_none());
}

#[test]
fn data_leaves_items_due() {
    let (mut one, _streams) = busy();
    assert!(fill(&mut one, 100, Fill::data()).is_some());
    assert!(fill(&mut one, 100, Fill::data()).is_none());
    let (_filled, text) = fill(&mut one, 100, Fill::all()).expect("a reset is due");
    assert!(has_items(&text));
}

#[test]
fn turns_begin_where_they_are_asked_to() {
    let (mut one, streams) = busy();
    let (filled, text) = fill(&mut one, 100, Fill::data().from(streams[2])).expect("bytes");
    assert_eq!(streams_of(&text), [streams[2], streams[1]]);
    assert_eq!(filled.last_stream, Some(streams[1]));
}

#[test]
fn one_stream_alone() {
    let (mut one, streams) = busy();
    let (filled, text) = fill(&mut one, 100, Fill::data().only(streams[2])).expect("bytes");
    assert_eq!(streams_of(&text), [streams[2]]);
    assert!(!filled.more, "no more of that stream");
    assert!(fill(&mut one, 100, Fill::data().only(streams[2])).is_none());
    assert!(
        fill(&mut one, 100, Fill::data().only(streams[0])).is_none(),
        "it was reset"
    );
    assert!(fill(&mut one, 100, Fill::data().only(streams[1])).is_some());
}

#[test]
fn one_stream_stays_alone_from_whichever_on() {
    let (mut end, streams) = busy();
    let only = Fill::data().only(streams[1]);
    assert_eq!(only.from(streams[0]), only);
    assert_eq!(Fill::data().from(streams[2]).only(streams[1]), only);
    let (filled, text) = fill(&mut end, 100, only.from(streams[2])).expect("bytes");
    assert_eq!((filled.last_stream, filled.more), (Some(streams[1]), false));
    assert_eq!(streams_of(&text), [streams[1]]);
}

#[test]
fn more_tells_what_the_room_left_out() {
    let (mut one, streams) = busy();
    let (filled, _text) = fill(&mut one, 10, Fill::all()).expect("a reset is due");
    assert!(filled.more);
    let (filled, _text) = fill(&mut one, 10, Fill::data().only(streams[1])).expect("bytes");
    assert!(filled.more);
    let (filled, _text) = fill(&mut one, MIN_FILL, Fill::data().only(streams[1])).expect("bytes");
    assert!(!filled.more, "no more of that stream");
    let (filled, _text) = fill(&mut one, 100, Fill::all()).expect("bytes");
    assert!(!filled.more);
}

fn bytes_in(text: &[u8]) -> usize {
    let len = |frame: Frame<'_>| match frame {
        Frame::Stream { bytes, .. } => bytes.len(),
        _ => 0,
    };
    frames(text)
        .map(|placed| len(placed.expect("whole").frame))
        .sum()
}

#[test]
fn a_cap_cuts_the_chunk_that_would_pass_it() {
    let (mut one, streams) = busy();
    let want = Fill::all().from(streams[1]).at_most(13);
    let (filled, text) = fill(&mut one, 100, want).expect("due");
    assert!(has_items(&text) && bytes_in(&text) == 13);
    assert_eq!(streams_of(&text), streams[1..]);
    assert!(!filled.more, "what the cap holds back isn't counted");
    let want = Fill::all().only(streams[2]).at_most(5);
    let (filled, text) = fill(&mut one, 100, want).expect("due");
    assert_eq!((bytes_in(&text), filled.more), (5, false));
    let (filled, text) = fill(&mut one, 100, Fill::all().at_most(10)).expect("due");
    assert_eq!((bytes_in(&text), filled.more), (2, false));
    assert!(fill(&mut one, 100, Fill::all()).is_none());
}

#[test]
fn more_counts_what_goes_below_the_cap() {
    let (mut one, streams) = busy();
    let want = Fill::data().only(streams[1]).at_most(9);
    let (filled, text) = fill(&mut one, 7, want).expect("due");
    assert!(filled.more && bytes_in(&text) < 9);
    let (filled, _text) = fill(&mut one, 7, Fill::all().at_most(1)).expect("the reset is due");
    assert!(filled.more, "one byte may go");
}

#[test]
fn a_cap_of_none_lets_items_and_ends_in() {
    let (mut one, streams) = busy();
    let (filled, text) = fill(&mut one, 100, Fill::all().at_most(0)).expect("the reset is due");
    assert!(has_items(&text) && streams_of(&text).is_empty() && !filled.more);
    assert!(fill(&mut one, 100, Fill::data().at_most(0)).is_none());
    assert!(fill(&mut one, 100, Fill::data().only(streams[1])).is_some());
    one.finish(streams[1]).expect("open");
    one.finish(streams[2]).expect("open");
    let (_filled, text) = fill(&mut one, 100, Fill::data().at_most(0)).expect("an end is due");
    assert_eq!((streams_of(&text), bytes_in(&text)), (vec![streams[1]], 0));
    let (_filled, text) = fill(&mut one, 100, Fill::data()).expect("bytes are due");
    assert_eq!((streams_of(&text), bytes_in(&text)), (vec![streams[2]], 10));
}

#[test]
fn the_ack_stays_due() {
    let (mut one, streams) = busy();
    let (_, mut other) = pair();
    let mut payload = [0; 1200];
    let made = one.make_packet(&mut payload).expect("open").expect("due");
    let taken = other.receive(made.number, &payload[..made.len]);
    assert_eq!(taken, Ok(Received::Done));
    assert!(other.ack_is_due());
    other.stop(streams[1], 3).expect("open");
    let (_filled, text) = fill(&mut other, 100, Fill::all()).expect("STOP_SENDING is due");
    assert!(!has_ack(&text) && other.ack_is_due());
    assert!(
        fill(&mut other, 100, Fill::all()).is_none(),
        "an ACK alone isn't filled in"
    );
    let made = other.make_ack(0, &mut payload).expect("open").expect("due");
    assert!(has_ack(&payload[..made.len]));
}

#[test]
fn tokens_are_numbers_of_their_own() {
    let (mut one, streams) = busy();
    let (first, _text) = fill(&mut one, 100, Fill::control()).expect("due");
    let (second, text) = fill(&mut one, 100, Fill::data()).expect("due");
    assert_ne!(first.token, second.token);
    one.declare_lost(second.token.number).expect("outstanding");
    let (third, again) = fill(&mut one, 100, Fill::data()).expect("due again");
    assert_eq!((again, third.last_stream), (text, Some(streams[2])));
    one.declare_lost(first.token.number).expect("outstanding");
}

#[test]
fn little_room_takes_little() {
    let (mut one, _streams) = busy();
    assert!(fill(&mut one, 0, Fill::all()).is_none());
    assert!(fill(&mut one, 2, Fill::all()).is_none());
    let (_filled, text) = fill(&mut one, 8, Fill::data()).expect("a frame fits");
    assert!(text.len() <= 8);
}

#[test]
fn a_large_room_takes_much() {
    let settings = Settings::small()
        .conn_window(1 << 20)
        .stream_windows(1 << 20)
        .send_buffer(1 << 20);
    let mut one = Endpoint::new(Role::Client, settings, settings.limits()).expect("within range");
    let mut other = Endpoint::new(Role::Server, settings, settings.limits()).expect("in range");
    let stream = one.open(Dir::Uni).expect("granted");
    let bytes: Vec<u8> = (0..60_000_u32).map(|at| (at % 251) as u8).collect();
    assert_eq!(one.write(stream, &bytes), Ok(bytes.len()));
    let (filled, text) = fill(&mut one, 65_535, Fill::all()).expect("due");
    assert!(!filled.more && text.len() > bytes.len());
    assert_eq!(other.receive(0, &text), Ok(Received::Done));
    let mut read = vec![0; bytes.len()];
    assert_eq!(other.read(stream, &mut read), Ok(Read::Bytes(bytes.len())));
    assert_eq!(read, bytes);
}

#[test]
fn a_closed_end_fills_nothing() {
    let (mut one, _streams) = busy();
    // A frame of a type that no frame has.
    one.receive(0, &[0x21]).expect_err("it closes");
    assert_eq!(
        one.fill(&mut [0; 100], &Fill::all()),
        Err(MakeFault::Closed)
    );
}
