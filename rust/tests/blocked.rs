//! What the peer says to hold it back, DATA_BLOCKED, STREAM_DATA_BLOCKED and STREAMS_BLOCKED, is told once for each time that it says it of
//! a limit of the present; of a limit that rose it isn't (RFC 9000, sections 4.1, 4.6 and 19.12 to 19.14).

#[path = "support/refusing.rs"]
mod refusing;
mod support;

use gotsavena::{
    CloseKind, Closer, Dir, Endpoint, Event, EventFault, Frame, NotedClose, OpenFault, Received,
    Settings, StreamId, TakeFault, Taken, frames,
};
use refusing::refused;
use support::two_ends;

const STREAM: u64 = 0;

fn stream() -> StreamId {
    StreamId::new(STREAM).expect("a stream's number")
}

fn settings() -> Settings {
    Settings::small()
        .conn_window(1000)
        .stream_windows(400)
        .streams(1, 8)
}

fn news(end: &mut Endpoint) -> Vec<Event> {
    std::iter::from_fn(|| end.next_event().expect("there is memory")).collect()
}

/// The three kinds, with these limits.
fn said(conn: u64, of_stream: u64, count: u64) -> [Frame<'static>; 3] {
    let (stream, dir) = (stream(), Dir::Bidi);
    [
        Frame::StreamsBlocked { dir, count },
        Frame::DataBlocked { limit: conn },
        Frame::StreamDataBlocked {
            stream,
            limit: of_stream,
        },
    ]
}

/// All three, in the order in which they are told.
fn all_three() -> [Event; 3] {
    [
        Event::DataBlocked,
        Event::StreamDataBlocked(stream()),
        Event::StreamsBlocked(Dir::Bidi),
    ]
}

/// A server that was asked for events, and whose peer opened a stream.
fn asked() -> Endpoint {
    let [_, mut end] = two_ends(settings());
    let limit = 0;
    let opens = Frame::StreamDataBlocked {
        stream: stream(),
        limit,
    };
    assert_eq!(end.take_frame(&opens), Ok(Taken::Took));
    assert_eq!(news(&mut end), [Event::Opened(stream())]);
    end
}

#[test]
fn each_is_told_once() {
    let mut end = asked();
    for frame in said(1000, 400, 1) {
        assert_eq!(end.take_frame(&frame), Ok(Taken::Unchanged));
        assert_eq!(end.take_frame(&frame), Ok(Taken::Unchanged));
    }
    assert_eq!(news(&mut end), all_three());
    assert_eq!(news(&mut end), []);
    // The peer says so again, all in one packet.
    assert_eq!(end.take_frames(&said(1000, 400, 1)), Ok(Taken::Unchanged));
    assert_eq!(news(&mut end), all_three());
    // A greater limit than was granted holds no peer back that tells the truth.
    assert_eq!(end.take_frames(&said(1001, 401, 2)), Ok(Taken::Unchanged));
    assert_eq!(news(&mut end), all_three());
}

#[test]
fn of_a_limit_that_rose_nothing_is_told() {
    let mut end = asked();
    assert_eq!(end.take_frames(&said(999, 399, 0)), Ok(Taken::Unchanged));
    assert_eq!(news(&mut end), []);
    end.set_conn_window(2000).expect("in range");
    end.set_stream_window(stream(), 800).expect("in range");
    end.set_grant(Dir::Bidi, 3).expect("in range");
    assert_eq!(end.take_frames(&said(1000, 400, 1)), Ok(Taken::Unchanged));
    assert_eq!(news(&mut end), []);
    // The limits that stand now are met in turn.
    assert_eq!(end.take_frames(&said(2000, 800, 3)), Ok(Taken::Unchanged));
    assert_eq!(news(&mut end), all_three());
    assert_eq!(news(&mut end), []);
}

#[test]
fn what_was_noted_is_told_though_the_limit_rose() {
    let mut end = asked();
    assert_eq!(end.take_frames(&said(1000, 400, 1)), Ok(Taken::Unchanged));
    end.set_conn_window(2000).expect("in range");
    assert_eq!(news(&mut end), all_three());
}

/// The frame that ends the stream at its first limit.
fn ends() -> Frame<'static> {
    Frame::Stream {
        stream: stream(),
        offset: 400,
        fin: true,
        bytes: &[],
    }
}

#[test]
fn a_stream_that_was_noted_is_told_though_its_limit_rose_or_its_length_is_known() {
    let of_stream = all_three()[1];
    for is_wider in [true, false] {
        let mut end = asked();
        let blocked = stands(STREAM).1;
        assert_eq!(end.take_frame(&blocked), Ok(Taken::Unchanged));
        if is_wider {
            end.set_stream_window(stream(), 5000).expect("in range");
        } else {
            assert_eq!(end.take_frame(&ends()), Ok(Taken::Took));
        }
        assert!(news(&mut end).contains(&of_stream));
        // The frame comes again, when the limit isn't 400 any more, or no limit matters.
        assert_eq!(end.take_frame(&blocked), Ok(Taken::Unchanged));
        assert!(!news(&mut end).contains(&of_stream));
    }
}

#[test]
fn a_mark_without_memory_is_left_out_once_the_length_is_known() {
    // The last allocation that the frame asks for is that of the mark.
    let is_asked = |which: &u64| {
        let mut end = asked();
        refused(*which, || end.take_frame(&stands(STREAM).1)).1
    };
    let last = (0..).take_while(is_asked).count() as u64 - 1;
    for is_known in [false, true] {
        let mut end = asked();
        let (taken, _) = refused(last, || end.take_frame(&stands(STREAM).1));
        assert_eq!(taken, Ok(Taken::Unchanged));
        if is_known {
            assert_eq!(end.take_frame(&ends()), Ok(Taken::Took));
        }
        assert_eq!(news(&mut end).contains(&all_three()[1]), !is_known);
    }
}

#[test]
fn each_stands_for_itself() {
    let mut end = asked();
    for (frame, event) in said(1000, 400, 1).iter().zip([2, 0, 1]) {
        assert_eq!(end.take_frame(frame), Ok(Taken::Unchanged));
        assert_eq!(news(&mut end), [all_three()[event]]);
    }
    let dir = Dir::Uni;
    let (count, other) = (1, StreamId::new(2).expect("a stream's number"));
    let uni = Frame::StreamsBlocked { dir, count };
    assert_eq!(end.take_frame(&uni), Ok(Taken::Unchanged));
    assert_eq!(news(&mut end), [Event::StreamsBlocked(Dir::Uni)]);
    // A stream that opens so stands at its first limit, and its final size ends that.
    let limit = 400;
    let stands = Frame::StreamDataBlocked {
        stream: other,
        limit,
    };
    assert_eq!(end.take_frame(&stands), Ok(Taken::Took));
    let told = [Event::Opened(other), Event::StreamDataBlocked(other)];
    assert_eq!(news(&mut end), told);
    let ends = Frame::Stream {
        stream: other,
        offset: 400,
        fin: true,
        bytes: &[],
    };
    assert_eq!(end.take_frame(&ends), Ok(Taken::Took));
    assert_eq!(end.take_frame(&stands), Ok(Taken::Unchanged));
    assert_eq!(news(&mut end), []);
}

#[test]
fn a_closed_end_tells_none() {
    let mut end = asked();
    assert_eq!(end.take_frames(&said(1000, 400, 1)), Ok(Taken::Unchanged));
    end.note_closed(NotedClose::new(Closer::Peer, CloseKind::Application, 7));
    assert_eq!(news(&mut end), []);
}

#[test]
fn who_asks_for_no_event_hears_of_none() {
    let [_, mut end] = two_ends(settings());
    assert_eq!(end.take_frames(&said(1000, 400, 1)), Ok(Taken::Took));
    assert_eq!(news(&mut end), [Event::Opened(stream())]);
    // It may choose to before it asks.
    let [_, mut end] = two_ends(settings());
    end.report_blocked(true);
    assert_eq!(end.take_frames(&said(1000, 400, 1)), Ok(Taken::Took));
    assert_eq!(news(&mut end)[1..], all_three());
}

/// A client that stalls at the count, at a stream's limit, and then at the connection's. Its packets are handed on.
fn stalled(server: &mut Endpoint, to: impl Fn(&mut Endpoint, u64, &[u8])) {
    let [mut client, _] = two_ends(narrow());
    let other = client.open(Dir::Uni).expect("granted");
    assert_eq!(client.open(Dir::Bidi), Ok(stream()));
    assert_eq!(client.open(Dir::Bidi), Err(OpenFault::Blocked(1)));
    assert_eq!(client.write(stream(), &[1; 500]), Ok(500));
    assert_eq!(client.write(other, &[1; 400]), Ok(400));
    let mut payload = [0; 1200];
    while let Some(made) = client.make_packet(&mut payload).expect("open") {
        to(server, made.number, &payload[..made.len]);
    }
}

fn narrow() -> Settings {
    settings().conn_window(600)
}

#[test]
fn payloads_are_looked_through_where_that_is_chosen() {
    let take = |server: &mut Endpoint, number: u64, payload: &[u8]| {
        assert_eq!(server.receive(number, payload), Ok(Received::Done));
        assert_eq!(server.receive(number, payload), Ok(Received::Duplicate));
    };
    let of_streams = [stream(), StreamId::new(2).expect("a stream's number")];
    let came = of_streams.map(Event::Opened).into_iter();
    let came: Vec<_> = came.chain(of_streams.map(Event::Readable)).collect();
    for is_chosen in [false, true] {
        let [_, mut server] = two_ends(narrow());
        server.report_blocked(is_chosen);
        assert_eq!(news(&mut server), []);
        stalled(&mut server, take);
        let told = if is_chosen { &all_three()[..] } else { &[] };
        assert_eq!(news(&mut server), [&came[..], told].concat());
    }
    // The same by the frames of each packet.
    let [_, mut server] = two_ends(narrow());
    assert_eq!(news(&mut server), []);
    stalled(&mut server, |server, _, payload| {
        let read: Result<Vec<_>, _> = frames(payload)
            .map(|placed| placed.map(|placed| placed.frame))
            .collect();
        assert!(server.take_frames(&read.expect("frames")).is_ok());
    });
    assert_eq!(news(&mut server), [&came[..], &all_three()].concat());
}

/// STREAM_DATA_BLOCKED of a stream with limit 400, on the wire and as a frame.
fn stands(stream: u64) -> ([u8; 4], Frame<'static>) {
    let limit = 400;
    let text = [0x15, u8::try_from(stream).expect("small"), 0x41, 0x90];
    let stream = StreamId::new(stream).expect("a stream's number");
    (text, Frame::StreamDataBlocked { stream, limit })
}

#[test]
fn a_frame_whose_note_finds_no_memory_comes_again() {
    let mut refusals = 0;
    for which in 0.. {
        let mut end = asked();
        let frame = stands(STREAM).1;
        let (taken, was_refused) = refused(which, || end.take_frame(&frame));
        if taken == Err(TakeFault::NoMemory) {
            refusals += 1;
            assert_eq!(news(&mut end), []);
            assert_eq!(end.take_frame(&frame), Ok(Taken::Unchanged));
        } else {
            assert_eq!(taken, Ok(Taken::Unchanged));
        }
        assert_eq!(news(&mut end), [all_three()[1]]);
        if !was_refused {
            break;
        }
    }
    assert!(refusals > 0, "a note takes memory");
}

#[test]
fn a_frame_without_memory_changes_nothing() {
    // The stream isn't open yet: the frame would open it.
    let (frame, mut refusals) = (stands(2).1, 0);
    let opened = StreamId::new(2).expect("a stream's number");
    for which in 0.. {
        let mut end = asked();
        let (taken, was_refused) = refused(which, || end.take_frame(&frame));
        if taken == Err(TakeFault::NoMemory) {
            refusals += 1;
            assert_eq!(end.report(opened), None);
            assert_eq!(news(&mut end), []);
            assert_eq!(end.take_frame(&frame), Ok(Taken::Took));
        } else {
            assert_eq!(taken, Ok(Taken::Took));
        }
        let told = [Event::Opened(opened), Event::StreamDataBlocked(opened)];
        assert_eq!(news(&mut end), told);
        if !was_refused {
            break;
        }
    }
    assert!(refusals > 1, "{refusals} allocations were refused");
}

/// A server that looks payloads through, and whose peer may open two streams.
fn looking() -> Endpoint {
    let [_, mut end] = two_ends(settings().streams(2, 8));
    end.report_blocked(true);
    end
}

#[test]
fn a_payload_without_memory_changes_nothing() {
    let (mut refusals, payload) = (0, stands(STREAM).0);
    for which in 0.. {
        let mut end = looking();
        let (taken, was_refused) = refused(which, || end.receive(7, &payload));
        if taken == Ok(Received::NoMemory) {
            refusals += 1;
            // As if the packet were lost: its number isn't acknowledged.
            assert!(!end.ack_is_due() && end.report(stream()).is_none());
            assert_eq!(end.receive(7, &payload), Ok(Received::Done));
        } else {
            assert_eq!(taken, Ok(Received::Done));
        }
        assert!(end.ack_is_due());
        assert_eq!(end.receive(7, &payload), Ok(Received::Duplicate));
        let told = [Event::Opened(stream()), all_three()[1]];
        assert_eq!(news(&mut end), told);
        if !was_refused {
            break;
        }
    }
    assert!(refusals > 2, "{refusals} allocations were refused");
}

/// What two payloads say of two streams where an allocation of each is refused; `None` where the call has no such allocation.
fn of_two(each: [u64; 2]) -> Option<usize> {
    let (mut end, payloads, mut refusals) = (looking(), [stands(0).0, stands(4).0], 0);
    let mut again = Vec::new();
    for (number, payload) in payloads.iter().enumerate() {
        let (taken, was_refused) = refused(each[number], || end.receive(number as u64, payload));
        if !was_refused {
            return None;
        }
        if taken == Ok(Received::NoMemory) {
            refusals += 1;
            again.push(number);
        }
    }
    for number in again {
        let taken = end.receive(number as u64, &payloads[number]);
        assert_eq!(taken, Ok(Received::Done), "{number} of {each:?}");
    }
    let streams = [0, 4].map(|number| StreamId::new(number).expect("a stream's number"));
    let told = news(&mut end);
    assert_eq!(told[..2], streams.map(Event::Opened), "{each:?}");
    let said = streams.map(Event::StreamDataBlocked);
    assert_eq!(told[2..], said, "{each:?}");
    Some(refusals)
}

#[test]
fn no_payload_of_two_loses_its_news() {
    let mut refusals = 0;
    for first in 0.. {
        let row: Vec<_> = (0..).map_while(|second| of_two([first, second])).collect();
        if row.is_empty() {
            break;
        }
        refusals += row.iter().sum::<usize>();
    }
    assert!(refusals > 4, "{refusals} refusals");
}

#[test]
fn what_was_said_waits_for_its_note() {
    // The last allocation that the payload asks for is that of the mark.
    let (mut end, payload) = (looking(), stands(STREAM).0);
    let count = (0..).take_while(|which| refused(*which, || looking().receive(1, &payload)).1);
    let last = count.count() as u64 - 1;
    let (taken, _) = refused(last, || end.receive(1, &payload));
    assert_eq!(taken, Ok(Received::Done));
    // Its memory is refused once more: to the next event, and to the next payload that says so.
    let (event, _) = refused(0, || end.next_event());
    assert_eq!(event, Err(EventFault::NoMemory));
    let (taken, _) = refused(0, || end.receive(2, &stands(4).0));
    assert_eq!(taken, Ok(Received::NoMemory));
    assert_eq!(news(&mut end), [Event::Opened(stream()), all_three()[1]]);
}

#[test]
fn a_closed_end_says_so_without_memory() {
    let mut end = looking();
    let closed = NotedClose::new(Closer::Peer, CloseKind::Transport, 5);
    end.note_closed(closed);
    let (text, frame) = stands(STREAM);
    let (taken, was_asked) = refused(0, || end.receive(1, &text));
    assert_eq!((taken, was_asked), (Ok(Received::PeerClosed(5)), false));
    for frames in [vec![frame; 3], vec![frame; 17], vec![Frame::Ping; 17]] {
        let (taken, was_asked) = refused(0, || end.take_frames(&frames));
        assert_eq!((taken, was_asked), (Err(TakeFault::PeerClosed(5)), false));
    }
}

#[test]
fn frames_of_others_want_no_memory() {
    let [_, mut end] = two_ends(settings());
    let (taken, was_asked) = refused(0, || end.take_frames(&[Frame::Ping; 100]));
    assert_eq!((taken, was_asked), (Ok(Taken::NotOurs), false));
}
