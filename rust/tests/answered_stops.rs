//! A STOP_SENDING that the application answers, one that resets the stream at once, and one that arrives too late for either.

use gotsavena::{
    Dir, Endpoint, Event, Read, Received, RecvState, Role, SendState, Settings, StreamId, Tuning,
};

/// A client that answers stops or doesn't, and a server, with one stream of the client's that carried three bytes.
fn begun(answers: bool) -> ([Endpoint; 2], StreamId) {
    let settings = Settings::small().streams(4, 8);
    let tuning = Tuning::default().answers_stops(answers);
    let mut ends = [Role::Client, Role::Server].map(|role| {
        Endpoint::with_tuning(role, settings, tuning, settings.limits()).expect("in range")
    });
    let stream = ends[0].open(Dir::Uni).expect("granted");
    assert_eq!(ends[0].write(stream, b"abc"), Ok(3));
    settle(&mut ends);
    (ends, stream)
}

/// Packets go to and fro until none is due.
fn settle(ends: &mut [Endpoint; 2]) {
    let mut payload = [0; 1200];
    for from in [0, 1, 0, 1, 0, 1] {
        if let Some(made) = ends[from].make_packet(&mut payload).expect("open") {
            let taken = ends[1 - from].receive(made.number, &payload[..made.len]);
            assert_eq!(taken, Ok(Received::Done));
        }
    }
}

fn sending(end: &Endpoint, stream: StreamId) -> (SendState, Option<u64>) {
    let send = end.report(stream).and_then(|report| report.send);
    let send = send.expect("open");
    (send.state, send.reset_code)
}

fn news(end: &mut Endpoint) -> Vec<Event> {
    std::iter::from_fn(|| end.next_event().expect("there is memory")).collect()
}

#[test]
fn the_owner_answers_with_a_code_of_its_own() {
    let (mut ends, stream) = begun(true);
    ends[1].stop(stream, 7).expect("open");
    settle(&mut ends);
    assert_eq!(news(&mut ends[0]), [Event::Stopped(stream, 7)]);
    assert_eq!(sending(&ends[0], stream), (SendState::Send, None));
    assert_eq!(ends[0].write(stream, b"de"), Ok(2));
    ends[0].reset(stream, 9).expect("open");
    settle(&mut ends);
    assert_eq!(sending(&ends[0], stream), (SendState::ResetRecvd, Some(9)));
    assert_eq!(ends[1].read(stream, &mut [0; 8]), Ok(Read::Reset(9)));
}

#[test]
fn the_owner_may_finish_all_the_same() {
    let (mut ends, stream) = begun(true);
    ends[1].stop(stream, 7).expect("open");
    settle(&mut ends);
    ends[0].finish(stream).expect("open");
    settle(&mut ends);
    assert_eq!(ends[0].stopped_with(stream), Some(7));
    assert_eq!(sending(&ends[0], stream), (SendState::DataRecvd, None));
    assert_eq!(ends[1].read(stream, &mut [0; 8]), Ok(Read::End));
}

#[test]
fn by_default_the_stream_is_reset_at_once() {
    let (mut ends, stream) = begun(false);
    ends[1].stop(stream, 7).expect("open");
    settle(&mut ends);
    assert_eq!(ends[0].stopped_with(stream), Some(7));
    assert_eq!(sending(&ends[0], stream), (SendState::ResetRecvd, Some(7)));
    assert_eq!(ends[1].read(stream, &mut [0; 8]), Ok(Read::Reset(7)));
}

#[test]
fn what_is_over_is_not_stopped() {
    for answers in [false, true] {
        let (mut ends, stream) = begun(answers);
        ends[0].reset(stream, 9).expect("open");
        // The stop and the reset cross: the stop comes after the reset was made.
        ends[1].stop(stream, 7).expect("open");
        settle(&mut ends);
        assert_eq!(ends[0].stopped_with(stream), None);
        let told = news(&mut ends[0]);
        assert!(!told.contains(&Event::Stopped(stream, 7)), "{told:?}");
        // A reset that was told ends the reading: a stop behind it notes nothing.
        let (mut ends, stream) = begun(answers);
        ends[0].finish(stream).expect("open");
        settle(&mut ends);
        assert_eq!(ends[1].read(stream, &mut [0; 8]), Ok(Read::Bytes(3)));
        assert_eq!(ends[1].read(stream, &mut [0; 8]), Ok(Read::End));
        ends[1].stop(stream, 7).expect("open");
        settle(&mut ends);
        let recv = ends[1].report(stream).and_then(|report| report.recv);
        let recv = recv.expect("open");
        assert_eq!(recv.state, RecvState::DataRead);
        assert_eq!(recv.stop_code, None);
    }
}
