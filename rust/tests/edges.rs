//! What calls do at their edges, as their documentation says it: each of these was a question to whoever read that alone.

mod support;

use gotsavena::{
    Dir, Endpoint, Event, Fill, Frame, OpenFault, PeerLimits, Read, Received, Role, Settings,
    StreamId, Taken, Token, TokenFault, Tuning,
};
use support::two_ends;

fn stream(number: u64) -> StreamId {
    StreamId::new(number).expect("a stream's number")
}

fn news(end: &mut Endpoint) -> Vec<Event> {
    std::iter::from_fn(|| end.next_event().expect("there is memory")).collect()
}

fn bytes_at(stream: StreamId, offset: u64, fin: bool) -> Frame<'static> {
    let bytes = b"x";
    Frame::Stream {
        stream,
        offset,
        fin,
        bytes,
    }
}

#[test]
fn a_stop_of_what_is_over_is_no_news() {
    let [mut end, _] = two_ends(Settings::small());
    let own = end.open(Dir::Uni).expect("granted");
    end.reset(own, 3).expect("open");
    let stop = Frame::StopSending {
        stream: own,
        code: 9,
    };
    assert_eq!(end.take_frame(&stop), Ok(Taken::Unchanged));
    assert_eq!((end.stopped_with(own), news(&mut end)), (None, vec![]));
}

#[test]
fn next_writable_asks_the_streams_own_buffer() {
    let settings = Settings::small();
    let tuning = Tuning::default().send_window(Some(1));
    let mut end = Endpoint::with_tuning(Role::Client, settings, tuning, settings.limits())
        .expect("within range");
    let [one, other] = [(); 2].map(|()| end.open(Dir::Bidi).expect("granted"));
    assert_eq!(end.write(one, b"a"), Ok(1));
    assert_eq!(end.next_writable(other), Some(other));
    assert_eq!((end.room(other), end.write(other, b"b")), (0, Ok(0)));
}

#[test]
fn what_a_stop_takes_has_its_gaps() {
    let [_, mut end] = two_ends(Settings::small());
    let peers = stream(2);
    assert_eq!(
        end.take_frame(&bytes_at(peers, 100, false)),
        Ok(Taken::Took)
    );
    assert_eq!(end.taken(peers), Some(0));
    end.stop(peers, 0).expect("open");
    assert_eq!(end.taken(peers), Some(101));
}

#[test]
fn one_readable_stands_for_bytes_and_for_the_end() {
    let [_, mut end] = two_ends(Settings::small());
    let peers = stream(2);
    assert_eq!(end.take_frame(&bytes_at(peers, 0, false)), Ok(Taken::Took));
    let told = [Event::Opened(peers), Event::Readable(peers)];
    assert_eq!(news(&mut end), told);
    assert_eq!(end.take_frame(&bytes_at(peers, 1, true)), Ok(Taken::Took));
    assert_eq!(news(&mut end), []);
    let whole = end.consume(peers, 9).expect("open");
    assert_eq!((whole.read, whole.at_end), (Read::Bytes(2), true));
    let end_again = end.consume(peers, 9).expect("open");
    assert_eq!((end_again.read, end_again.at_end), (Read::End, true));
}

#[test]
fn limits_that_are_raised_bring_news() {
    let settings = Settings::small();
    let mut end = Endpoint::new(Role::Client, settings, PeerLimits::default()).expect("in range");
    assert_eq!(end.open(Dir::Uni), Err(OpenFault::Blocked(0)));
    assert_eq!(news(&mut end), []);
    end.raise_limits(settings.limits()).expect("in range");
    assert_eq!(news(&mut end), [Event::Available(Dir::Uni)]);
}

#[test]
fn a_fill_is_a_payload() {
    let [mut client, mut server] = two_ends(Settings::small());
    let own = client.open(Dir::Uni).expect("granted");
    client.write(own, b"abc").expect("open");
    let mut out = [0; 100];
    // A cap holds a fill back, however much room there is.
    let capped = client.fill(&mut out, &Fill::all().at_most(0));
    assert_eq!(capped, Ok(None));
    let filled = client
        .fill(&mut out, &Fill::all())
        .expect("open")
        .expect("due");
    let token = filled.token;
    let received = server.receive(token.number, &out[..filled.len]);
    assert_eq!(received, Ok(Received::Done));
    assert_eq!(server.stored(), 3);
    let first = token.number + 1;
    let wrong = Token { first, ..token };
    assert_eq!(client.acked(wrong), Err(TokenFault::NotGiven));
    // An acknowledgement that comes after a reset counts still.
    client.reset(own, 5).expect("open");
    assert_eq!(client.acked_below(own), Some(0));
    client.acked(token).expect("given");
    assert_eq!(client.acked_below(own), Some(3));
}

#[test]
fn no_frame_is_nobodys() {
    let [mut end, _] = two_ends(Settings::small());
    assert_eq!(end.take_frames(&[]), Ok(Taken::NotOurs));
    assert_eq!(end.take_frames(&[Frame::Ping]), Ok(Taken::NotOurs));
}
