//! A close that the endpoint didn't see itself is noted there.

use gotsavena::{
    CloseKind, Closer, Dir, Endpoint, Fill, Frame, MakeFault, NotedClose, OpenFault, Read,
    ReceiveFault, Received, Role, Settings, TakeFault, Tuning, UseFault,
};

fn end() -> Endpoint {
    let settings = Settings::small();
    Endpoint::new(Role::Client, settings, settings.limits()).expect("within range")
}

const BY_PEER: NotedClose = NotedClose::new(Closer::Peer, CloseKind::Application, 0x100);

const BY_US: NotedClose = NotedClose::new(Closer::Us, CloseKind::Transport, u64::MAX);

#[test]
fn the_end_is_closed() {
    let mut one = end();
    let stream = one.open(Dir::Uni).expect("granted");
    one.write(stream, b"abc").expect("room");
    one.note_closed(BY_PEER);
    assert_eq!(one.noted_close(), Some(BY_PEER));
    assert_eq!((one.peer_closed(), one.closing()), (None, None));
    assert_eq!(one.close_payload(&mut [0; 128]), None);
    assert!(!one.is_sendable());
    assert_eq!(one.open(Dir::Uni), Err(OpenFault::Closed));
    assert_eq!(one.write(stream, b"d"), Err(UseFault::Closed));
    let filled = one.fill(&mut [0; 100], &Fill::all());
    assert_eq!(filled, Err(MakeFault::Closed));
}

#[test]
fn it_says_so_again() {
    let mut one = end();
    one.note_closed(BY_PEER);
    assert_eq!(one.receive(0, &[1]), Ok(Received::PeerClosed(0x100)));
    let taken = one.take_frame(&Frame::Ping);
    assert_eq!(taken, Err(TakeFault::PeerClosed(0x100)));
    let mut other = end();
    other.note_closed(BY_US);
    let Err(ReceiveFault::Closing(closing)) = other.receive(0, &[1]) else {
        panic!("this side closed");
    };
    assert_eq!(
        (closing.code, closing.frame_type, closing.place),
        (u64::MAX, 0, 0)
    );
    let taken = other.take_frame(&Frame::Ping);
    assert_eq!(taken, Err(TakeFault::Closing(closing)));
}

#[test]
fn one_that_closed_stays() {
    let mut one = end();
    one.note_closed(BY_US);
    one.note_closed(BY_PEER);
    assert_eq!(one.noted_close(), Some(BY_US));
    let mut other = end();
    let closed = other.receive(0, &[0x1c, 5, 0, 0]);
    assert_eq!(closed, Ok(Received::PeerClosed(5)));
    other.note_closed(BY_US);
    assert_eq!((other.noted_close(), other.peer_closed()), (None, Some(5)));
}

#[test]
fn what_came_in_is_read_on_by_choice() {
    let settings = Settings::small();
    let tuning = Tuning::default().reads_when_closed(true);
    let limits = settings.limits();
    let mut one = Endpoint::with_tuning(Role::Server, settings, tuning, limits).expect("in range");
    // STREAM of stream 2, with its end.
    let taken = one.receive(0, &[0x0b, 2, 2, b'h', b'i']);
    assert_eq!(taken, Ok(Received::Done));
    let stream = one.accept().expect("it came");
    one.note_closed(BY_PEER);
    let mut read = [0; 8];
    assert_eq!(one.read(stream, &mut read), Ok(Read::Bytes(2)));
}

/// By a fault of the peer's, by its close, or by one that was noted (RFC 9000, section 10.2).
#[test]
fn each_close_closes() {
    let mut faulty = end();
    assert!(!faulty.is_closed());
    assert!(faulty.receive(0, &[0x1f]).is_err());
    let mut closed = end();
    assert_eq!(
        closed.receive(0, &[0x1c, 5, 0, 0]),
        Ok(Received::PeerClosed(5))
    );
    let mut noted = end();
    noted.note_closed(BY_US);
    for end in [faulty, closed, noted] {
        assert!(end.is_closed());
    }
}
