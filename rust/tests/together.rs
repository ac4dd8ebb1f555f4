//! The frames of one packet handed over together are the payload, but for its number; and not quite the frames one by one.

use gotsavena::{
    Dir, Endpoint, Frame, Read, Received, Role, Settings, StreamId, TakeFault, Taken, frames, put,
};

const WINDOW: u64 = 100;

fn two_ends() -> [Endpoint; 2] {
    let settings = Settings::small()
        .conn_window(WINDOW)
        .stream_windows(WINDOW)
        .streams(64, 1 << 16);
    [Role::Client, Role::Server]
        .map(|role| Endpoint::new(role, settings, settings.limits()).expect("in range"))
}

// A packet of so many streams, each with two bytes and its end.
fn packet_of(client: &mut Endpoint, count: usize) -> (u64, Vec<u8>, Vec<StreamId>) {
    let open = |_| {
        let stream = client.open(Dir::Uni).expect("the peer grants as many");
        assert_eq!(client.write(stream, b"ab"), Ok(2));
        client.finish(stream).expect("it is open");
        stream
    };
    let streams = (0..count).map(open).collect();
    let mut payload = vec![0; 1200];
    let made = client.make_packet(&mut payload).expect("memory");
    let made = made.expect("bytes are due");
    payload.truncate(made.len);
    (made.number, payload, streams)
}

fn frames_of(payload: &[u8]) -> Vec<Frame<'_>> {
    let mut all = Vec::new();
    for placed in frames(payload) {
        all.push(placed.expect("a frame").frame);
    }
    all
}

// Few frames, and more than are handed over without memory.
#[test]
fn frames_together_are_their_payload() {
    for count in [1, 5, 40] {
        let [mut client, mut one] = two_ends();
        let [_, mut other] = two_ends();
        let (number, payload, streams) = packet_of(&mut client, count);
        assert_eq!(one.receive(number, &payload), Ok(Received::Done));
        let all = frames_of(&payload);
        assert!(all.len() >= count);
        assert_eq!(other.take_frames(&all), Ok(Taken::Took));
        assert_eq!(other.take_frames(&all), Ok(Taken::Unchanged));
        for stream in streams {
            assert_eq!(one.report(stream), other.report(stream));
            let mut bytes = [0; 8];
            assert_eq!(other.read(stream, &mut bytes), Ok(Read::Bytes(2)));
            assert_eq!(&bytes[..2], b"ab");
        }
        assert_eq!(one.spent(), other.spent());
        // The number alone is left to tell.
        assert!(one.ack_is_due() && !other.ack_is_due());
    }
}

#[test]
fn limits_move_once() {
    let stream = |number| StreamId::new(number).expect("it is below 2^62");
    let [_, mut together] = two_ends();
    let [_, mut one_by_one] = two_ends();
    let begin = [
        Frame::Stream {
            stream: stream(2),
            offset: 0,
            fin: false,
            bytes: b"",
        },
        Frame::Stream {
            stream: stream(6),
            offset: 0,
            fin: false,
            bytes: b"",
        },
    ];
    let resets = [
        Frame::ResetStream {
            stream: stream(2),
            code: 0,
            final_size: 50,
        },
        Frame::ResetStream {
            stream: stream(6),
            code: 0,
            final_size: 10,
        },
    ];
    for end in [&mut together, &mut one_by_one] {
        assert_eq!(end.take_frames(&begin), Ok(Taken::Took));
    }
    assert_eq!(together.take_frames(&resets), Ok(Taken::Took));
    for reset in &resets {
        assert_eq!(one_by_one.take_frame(reset), Ok(Taken::Took));
    }
    // 60 bytes at once move the limit by 60; 50 move it by 50, and 10 more are less than half of the window.
    assert_eq!(
        (together.granted(), one_by_one.granted()),
        (WINDOW + 60, WINDOW + 50)
    );
}

#[test]
fn a_fault_stops_them() {
    let stream = StreamId::new(2).expect("it is below 2^62");
    let [_, mut server] = two_ends();
    let taken = Frame::Stream {
        stream,
        offset: 0,
        fin: true,
        bytes: b"ab",
    };
    let refused = Frame::Stream {
        stream,
        offset: 2,
        fin: false,
        bytes: b"c",
    };
    let never = Frame::MaxData { maximum: 1 << 20 };
    let fault = server.take_frames(&[Frame::Ping, taken, refused, never]);
    let Err(TakeFault::Closing(closing)) = fault else {
        panic!("FINAL_SIZE_ERROR, not {fault:?}");
    };
    assert_eq!((closing.code, closing.place), (0x06, 0));
    assert_eq!(server.stored(), 2);
    let mut payload = [0; 8];
    assert!(put(&Frame::Ping, &mut payload).is_ok());
    assert_eq!(
        server.take_frames(&[Frame::Ping]),
        Err(TakeFault::Closing(closing))
    );
    assert_eq!(
        two_ends()[1].take_frames(&[Frame::Ping]),
        Ok(Taken::NotOurs)
    );
    assert_eq!(two_ends()[1].take_frames(&[]), Ok(Taken::NotOurs));
}
