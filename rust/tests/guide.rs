//! What docs/GUIDE.md says of errors, of a close and of transport parameters, and docs/EMBEDDING.md of blocked frames.

#[path = "../examples/parameters.rs"]
mod parameters;
mod support;

use gotsavena::{
    Dir, Endpoint, Event, Frame, LostFault, MakeFault, OpenFault, ReceiveFault, Received, Role,
    Settings, StreamId, Taken, UseFault,
};
use support::two_ends;

/// All that is pending goes to the other end.
fn carry(from: &mut Endpoint, to: &mut Endpoint) {
    let mut payload = [0; 1200];
    while let Some(made) = from.make_packet(&mut payload).expect("memory") {
        let received = to.receive(made.number, &payload[..made.len]);
        assert_eq!(received, Ok(Received::Done));
    }
}

fn settle(one: &mut Endpoint, other: &mut Endpoint) {
    for _ in 0..4 {
        carry(one, other);
        carry(other, one);
    }
}

#[test]
fn each_error_of_a_stream() {
    let [mut client, mut server] = two_ends(Settings::default());
    let never = StreamId::new(400).expect("below 2^62");
    assert_eq!(client.write(never, b"x"), Err(UseFault::NoSuchStream));
    let own = client.open(Dir::Uni).expect("granted");
    assert_eq!(client.read(own, &mut [0]), Err(UseFault::WrongDirection));
    client.finish(own).expect("it is open");
    assert_eq!(client.write(own, b""), Err(UseFault::Finished));
    let reset = client.open(Dir::Uni).expect("granted");
    client.reset(reset, 7).expect("it is open");
    assert_eq!(client.write(reset, b""), Err(UseFault::WasReset));
    let stopped = client.open(Dir::Uni).expect("granted");
    assert_eq!(client.write(stopped, b"x"), Ok(1));
    settle(&mut client, &mut server);
    server.stop(stopped, 9).expect("it is open");
    settle(&mut client, &mut server);
    assert_eq!(client.write(stopped, b""), Err(UseFault::WasReset));
    assert_eq!(client.stopped_with(stopped), Some(9));
    assert_eq!(client.reset(never, 1 << 62), Err(UseFault::Invalid));
    // The connection goes on.
    let next = client.open(Dir::Uni).expect("granted");
    assert_eq!(client.write(next, b"x"), Ok(1));
}

#[test]
fn what_was_never_outstanding_is_no_loss() {
    let [mut client, mut server] = two_ends(Settings::default());
    let mut payload = [0; 1200];
    assert_eq!(client.declare_lost(0), Err(LostFault::NotOutstanding));
    let stream = client.open(Dir::Uni).expect("granted");
    assert_eq!(client.write(stream, b"x"), Ok(1));
    let made = client.make_packet(&mut payload).expect("memory");
    let made = made.expect("a byte is pending");
    let received = server.receive(made.number, &payload[..made.len]);
    assert_eq!(received, Ok(Received::Done));
    let ack = server.make_packet(&mut payload).expect("memory");
    let ack = ack.expect("an ACK is due");
    assert_eq!(
        server.declare_lost(ack.number),
        Err(LostFault::NotOutstanding)
    );
    let acked = client.receive(ack.number, &payload[..ack.len]);
    assert_eq!(acked, Ok(Received::Done));
    assert_eq!(
        client.declare_lost(made.number),
        Err(LostFault::NotOutstanding)
    );
    assert_eq!(client.write(stream, b"x"), Ok(1));
    let made = client.make_packet(&mut payload).expect("memory");
    let lost = made.expect("a byte is pending").number;
    assert_eq!(client.declare_lost(lost), Ok(()));
    assert_eq!(client.declare_lost(lost), Err(LostFault::NotOutstanding));
}

#[test]
fn after_a_close() {
    let [mut client, mut server] = two_ends(Settings::default());
    let stream = client.open(Dir::Uni).expect("granted");
    assert_eq!(client.write(stream, b"x"), Ok(1));
    carry(&mut client, &mut server);
    // No frame has the type 0x1f.
    let Err(ReceiveFault::Closing(why)) = server.receive(100, &[0x1f]) else {
        panic!("it breaks a rule");
    };
    let mut payload = [0; 1200];
    assert_eq!(server.read(stream, &mut [0]), Err(UseFault::Closed));
    assert_eq!(server.open(Dir::Uni), Err(OpenFault::Closed));
    assert_eq!(
        server.make_packet(&mut payload).err(),
        Some(MakeFault::Closed)
    );
    // What happened before is told still, and a number is left for the packet with the close.
    assert_eq!(server.next_event(), Ok(Some(Event::Opened(stream))));
    assert!(server.report(stream).is_some());
    let number = server.claim_number().expect("numbers are left");
    let len = server.close_payload(&mut payload).expect("it closed");
    let received = client.receive(number, &payload[..len]);
    assert_eq!(received, Ok(Received::PeerClosed(why.code)));
}

#[test]
fn blocked_frames_change_nothing_but_what_is_open() {
    let [_, mut server] = two_ends(Settings::default());
    let [first, high] = [0, 396].map(|n| StreamId::new(n).expect("below 2^62"));
    let blocked = |stream| Frame::StreamDataBlocked { stream, limit: 0 };
    assert_eq!(server.take_frame(&blocked(high)), Ok(Taken::Took));
    let opened = std::iter::from_fn(|| server.accept()).count();
    assert_eq!(opened, 100);
    for frame in [
        blocked(high),
        blocked(first),
        Frame::DataBlocked { limit: 0 },
        Frame::StreamsBlocked {
            dir: Dir::Bidi,
            count: 100,
        },
    ] {
        assert_eq!(server.take_frame(&frame), Ok(Taken::Unchanged));
    }
}

#[test]
fn limits_go_as_transport_parameters() {
    let settings = Settings::default()
        .conn_window(1 << 40)
        .bidi_local_window(1)
        .bidi_remote_window(1 << 14)
        .uni_window(1 << 30)
        .bidi_streams(63, 64)
        .uni_streams(0, 0);
    let limits = settings.limits();
    let sent = parameters::written(&limits);
    assert_eq!(parameters::read(&sent), Some(limits));
    // By hand, from sections 16 and 18: an identifier, a length, a value, which takes four bytes from 2^14 on and eight from 2^30 on.
    let spelled = [
        0x04, 8, 0xc0, 0, 1, 0, 0, 0, 0, 0, 0x05, 1, 1, 0x06, 4, 0x80, 0, 0x40, 0, 0x07, 8, 0xc0,
        0, 0, 0, 0x40, 0, 0, 0, 0x08, 1, 63, 0x09, 1, 0,
    ];
    assert_eq!(sent, spelled);
    // One of another identifier is passed over, and one that is left out is 0.
    assert_eq!(
        parameters::read(&[0x01, 2, 0x40, 0x64]),
        parameters::read(&[])
    );
    // Cut short, of another length, twice.
    for wrong in [
        &[0x04][..],
        &[0x04, 2, 1],
        &[0x04, 2, 1, 1],
        &[0x04, 1, 1, 0x04, 1, 1],
    ] {
        assert_eq!(parameters::read(wrong), None, "{wrong:?}");
    }
    let end = Endpoint::new(Role::Client, settings, limits);
    assert!(end.is_ok());
}

/// The kinds of an enum, as its source has them.
fn kinds(source: &str, name: &str) -> Vec<String> {
    let begin = format!("pub enum {name} {{\n");
    let body = source.split_once(&begin).expect("it is there").1;
    let body = body.split_once("\n}").expect("it ends").0;
    let lines = body.lines().map(str::trim_start);
    let kinds = lines.filter(|line| line.starts_with(char::is_uppercase));
    kinds
        .map(|line| line.split(['(', ',']).next().unwrap_or(line).to_owned())
        .collect()
}

#[test]
fn each_answer_has_a_row() {
    let page = concat!(env!("CARGO_MANIFEST_DIR"), "/../docs/GUIDE.md");
    let Ok(page) = std::fs::read_to_string(page) else {
        println!("skipped: docs/GUIDE.md isn't there");
        return;
    };
    let (faults, answers) = (
        include_str!("../src/faults.rs"),
        include_str!("../src/answers.rs"),
    );
    let uses = kinds(faults, "UseFault");
    assert!(uses.len() >= 7, "{uses:?}");
    for kind in uses {
        assert!(page.contains(&format!("| `{kind}` |")), "{kind}");
    }
    for kind in kinds(answers, "Received") {
        assert!(page.contains(&format!("`Ok({kind}")), "{kind}");
    }
    for kind in kinds(faults, "ReceiveFault") {
        assert!(page.contains(&format!("`Err({kind}")), "{kind}");
    }
}
