//! Settings that the application changes while the endpoint runs.

use gotsavena::{Dir, Endpoint, Read, Received, Role, SetFault, Settings, StreamId};

fn ends(settings: Settings) -> (Endpoint, Endpoint) {
    let client = Endpoint::new(Role::Client, settings, settings.limits()).expect("in range");
    let server = Endpoint::new(Role::Server, settings, settings.limits()).expect("in range");
    (client, server)
}

// One packet from an end to the other.
fn pass(from: &mut Endpoint, to: &mut Endpoint) {
    let mut payload = [0; 1200];
    let made = from.make_packet(&mut payload).expect("open").expect("due");
    assert_eq!(
        to.receive(made.number, &payload[..made.len]),
        Ok(Received::Done)
    );
}

// The least stream number.
fn first() -> StreamId {
    StreamId::new(0).expect("small")
}

fn with_buffer(send_buffer: usize) -> Settings {
    Settings::small().send_buffer(send_buffer)
}

#[test]
fn a_greater_buffer_takes_more() {
    let (mut client, _) = ends(with_buffer(4));
    let stream = client.open(Dir::Bidi).expect("granted");
    assert_eq!(client.write(stream, b"abcdef"), Ok(4));
    assert_eq!(client.next_writable(first()), None);
    assert_eq!(client.set_send_buffer(stream, 10), Ok(()));
    assert_eq!(client.next_writable(first()), Some(stream));
    assert_eq!(client.room(stream), 6);
    assert_eq!(client.write(stream, b"efghijklm"), Ok(6));
    // Another stream begins with the setting.
    let other = client.open(Dir::Bidi).expect("granted");
    assert_eq!(client.room(other), 4);
}

#[test]
fn a_smaller_buffer_keeps_what_it_has() {
    let (mut client, mut server) = ends(with_buffer(10));
    let stream = client.open(Dir::Bidi).expect("granted");
    assert_eq!(client.write(stream, b"abcdefgh"), Ok(8));
    assert_eq!(client.set_send_buffer(stream, 3), Ok(()));
    assert_eq!(client.room(stream), 0);
    assert_eq!(client.write(stream, b"i"), Ok(0));
    assert_eq!(client.next_writable(first()), None);
    pass(&mut client, &mut server);
    let mut read = [0; 16];
    assert_eq!(server.read(stream, &mut read), Ok(Read::Bytes(8)));
    assert_eq!(&read[..8], b"abcdefgh");
    pass(&mut server, &mut client);
    assert_eq!(client.room(stream), 3);
    assert_eq!(client.next_writable(first()), Some(stream));
    assert_eq!(client.write(stream, b"ijklm"), Ok(3));
}

#[test]
fn a_buffer_is_refused() {
    let (mut client, mut server) = ends(with_buffer(4));
    let stream = client.open(Dir::Uni).expect("granted");
    client.write(stream, b"ab").expect("open");
    pass(&mut client, &mut server);
    let unknown = StreamId::new(4).expect("small");
    assert_eq!(client.set_send_buffer(stream, 0), Err(SetFault::OutOfRange));
    assert_eq!(
        client.set_send_buffer(stream, (1 << 30) + 1),
        Err(SetFault::OutOfRange)
    );
    assert_eq!(
        client.set_send_buffer(unknown, 5),
        Err(SetFault::NoSuchStream)
    );
    assert_eq!(
        server.set_send_buffer(stream, 5),
        Err(SetFault::WrongDirection)
    );
    assert_eq!(client.room(stream), 2);
    assert_eq!(
        client.receive(0, &[0x1c, 0x07, 0, 0]),
        Ok(Received::PeerClosed(7))
    );
    // A closing is told first.
    assert_eq!(client.set_send_buffer(unknown, 0), Err(SetFault::Closed));
}

#[test]
fn of_a_half_that_is_over_the_number_changes() {
    let (mut client, _) = ends(with_buffer(4));
    let stream = client.open(Dir::Bidi).expect("granted");
    client.finish(stream).expect("open");
    assert_eq!(client.set_send_buffer(stream, 8), Ok(()));
    assert_eq!(client.next_writable(first()), None);
    client.reset(stream, 1).expect("open");
    assert_eq!(client.set_send_buffer(stream, 1 << 30), Ok(()));
    assert_eq!(client.next_writable(first()), None);
}
