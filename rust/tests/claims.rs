//! Packet numbers that the layer beneath uses for packets of its own (RFC 9000, section 12.3).

use gotsavena::{
    Dir, Endpoint, LostFault, MakeFault, ReceiveFault, Received, Role, Settings, StreamId,
};

const PADDING: u8 = 0x00;
const PING: u8 = 0x01;

fn ends() -> (Endpoint, Endpoint) {
    let settings = Settings::small();
    let client = Endpoint::new(Role::Client, settings, settings.limits()).expect("in range");
    let server = Endpoint::new(Role::Server, settings, settings.limits()).expect("in range");
    (client, server)
}

// What a PING under this number brings back from a new peer: a packet with an ACK of it.
fn ack_of(number: u64) -> Vec<u8> {
    let (_, mut peer) = ends();
    assert_eq!(peer.receive(number, &[PING]), Ok(Received::Done));
    let mut payload = vec![0; 128];
    let made = peer
        .make_packet(&mut payload)
        .expect("open")
        .expect("an ACK is due");
    payload.truncate(made.len);
    payload
}

#[test]
fn an_ack_of_a_claimed_number_is_no_fault() {
    let (mut client, _) = ends();
    assert_eq!(client.next_number(), 0);
    assert_eq!(client.claim_number(), Ok(0));
    assert_eq!(client.next_number(), 1);
    assert_eq!(client.receive(0, &ack_of(0)), Ok(Received::Done));
    assert_eq!(client.declare_lost(0), Err(LostFault::NotOutstanding));
}

#[test]
fn an_ack_of_a_number_that_was_not_claimed_closes() {
    let (mut client, _) = ends();
    match client.receive(0, &ack_of(0)) {
        Err(ReceiveFault::Closing(closing)) => assert_eq!(closing.code, 0x0a),
        other => panic!("{other:?}"),
    }
    // A packet that tells of the closing has a number, too.
    assert_eq!(client.claim_number(), Ok(0));
    let mut payload = [0; 128];
    assert_eq!(client.make_packet(&mut payload), Err(MakeFault::Closed));
}

#[test]
fn packets_go_under_the_numbers_between() {
    let (mut client, mut server) = ends();
    let stream = client.open(Dir::Uni).expect("granted");
    client.write(stream, b"hello").expect("open");
    assert_eq!(client.claim_number(), Ok(0));
    let mut payload = [0; 1200];
    let made = client
        .make_packet(&mut payload)
        .expect("open")
        .expect("bytes are due");
    assert_eq!(made.number, 1);
    assert_eq!(client.claim_number(), Ok(2));
    // The layer beneath put a PING and frames of its own, taken out here, in packets 0 and 2.
    for (number, text) in [
        (2, &[PADDING, PING][..]),
        (1, &payload[..made.len]),
        (0, &[PING]),
    ] {
        assert_eq!(server.receive(number, text), Ok(Received::Done));
    }
    let mut answer = [0; 1200];
    let ack = server
        .make_packet(&mut answer)
        .expect("open")
        .expect("an ACK is due");
    assert_eq!(
        client.receive(ack.number, &answer[..ack.len]),
        Ok(Received::Done)
    );
    for number in 0..3 {
        assert_eq!(client.declare_lost(number), Err(LostFault::NotOutstanding));
    }
}

#[test]
fn frames_may_follow_those_of_a_packet_that_was_made() {
    let (mut client, mut server) = ends();
    let stream = client.open(Dir::Uni).expect("granted");
    client.write(stream, b"hello").expect("open");
    let mut payload = [0; 1200];
    let made = client
        .make_packet(&mut payload)
        .expect("open")
        .expect("bytes are due");
    payload[made.len] = PING;
    assert_eq!(
        server.receive(made.number, &payload[..made.len + 1]),
        Ok(Received::Done)
    );
    assert_eq!(server.accept(), Some(StreamId::new(2).expect("below 2^62")));
}
