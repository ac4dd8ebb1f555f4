//! Ends with nothing between them: what is due of one goes to the other.

use gotsavena::{Endpoint, Received, Role, Settings};

fn end(role: Role, settings: Settings) -> Endpoint {
    Endpoint::with_tuning(role, settings, Default::default(), settings.limits()).expect("in range")
}

/// A client and its server.
pub fn ends(settings: Settings) -> (Endpoint, Endpoint) {
    (end(Role::Client, settings), end(Role::Server, settings))
}

/// A client, and two servers to which the same comes.
pub fn ends_alike(settings: Settings) -> (Endpoint, [Endpoint; 2]) {
    let servers = [(); 2].map(|()| end(Role::Server, settings));
    (end(Role::Client, settings), servers)
}

/// What is due goes across. Answers how many packets that were.
pub fn carry(from: &mut Endpoint, to: &mut Endpoint) -> usize {
    let mut payload = [0; 1200];
    let mut packets = 0;
    while let Some(made) = from.make_packet(&mut payload).expect("memory") {
        let taken = to.receive(made.number, &payload[..made.len]);
        assert_eq!(taken, Ok(Received::Done));
        packets += 1;
    }
    packets
}

/// Both make the same packet, where one is due, and the client takes it.
pub fn answer_alike(one: &mut Endpoint, other: &mut Endpoint, client: &mut Endpoint) {
    let mut payloads = [[0; 300]; 2];
    let made = one.make_packet(&mut payloads[0]).expect("open");
    assert_eq!(made, other.make_packet(&mut payloads[1]).expect("open"));
    assert_eq!(payloads[0], payloads[1]);
    if let Some(made) = made {
        let taken = client.receive(made.number, &payloads[0][..made.len]);
        assert!(taken.is_ok());
    }
}

/// All that is due on either side goes across.
pub fn rest(a: &mut Endpoint, b: &mut Endpoint) {
    while carry(a, b) + carry(b, a) > 0 {}
}
