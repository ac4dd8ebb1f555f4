//! Single calls of an endpoint, with frames of 100 bytes on an open stream. `bench/calls` counts the functions that each one calls.

use crate::counting::gotsavena_counted;
use gotsavena::{Dir, Endpoint, Read, Received, Role, Settings, StreamId};

/// The acts, in the order in which they are done.
#[derive(Clone, Copy, PartialEq, Eq)]
pub enum Act {
    Write,
    Make,
    Receive,
    Read,
    Lose,
    AckLate,
}

const ORDER: [Act; 6] = [
    Act::Write,
    Act::Make,
    Act::Receive,
    Act::Read,
    Act::Lose,
    Act::AckLate,
];

/// Two endpoints with an open stream, the packet between them, and the ACK of that packet.
struct Scene {
    client: Endpoint,
    server: Endpoint,
    stream: StreamId,
    packet: [u8; 1200],
    number: u64,
    len: usize,
    ack: Vec<u8>,
}

const BYTES: [u8; 100] = [7; 100];

// A payload that acknowledges this packet alone.
fn ack_of(number: u64) -> Vec<u8> {
    let mut ack = vec![0; 16];
    let (_, len) = gotsavena::put_ack(&[(number, number)], 0, &mut ack).expect("it fits");
    ack.truncate(len);
    ack
}

impl Scene {
    /// A stream on which one frame was sent, read and acknowledged before.
    fn new() -> Scene {
        let settings = Settings::small();
        let end = |role| {
            Endpoint::new(role, settings, settings.limits()).expect("the settings are in range")
        };
        let mut client = end(Role::Client);
        let mut scene = Scene {
            stream: client.open(Dir::Bidi).expect("the peer grants some"),
            client,
            server: end(Role::Server),
            packet: [0; 1200],
            number: 0,
            len: 0,
            ack: ack_of(1),
        };
        for act in [Act::Write, Act::Make, Act::Receive, Act::Read] {
            scene.play(act);
        }
        let answer = scene.client.receive(0, &ack_of(0));
        assert_eq!(answer, Ok(Received::Done));
        scene
    }

    fn play(&mut self, act: Act) {
        match act {
            Act::Write => assert_eq!(self.client.write(self.stream, &BYTES), Ok(BYTES.len())),
            Act::Make => {
                let made = self.client.make_packet(&mut self.packet);
                let made = made.expect("there is memory").expect("bytes are due");
                (self.number, self.len) = (made.number, made.len);
            }
            Act::Receive => {
                let payload = &self.packet[..self.len];
                assert_eq!(
                    self.server.receive(self.number, payload),
                    Ok(Received::Done)
                );
            }
            Act::Read => {
                let mut bytes = [0; 200];
                let read = self.server.read(self.stream, &mut bytes);
                assert_eq!(read, Ok(Read::Bytes(BYTES.len())));
            }
            Act::Lose => assert_eq!(self.client.declare_lost(self.number), Ok(())),
            Act::AckLate => assert_eq!(self.client.receive(1, &self.ack), Ok(Received::Done)),
        }
    }
}

/// Plays all acts and counts this one.
pub fn played(counted: Act) -> u64 {
    let mut scene = Scene::new();
    for act in ORDER {
        if act == counted {
            gotsavena_counted(&mut || scene.play(act));
        } else {
            scene.play(act);
        }
    }
    1
}
