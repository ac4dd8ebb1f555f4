//! The theorem on two endpoints covers the stack in `examples/stack.rs`: each call that it makes is one that `May` permits
//! (`crates/qs_runs/specs/Worlds.antt`).
//!
//! The example is compiled in, over an endpoint that logs each call and compares it with what the peer did. A frame of streams or of flow
//! control that is passed in must be one that the peer filled in. A token may be acknowledged once the peer took each frame of its packets
//! that changes something. The limits that an endpoint is given must be its peer's. The row of `receive` isn't tested: the example calls
//! `take_frame`.

extern crate gotsavena as layer;
// The example's `use gotsavena::{..}` means this file.
extern crate self as gotsavena;

pub use layer::{
    AckRanges, Dir, Fill, Frame, Read, Role, SendState, Settings, StreamId, Taken, Token, frames,
    put, put_ack,
};
use layer::{
    Filled, MakeFault, OpenFault, PeerLimits, SetupFault, StreamReport, TakeFault, TokenFault,
    UseFault,
};
use std::cell::RefCell;

#[path = "../examples/stack.rs"]
mod stack;

/// What one endpoint did: the frames of each packet that it filled, by number, and the frames that it took.
#[derive(Default)]
struct Past {
    made: Vec<Vec<Told>>,
    taken: Vec<Told>,
}

/// A frame by its canonical text, and whether the peer must have taken it before an acknowledgement.
#[derive(Clone, PartialEq)]
struct Told {
    text: Vec<u8>,
    must_land: bool,
}

#[derive(Default)]
struct Log {
    client: Past,
    server: Past,
    calls: usize,
    /// Frames of the transport that were passed in.
    foreign: usize,
    outside: usize,
}

thread_local! {
    static LOG: RefCell<Log> = RefCell::default();
}

impl Log {
    fn of(&mut self, role: Role) -> &mut Past {
        match role {
            Role::Client => &mut self.client,
            Role::Server => &mut self.server,
        }
    }

    fn peer_of(&mut self, role: Role) -> &mut Past {
        match role {
            Role::Client => &mut self.server,
            Role::Server => &mut self.client,
        }
    }

    /// Counts a call, and apart those that `May` doesn't permit.
    fn count(&mut self, is_inside: bool) {
        self.calls += 1;
        self.outside += usize::from(!is_inside);
    }

    /// The premise on `take_frame`: a frame of streams or of flow control is one that the peer made.
    fn is_from_peer(&mut self, role: Role, frame: &Frame<'_>) -> bool {
        let told = told(frame);
        !is_ours(frame)
            || self
                .peer_of(role)
                .made
                .iter()
                .any(|made| made.contains(&told))
    }

    /// The premise on `acked`: the peer took the frames of each packet of the token.
    fn has_landed(&mut self, role: Role, token: Token) -> bool {
        (token.first..=token.number).all(|number| {
            let made = self.of(role).made.get(number as usize).cloned();
            let taken = &self.peer_of(role).taken;
            made.is_some_and(|made| {
                made.iter()
                    .all(|told| !told.must_land || taken.contains(told))
            })
        })
    }
}

/// Whether the frame is of streams or of flow control (RFC 9000, sections 19.4, 19.5 and 19.8 to 19.14).
fn is_ours(frame: &Frame<'_>) -> bool {
    matches!(
        frame,
        Frame::Stream { .. }
            | Frame::ResetStream { .. }
            | Frame::StopSending { .. }
            | Frame::MaxData { .. }
            | Frame::MaxStreamData { .. }
            | Frame::MaxStreams { .. }
            | Frame::DataBlocked { .. }
            | Frame::StreamDataBlocked { .. }
            | Frame::StreamsBlocked { .. }
    )
}

fn told(frame: &Frame<'_>) -> Told {
    let mut text = [0; 2048];
    let len = put(frame, &mut text).expect("a frame of a packet");
    // DATA_BLOCKED and STREAMS_BLOCKED change nothing (RFC 9000, sections 19.12 and 19.14).
    let is_idle = matches!(
        frame,
        Frame::DataBlocked { .. } | Frame::StreamsBlocked { .. }
    );
    Told {
        text: text[..len].to_vec(),
        must_land: is_ours(frame) && !is_idle,
    }
}

/// An endpoint whose calls are compared with the premises.
pub struct Endpoint {
    role: Role,
    end: layer::Endpoint,
}

impl Endpoint {
    pub fn new(role: Role, settings: Settings, peer: PeerLimits) -> Result<Endpoint, SetupFault> {
        // Both endpoints of the example have the same settings.
        LOG.with_borrow_mut(|log| log.count(peer == settings.limits()));
        Ok(Endpoint {
            role,
            end: layer::Endpoint::new(role, settings, peer)?,
        })
    }

    pub fn take_frame(&mut self, frame: &Frame<'_>) -> Result<Taken, TakeFault> {
        let answer = self.end.take_frame(frame);
        LOG.with_borrow_mut(|log| {
            let is_inside = log.is_from_peer(self.role, frame);
            log.count(is_inside);
            log.foreign += usize::from(!is_ours(frame));
            if answer.is_ok() {
                log.of(self.role).taken.push(told(frame));
            }
        });
        answer
    }

    pub fn fill(&mut self, out: &mut [u8], want: &Fill) -> Result<Option<Filled>, MakeFault> {
        let answer = self.end.fill(out, want)?;
        LOG.with_borrow_mut(|log| {
            log.count(true);
            if let Some(filled) = &answer {
                let made =
                    frames(&out[..filled.len]).map(|placed| told(&placed.expect("a frame").frame));
                let made = made.collect();
                log.of(self.role).made.push(made);
            }
        });
        Ok(answer)
    }

    pub fn acked(&mut self, token: Token) -> Result<(), TokenFault> {
        LOG.with_borrow_mut(|log| {
            let is_inside = log.has_landed(self.role, token);
            log.count(is_inside);
        });
        self.end.acked(token)
    }

    pub fn lost(&mut self, token: Token) -> Result<(), TokenFault> {
        LOG.with_borrow_mut(|log| log.count(true));
        self.end.lost(token)
    }

    pub fn open(&mut self, dir: Dir) -> Result<StreamId, OpenFault> {
        LOG.with_borrow_mut(|log| log.count(true));
        self.end.open(dir)
    }

    pub fn write(&mut self, stream: StreamId, bytes: &[u8]) -> Result<usize, UseFault> {
        LOG.with_borrow_mut(|log| log.count(true));
        self.end.write(stream, bytes)
    }

    pub fn finish(&mut self, stream: StreamId) -> Result<(), UseFault> {
        LOG.with_borrow_mut(|log| log.count(true));
        self.end.finish(stream)
    }

    pub fn read(&mut self, stream: StreamId, into: &mut [u8]) -> Result<Read, UseFault> {
        LOG.with_borrow_mut(|log| log.count(true));
        self.end.read(stream, into)
    }

    pub fn report(&self, stream: StreamId) -> Option<StreamReport> {
        LOG.with_borrow_mut(|log| log.count(true));
        self.end.report(stream)
    }
}

#[test]
fn each_call_of_the_example_is_one_of_a_run() {
    LOG.take();
    stack::main().expect("the example ends well");
    let log = LOG.take();
    println!(
        "{} calls, {} frames of the stack's own, {} outside",
        log.calls, log.foreign, log.outside
    );
    assert_eq!(log.outside, 0);
    // PINGs are handed in alone, so that says something; and tokens and frames there are many.
    assert!(log.foreign > 0);
    assert!(log.client.made.len() > 500 && log.server.taken.len() > 500);
}

/// Two ends, with a packet that the client filled in.
fn one_packet() -> (Endpoint, Endpoint, Vec<u8>, Token) {
    LOG.take();
    let settings = Settings::default();
    let mut client = Endpoint::new(Role::Client, settings, settings.limits()).expect("an end");
    let server = Endpoint::new(Role::Server, settings, settings.limits()).expect("an end");
    let stream = client.open(Dir::Uni).expect("a stream");
    assert_eq!(client.write(stream, b"hello"), Ok(5));
    let mut out = [0; 100];
    let filled = client
        .fill(&mut out, &Fill::all())
        .expect("memory")
        .expect("bytes are due");
    (client, server, out[..filled.len].to_vec(), filled.token)
}

fn outside() -> usize {
    LOG.with_borrow(|log| log.outside)
}

#[test]
fn a_token_that_is_told_too_early_is_outside() {
    let (mut client, mut server, payload, token) = one_packet();
    client.acked(token).expect("a token of this end");
    assert_eq!(outside(), 1);
    for placed in frames(&payload) {
        let taken = server.take_frame(&placed.expect("a frame").frame);
        assert_eq!(taken, Ok(Taken::Took));
    }
    client.acked(token).expect("a token of this end");
    assert_eq!(outside(), 1);
}

#[test]
fn a_frame_that_the_peer_did_not_make_is_outside() {
    let (_, mut server, _, _) = one_packet();
    assert_eq!(server.take_frame(&Frame::Ping), Ok(Taken::NotOurs));
    assert_eq!(outside(), 0);
    assert_eq!(
        server.take_frame(&Frame::MaxData { maximum: 1 << 50 }),
        Ok(Taken::Took)
    );
    assert_eq!(outside(), 1);
}
