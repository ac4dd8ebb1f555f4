// Made from tests/units/qs_ends/src/ends.rattle by rust/erase; not edited by hand.
//! Ends to begin with, and calls of them. A call that found no memory is made once more, so that the tests pass with each allocation
//! refused in turn.

use crate::proved::qs_conn::{
    Closing, Endpoint, LostFault, Made, MakeFault, OpenFault, PeerLimits, Received, Settings,
    SetupFault, UseFault,
};
use crate::proved::qs_wire::{Dir, Role, StreamId};
use crate::shim::alloc::Global;
use crate::shim::test::Fail;

/// The credit that an end grants in most tests.
pub(super) const USUAL: Settings = Settings {
    conn_window: 4096,
    bidi_local: 1024,
    bidi_remote: 1024,
    uni: 1024,
    send_buffer: 2048,
    grant_bidi: 8,
    grant_uni: 8,
    lifetime_bidi: 8,
    lifetime_uni: 8,
};

/// What its peer grants.
pub(super) const USUAL_PEER: PeerLimits = PeerLimits {
    max_data: 4096,
    bidi_local: 1024,
    bidi_remote: 1024,
    uni: 1024,
    streams_bidi: 8,
    streams_uni: 8,
};

/// A server that grants so much.
pub(super) fn server(alloc: Global, settings: Settings) -> Result<Endpoint, Fail> {
    Ok(Endpoint::new(alloc, Role::Server, settings, USUAL_PEER)?)
}

/// An end, or why there is none. It is handed on by reference, so that few proofs follow how it is dropped.
pub(super) type NewEnd = Result<Endpoint, SetupFault>;

pub(super) fn new_client(alloc: Global) -> NewEnd {
    Endpoint::new(alloc, Role::Client, USUAL, USUAL_PEER)
}

/// What was made.
pub(super) fn made<T>(new: &mut Result<T, SetupFault>) -> Result<&mut T, SetupFault> {
    match new {
        Ok(made) => Ok(made),
        Err(fault) => Err(*fault),
    }
}

pub(super) fn receive(end: &mut Endpoint, number: u64, payload: &[u8]) -> Result<Received, Closing> {
    debug_assert!(number < 1 << 62);
    let first = end.receive(number, payload);
    if first == Ok(Received::NoMemory) {
        return end.receive(number, payload);
    }
    first
}

/// A packet that fills no more than the slice. A slice that no packet may have answers nothing.
pub(super) fn make(end: &mut Endpoint, out: &mut [u8]) -> Result<Option<Made>, MakeFault> {
    if out.len() < 128 || out.len() > 16_383 {
        return Err(MakeFault::Exhausted);
    }
    let first = end.make_packet(out);
    if first == Err(MakeFault::NoMemory) {
        return end.make_packet(out);
    }
    first
}

pub(super) fn make_from(
    end: &mut Endpoint,
    first: StreamId,
    delay: u64,
    out: &mut [u8],
) -> Result<Option<Made>, MakeFault> {
    if out.len() < 128 || out.len() > 16_383 || delay >= 1 << 62 {
        return Err(MakeFault::Exhausted);
    }
    let made = end.make_packet_from(first, delay, out);
    if made == Err(MakeFault::NoMemory) {
        return end.make_packet_from(first, delay, out);
    }
    made
}

pub(super) fn lose(end: &mut Endpoint, number: u64) -> Result<(), LostFault> {
    let first = end.declare_lost(number);
    if first == Err(LostFault::NoMemory) {
        return end.declare_lost(number);
    }
    first
}

pub(super) fn open(end: &mut Endpoint, dir: Dir) -> Result<StreamId, OpenFault> {
    let first = end.open(dir);
    if first == Err(OpenFault::NoMemory) {
        return end.open(dir);
    }
    first
}

pub(super) fn write(end: &mut Endpoint, stream: StreamId, bytes: &[u8]) -> Result<usize, UseFault> {
    let first = end.write(stream, bytes);
    if first == Err(UseFault::NoMemory) {
        return end.write(stream, bytes);
    }
    first
}
