// Made from crates/qs_world/src/world/happening.rt by rust/erase; not edited by hand.
//! One event happens to two endpoints.
use crate::shim::{Vec, vec};

use super::calls::own_call;
use super::log::Log;
use crate::proved::qs_calls::{Act, Answer, Event, Side};
use crate::proved::qs_conn::{Closing, Endpoint, Received};
use crate::shim::alloc::{AllocError, Global};

pub(crate) fn is_missing(log: &Log, event: &Event) -> bool {
    match &event.act {
        Act::Deliver(number) => log.payload(event.end, *number).is_none(),
        _ => false,
    }
}

/// Taken before anything happens, so that a refusal leaves the world as it was.
pub(crate) fn buffer_of(alloc: Global, size: usize) -> Result<Vec<u8>, AllocError> {
    vec![in alloc; 0; size]
}

pub(crate) fn happen(
    log: &Log,
    a: &mut Endpoint,
    b: &mut Endpoint,
    event: &Event,
    buffer: Vec<u8>,
) -> Answer {
    match event.end {
        Side::A => happen_at(log, Side::A, a, b, &event.act, buffer),
        Side::B => happen_at(log, Side::B, b, a, &event.act, buffer),
    }
}

fn happen_at(
    log: &Log,
    side: Side,
    own: &mut Endpoint,
    peer: &mut Endpoint,
    act: &Act,
    buffer: Vec<u8>,
) -> Answer {
    match act {
        Act::Deliver(number) => Answer::Deliver(deliver(log, side, peer, *number)),
        _ => own_call(own, act, buffer),
    }
}

fn deliver(log: &Log, from: Side, to: &mut Endpoint, number: u64) -> Result<Received, Closing> {
    debug_assert!(number < 1 << 62);
    let Some(text) = log.payload(from, number) else {
        unreachable!()
    };
    to.receive(number, text)
}
