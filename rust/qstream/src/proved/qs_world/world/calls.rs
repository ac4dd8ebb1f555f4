// Made from crates/qs_world/src/world/calls.rt by rust/erase; not edited by hand.
//! What an application does.
use crate::shim::Vec;

use crate::proved::qs_calls::{Act, Answer};
use crate::proved::qs_conn::{Endpoint, Made, MakeFault, UseFault};
use crate::proved::qs_recv::Read;
use crate::proved::qs_wire::StreamId;

/// Taken before the call, so that its answer can always be kept.
pub(crate) fn room_of(act: &Act) -> usize {
    match act {
        Act::ReadUpTo(_, size) => *size,
        Act::Make(room) => *room,
        _ => 0,
    }
}

/// The buffer becomes the answer's bytes, so that a read copies once.
pub(crate) fn own_call(end: &mut Endpoint, act: &Act, buffer: Vec<u8>) -> Answer {
    match act {
        Act::OpenStream(dir) => Answer::OpenStream(end.open(*dir)),
        Act::Accept => Answer::Accept(end.accept()),
        Act::Write(stream, bytes) => Answer::Write(end.write(*stream, bytes)),
        Act::Finish(stream) => Answer::Finish(end.finish(*stream)),
        Act::Reset(stream, code) => Answer::Reset(end.reset(*stream, *code)),
        Act::Stop(stream, code) => Answer::Stop(end.stop(*stream, *code)),
        Act::ReadUpTo(stream, _) => read(end, *stream, buffer),
        Act::Make(_) => make(end, buffer),
        Act::Lose(number) => Answer::Lose(end.declare_lost(*number)),
        Act::Claim => Answer::Claim(end.claim_number()),
        Act::Deliver(_) => unreachable!(),
    }
}

fn read(end: &mut Endpoint, stream: StreamId, mut buffer: Vec<u8>) -> Answer {
    let answer = end.read(stream, &mut buffer);
    buffer.truncate(count_read(&answer));
    Answer::ReadUpTo(answer, buffer)
}

fn count_read(answer: &Result<Read, UseFault>) -> usize {
    match *answer {
        Ok(Read::Bytes(count)) => count,
        _ => 0,
    }
}

fn make(end: &mut Endpoint, mut buffer: Vec<u8>) -> Answer {
    let answer = end.make_packet(&mut buffer);
    buffer.truncate(count_made(&answer));
    Answer::Make(answer, buffer)
}

fn count_made(answer: &Result<Option<Made>, MakeFault>) -> usize {
    match *answer {
        Ok(Some(made)) => made.len,
        _ => 0,
    }
}
