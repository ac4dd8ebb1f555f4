// Made from crates/qs_world/src/copies.rt by rust/erase; not edited by hand.
//! Copies of what happened, in memory of their own: for whoever keeps the log and hands it out.
use crate::shim::Vec;

use crate::proved::qs_calls::{Act, Answer, Event};
use crate::shim::alloc::{AllocError, Global};

/// Only the bytes of a write take memory.
pub fn copy_event(alloc: Global, event: &Event) -> Result<Event, AllocError> {
    let act = copy_act(alloc, &event.act)?;
    Ok(Event {
        end: event.end,
        act,
    })
}

fn copy_answer(alloc: Global, answer: &Answer) -> Result<Answer, AllocError> {
    let room = Vec::with_capacity(alloc, bytes_of(answer).len())?;
    Ok(copy_into(room, answer))
}

fn bytes_of(answer: &Answer) -> &[u8] {
    match answer {
        Answer::ReadUpTo(_, bytes) => bytes,
        Answer::Make(_, payload) => payload,
        _ => &[],
    }
}

/// It takes no memory, so that nothing can fail once the event happened.
pub(crate) fn copy_into(room: Vec<u8>, answer: &Answer) -> Answer {
    match answer {
        Answer::OpenStream(result) => Answer::OpenStream(*result),
        Answer::Accept(stream) => Answer::Accept(*stream),
        Answer::Write(result) => Answer::Write(*result),
        Answer::Finish(result) => Answer::Finish(*result),
        Answer::Reset(result) => Answer::Reset(*result),
        Answer::Stop(result) => Answer::Stop(*result),
        Answer::ReadUpTo(result, bytes) => Answer::ReadUpTo(*result, filled(room, bytes)),
        Answer::Make(result, payload) => Answer::Make(*result, filled(room, payload)),
        Answer::Lose(result) => Answer::Lose(*result),
        Answer::Claim(result) => Answer::Claim(*result),
        Answer::Deliver(result) => Answer::Deliver(*result),
    }
}

fn filled(mut room: Vec<u8>, bytes: &[u8]) -> Vec<u8> {
    let _ = room.extend_from_slice(bytes);
    room
}

pub(crate) fn copy_log(
    alloc: Global,
    log: &[(Event, Answer)],
) -> Result<Vec<(Event, Answer)>, AllocError> {
    let mut copy = Vec::with_capacity(alloc, log.len())?;
    for (event, answer) in log {
        let event = copy_event(alloc, event)?;
        let answer = copy_answer(alloc, answer)?;
        copy.push((event, answer))?;
    }
    Ok(copy)
}

fn copy_act(alloc: Global, act: &Act) -> Result<Act, AllocError> {
    Ok(match act {
        Act::OpenStream(dir) => Act::OpenStream(*dir),
        Act::Accept => Act::Accept,
        Act::Write(stream, bytes) => Act::Write(*stream, Vec::from_slice(alloc, bytes)?),
        Act::Finish(stream) => Act::Finish(*stream),
        Act::Reset(stream, code) => Act::Reset(*stream, *code),
        Act::Stop(stream, code) => Act::Stop(*stream, *code),
        Act::ReadUpTo(stream, size) => Act::ReadUpTo(*stream, *size),
        Act::Make(room) => Act::Make(*room),
        Act::Lose(number) => Act::Lose(*number),
        Act::Claim => Act::Claim,
        Act::Deliver(number) => Act::Deliver(*number),
    })
}
