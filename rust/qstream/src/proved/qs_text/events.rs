// Made from crates/qs_text/src/events.rt by rust/erase; not edited by hand.
//! Events and what they were answered, as text.

use crate::shim::String;

use crate::proved::qs_text::words::{dir_name, push_closing, push_hex, side_name};
use crate::proved::qs_calls::{
    Act, Answer, Closing, Event, LostFault, Made, MakeFault, OpenFault, Received, UseFault,
};
use crate::proved::qs_recv::Read;
use crate::proved::qs_wire::StreamId;
use crate::shim::alloc::{AllocError, Global};

/// The text of a script, an event a line.
pub fn script_text(alloc: Global, events: &[Event]) -> Result<String, AllocError> {
    let mut text = String::new(alloc);
    for event in events {
        push_event(alloc, &mut text, event)?;
        text.push_str("\n")?;
    }
    Ok(text)
}

/// Appends a line for each event with its answer.
pub fn push_log(alloc: Global, text: &mut String, log: &[(Event, Answer)]) -> Result<(), AllocError> {
    for (event, answer) in log {
        push_event(alloc, text, event)?;
        text.push_str(" -> ")?;
        push_answer(alloc, text, answer)?;
        text.push_str("\n")?;
    }
    Ok(())
}

/// The same words as a script has, so that a log can be played again.
fn push_event(alloc: Global, text: &mut String, event: &Event) -> Result<(), AllocError> {
    let side = side_name(event.end);
    match &event.act {
        Act::OpenStream(dir) => write!(text, "open {side} {}", dir_name(*dir)),
        Act::Accept => write!(text, "accept {side}"),
        Act::Write(id, bytes) => {
            write!(text, "write {side} {} ", id.value())?;
            push_hex(alloc, text, bytes)
        }
        Act::Finish(id) => write!(text, "finish {side} {}", id.value()),
        Act::Reset(id, code) => write!(text, "reset {side} {} {code}", id.value()),
        Act::Stop(id, code) => write!(text, "stop {side} {} {code}", id.value()),
        Act::ReadUpTo(id, size) => write!(text, "read {side} {} {size}", id.value()),
        Act::Make(room) => write!(text, "make {side} {room}"),
        Act::Lose(number) => write!(text, "lose {side} {number}"),
        Act::Claim => write!(text, "claim {side}"),
        Act::Deliver(number) => write!(text, "deliver {side} {number}"),
    }
}

fn push_answer(alloc: Global, text: &mut String, answer: &Answer) -> Result<(), AllocError> {
    match answer {
        Answer::OpenStream(opened) => push_opened(text, *opened),
        Answer::Accept(Some(id)) => write!(text, "stream {}", id.value()),
        Answer::Accept(None) => text.push_str("none"),
        Answer::Write(Ok(count)) => write!(text, "wrote {count}"),
        Answer::Write(Err(fault)) => text.push_str(use_fault_name(*fault)),
        Answer::Finish(done) => text.push_str(use_name(*done)),
        Answer::Reset(done) => text.push_str(use_name(*done)),
        Answer::Stop(done) => text.push_str(use_name(*done)),
        Answer::ReadUpTo(read, bytes) => push_read(alloc, text, *read, bytes),
        Answer::Make(made, payload) => push_made(alloc, text, *made, payload),
        Answer::Lose(lost) => text.push_str(lose_name(*lost)),
        Answer::Claim(number) => push_claimed(text, *number),
        Answer::Deliver(received) => push_received(text, *received),
    }
}

fn use_fault_name(fault: UseFault) -> &'static str {
    match fault {
        UseFault::NoSuchStream => "no-such-stream",
        UseFault::WrongDirection => "wrong-direction",
        UseFault::Finished => "finished",
        UseFault::WasReset => "was-reset",
        UseFault::Closed => "closed",
        UseFault::NoMemory => "no-memory",
    }
}

fn use_name(done: Result<(), UseFault>) -> &'static str {
    match done {
        Ok(()) => "ok",
        Err(fault) => use_fault_name(fault),
    }
}

fn make_fault_name(fault: MakeFault) -> &'static str {
    match fault {
        MakeFault::Closed => "closed",
        MakeFault::NoMemory => "no-memory",
        MakeFault::Exhausted => "exhausted",
    }
}

fn lose_name(lost: Result<(), LostFault>) -> &'static str {
    match lost {
        Ok(()) => "ok",
        Err(LostFault::NotOutstanding) => "not-outstanding",
        Err(LostFault::NoMemory) => "no-memory",
        Err(LostFault::Closed) => "closed",
    }
}

fn push_opened(text: &mut String, opened: Result<StreamId, OpenFault>) -> Result<(), AllocError> {
    match opened {
        Ok(id) => write!(text, "stream {}", id.value()),
        Err(OpenFault::Blocked(count)) => write!(text, "blocked {count}"),
        Err(OpenFault::Closed) => text.push_str("closed"),
        Err(OpenFault::NoMemory) => text.push_str("no-memory"),
    }
}

fn push_read(
    alloc: Global,
    text: &mut String,
    read: Result<Read, UseFault>,
    bytes: &[u8],
) -> Result<(), AllocError> {
    match read {
        Ok(Read::Bytes(_)) => {
            text.push_str("bytes ")?;
            push_hex(alloc, text, bytes)
        }
        Ok(Read::End) => text.push_str("end"),
        Ok(Read::Reset(code)) => write!(text, "reset {code}"),
        Ok(Read::Wait) => text.push_str("wait"),
        Err(fault) => text.push_str(use_fault_name(fault)),
    }
}

fn push_made(
    alloc: Global,
    text: &mut String,
    made: Result<Option<Made>, MakeFault>,
    payload: &[u8],
) -> Result<(), AllocError> {
    match made {
        Ok(Some(made)) => {
            write!(text, "packet {} ", made.number)?;
            push_hex(alloc, text, payload)
        }
        Ok(None) => text.push_str("nothing"),
        Err(fault) => text.push_str(make_fault_name(fault)),
    }
}

fn push_claimed(text: &mut String, claimed: Result<u64, MakeFault>) -> Result<(), AllocError> {
    match claimed {
        Ok(number) => write!(text, "number {number}"),
        Err(fault) => text.push_str(make_fault_name(fault)),
    }
}

fn push_received(text: &mut String, received: Result<Received, Closing>) -> Result<(), AllocError> {
    match received {
        Ok(Received::Done) => text.push_str("done"),
        Ok(Received::Duplicate) => text.push_str("duplicate"),
        Ok(Received::BelowFloor) => text.push_str("below-floor"),
        Ok(Received::PeerClosed(code)) => write!(text, "peer-closed {code}"),
        Ok(Received::NoMemory) => text.push_str("no-memory"),
        Err(closing) => push_closing(text, closing),
    }
}
