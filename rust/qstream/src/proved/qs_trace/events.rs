// Made from crates/qs_trace/src/events.rt by rust/erase; not edited by hand.
//! What an end sees of a log, as its trace.

use crate::shim::String;

use crate::proved::qs_trace::item::{Item, Turn, Why};
use crate::proved::qs_trace::records::push_item;
use crate::proved::qs_trace::words::{is_same, push_quoted};
use crate::proved::qs_calls::{Act, Answer, Event, Received, Side};
use crate::proved::qs_recv::Read;
use crate::proved::qs_wire::{Dir, StreamId};
use crate::shim::alloc::{AllocError, Global};

/// The trace of one end over a log that has the oldest first: a JSON text sequence of qlog.
pub fn trace(alloc: Global, side: Side, log: &[(Event, Answer)]) -> Result<String, AllocError> {
    let mut text = String::new(alloc);
    text.push_str(heading())?;
    push_quoted(&mut text, vantage_name(side))?;
    text.push_str(heading_end())?;
    for (time, (event, answer)) in log.iter().enumerate() {
        push_event(alloc, &mut text, side, time, event, answer)?;
    }
    Ok(text)
}

pub fn vantage_name(side: Side) -> &'static str {
    match side {
        Side::A => "client",
        Side::B => "server",
    }
}

fn heading() -> &'static str {
    "\u{1e}{\"qlog_version\":\"0.4\",\"qlog_format\":\"JSON-SEQ\",\"trace\":{\"common_fields\":{\"protocol_type\":[\"QUIC\"],\"time_format\":\"relative\",\"reference_time\":0,\"gotsavena:time\":\"place in the log\"},\"vantage_point\":{\"type\":"
}

fn heading_end() -> &'static str {
    "}}}\n"
}

fn push_event(
    alloc: Global,
    text: &mut String,
    side: Side,
    time: usize,
    event: &Event,
    answer: &Answer,
) -> Result<(), AllocError> {
    if is_same(side, event.end) {
        push_own(alloc, text, time, &event.act, answer)
    } else {
        push_peers(alloc, text, time, &event.act, answer)
    }
}

fn push_own(
    alloc: Global,
    text: &mut String,
    time: usize,
    act: &Act,
    answer: &Answer,
) -> Result<(), AllocError> {
    match act {
        Act::OpenStream(_) => push_opened(alloc, text, time, answer),
        Act::Accept => push_accepted(alloc, text, time, answer),
        Act::Write(id, _) => push_written(alloc, text, time, *id, answer),
        Act::Reset(id, _) => push_reset(alloc, text, time, *id, answer),
        Act::ReadUpTo(id, _) => push_read(alloc, text, time, *id, answer),
        Act::Make(_) => push_made(alloc, text, time, answer),
        Act::Lose(number) => push_lost(alloc, text, time, *number, answer),
        Act::Claim => push_claimed(alloc, text, time, answer),
        Act::Finish(_) | Act::Stop(_, _) | Act::Deliver(_) => Ok(()),
    }
}

/// Of the peer's calls it sees the packets that arrive, and nothing else.
fn push_peers(
    alloc: Global,
    text: &mut String,
    time: usize,
    act: &Act,
    answer: &Answer,
) -> Result<(), AllocError> {
    match act {
        Act::Deliver(number) => {
            push_item(alloc, text, time, &Item::Received(*number))?;
            push_effect(alloc, text, time, *number, answer)
        }
        _ => Ok(()),
    }
}

fn push_effect(
    alloc: Global,
    text: &mut String,
    time: usize,
    number: u64,
    answer: &Answer,
) -> Result<(), AllocError> {
    let Answer::Deliver(received) = answer else {
        return Ok(());
    };
    let item = match *received {
        Ok(Received::Done) => return Ok(()),
        Ok(Received::Duplicate) => Item::Dropped(number, Why::Duplicate),
        Ok(Received::BelowFloor) => Item::Dropped(number, Why::BelowFloor),
        Ok(Received::NoMemory) => Item::Dropped(number, Why::NoMemory),
        Ok(Received::PeerClosed(code)) => Item::PeerClosed(code),
        Err(closing) => Item::Closed(closing.code),
    };
    push_item(alloc, text, time, &item)
}

fn push_opened(
    alloc: Global,
    text: &mut String,
    time: usize,
    answer: &Answer,
) -> Result<(), AllocError> {
    match answer {
        Answer::OpenStream(Ok(id)) => {
            push_item(alloc, text, time, &Item::Turned(id.value(), Turn::Ready))?;
            push_if_bidi(alloc, text, time, *id, Turn::Recv)
        }
        _ => Ok(()),
    }
}

fn push_accepted(
    alloc: Global,
    text: &mut String,
    time: usize,
    answer: &Answer,
) -> Result<(), AllocError> {
    match answer {
        Answer::Accept(Some(id)) => {
            push_item(alloc, text, time, &Item::Turned(id.value(), Turn::Recv))?;
            push_if_bidi(alloc, text, time, *id, Turn::Ready)
        }
        _ => Ok(()),
    }
}

fn push_if_bidi(
    alloc: Global,
    text: &mut String,
    time: usize,
    id: StreamId,
    turn: Turn,
) -> Result<(), AllocError> {
    match id.dir() {
        Dir::Bidi => push_item(alloc, text, time, &Item::Turned(id.value(), turn)),
        Dir::Uni => Ok(()),
    }
}

fn push_written(
    alloc: Global,
    text: &mut String,
    time: usize,
    id: StreamId,
    answer: &Answer,
) -> Result<(), AllocError> {
    match answer {
        Answer::Write(Ok(count)) => push_item(alloc, text, time, &Item::Taken(id.value(), *count)),
        _ => Ok(()),
    }
}

fn push_reset(
    alloc: Global,
    text: &mut String,
    time: usize,
    id: StreamId,
    answer: &Answer,
) -> Result<(), AllocError> {
    match answer {
        Answer::Reset(Ok(())) => push_item(
            alloc,
            text,
            time,
            &Item::Turned(id.value(), Turn::ResetSent),
        ),
        _ => Ok(()),
    }
}

fn push_read(
    alloc: Global,
    text: &mut String,
    time: usize,
    id: StreamId,
    answer: &Answer,
) -> Result<(), AllocError> {
    match answer {
        Answer::ReadUpTo(Ok(Read::Bytes(count)), _) => push_item(
            alloc,
            text,
            time,
            &Item::Given(id.value(), *count),
        ),
        Answer::ReadUpTo(Ok(Read::End), _) => push_item(
            alloc,
            text,
            time,
            &Item::Turned(id.value(), Turn::DataRead),
        ),
        Answer::ReadUpTo(Ok(Read::Reset(_)), _) => push_item(
            alloc,
            text,
            time,
            &Item::Turned(id.value(), Turn::ResetRead),
        ),
        _ => Ok(()),
    }
}

fn push_made(
    alloc: Global,
    text: &mut String,
    time: usize,
    answer: &Answer,
) -> Result<(), AllocError> {
    match answer {
        Answer::Make(Ok(Some(made)), payload) => push_item(
            alloc,
            text,
            time,
            &Item::Sent(made.number, payload),
        ),
        _ => Ok(()),
    }
}

fn push_lost(
    alloc: Global,
    text: &mut String,
    time: usize,
    number: u64,
    answer: &Answer,
) -> Result<(), AllocError> {
    match answer {
        Answer::Lose(Ok(())) => push_item(alloc, text, time, &Item::Lost(number)),
        _ => Ok(()),
    }
}

fn push_claimed(
    alloc: Global,
    text: &mut String,
    time: usize,
    answer: &Answer,
) -> Result<(), AllocError> {
    match answer {
        Answer::Claim(Ok(number)) => push_item(alloc, text, time, &Item::Sent(*number, &[1])),
        _ => Ok(()),
    }
}
