// Made from crates/qs_trace/src/records.rt by rust/erase; not edited by hand.
use crate::shim::String;

use crate::proved::qs_trace::frame_json::push_payload;
use crate::proved::qs_trace::item::{Item, Turn, Why};
use crate::proved::qs_trace::words::{push_name, push_number, push_quoted, push_word};
use crate::shim::alloc::{AllocError, Global};

/// Appends the record of an item.
pub fn push_item(
    alloc: Global,
    text: &mut String,
    time: usize,
    item: &Item,
) -> Result<(), AllocError> {
    push_opening(text, time, item_name(item))?;
    push_data(alloc, text, item)?;
    text.push_str(ending())
}

fn item_name(item: &Item) -> &'static str {
    match item {
        Item::Sent(_, _) => "transport:packet_sent",
        Item::Received(_) => "transport:packet_received",
        Item::Dropped(_, _) => "transport:packet_dropped",
        Item::Lost(_) => "recovery:packet_lost",
        Item::Turned(_, _) => "transport:stream_state_updated",
        Item::Taken(_, _) => "transport:data_moved",
        Item::Given(_, _) => "transport:data_moved",
        Item::Closed(_) => "connectivity:connection_closed",
        Item::PeerClosed(_) => "connectivity:connection_closed",
    }
}

fn push_data(alloc: Global, text: &mut String, item: &Item) -> Result<(), AllocError> {
    match *item {
        Item::Sent(number, payload) => {
            push_header(text, number)?;
            push_raw(text, payload.len())?;
            push_frames(alloc, text, payload)
        }
        Item::Received(number) => push_header(text, number),
        Item::Dropped(number, why) => {
            push_header(text, number)?;
            push_word(text, "trigger", why_word(why))
        }
        Item::Lost(number) => push_header(text, number),
        Item::Turned(id, turn) => push_turn(text, id, turn),
        Item::Taken(id, count) => push_moved(text, id, count, "application", "transport"),
        Item::Given(id, count) => push_moved(text, id, count, "transport", "application"),
        Item::Closed(code) => push_closed(text, code, "local"),
        Item::PeerClosed(code) => push_closed(text, code, "remote"),
    }
}

fn ending() -> &'static str {
    "}}\n"
}

fn why_word(why: Why) -> &'static str {
    match why {
        Why::Duplicate => "duplicate",
        Why::BelowFloor => "general",
        Why::NoMemory => "internal_error",
    }
}

fn turn_side(turn: Turn) -> &'static str {
    match turn {
        Turn::Ready => "sending",
        Turn::ResetSent => "sending",
        Turn::Recv => "receiving",
        Turn::DataRead => "receiving",
        Turn::ResetRead => "receiving",
    }
}

fn turn_state(turn: Turn) -> &'static str {
    match turn {
        Turn::Ready => "ready",
        Turn::ResetSent => "reset_sent",
        Turn::Recv => "receive",
        Turn::DataRead => "data_read",
        Turn::ResetRead => "reset_read",
    }
}

fn push_first(text: &mut String, name: &str, number: u64) -> Result<(), AllocError> {
    push_quoted(text, name)?;
    write!(text, ":{number}")
}

fn push_first_packet(text: &mut String, number: u64) -> Result<(), AllocError> {
    push_first(text, "packet_number", number)
}

fn push_first_length(text: &mut String, len: u64) -> Result<(), AllocError> {
    push_first(text, "payload_length", len)
}

fn push_first_code(text: &mut String, code: u64) -> Result<(), AllocError> {
    push_first(text, "connection_code", code)
}

/// Time is the place in the log, since a run has no clock.
fn push_opening(text: &mut String, time: usize, name: &str) -> Result<(), AllocError> {
    text.push_str("\u{1e}{")?;
    push_first(text, "time", time as u64)?;
    push_word(text, "name", name)?;
    push_name(text, "data")?;
    text.push_str("{")
}

fn push_header(text: &mut String, number: u64) -> Result<(), AllocError> {
    push_quoted(text, "header")?;
    text.push_str(":{")?;
    push_first_packet(text, number)?;
    push_word(text, "packet_type", "1RTT")?;
    text.push_str("}")
}

fn push_raw(text: &mut String, len: usize) -> Result<(), AllocError> {
    push_name(text, "raw")?;
    text.push_str("{")?;
    push_first_length(text, len as u64)?;
    text.push_str("}")
}

fn push_frames(alloc: Global, text: &mut String, payload: &[u8]) -> Result<(), AllocError> {
    push_name(text, "frames")?;
    text.push_str("[")?;
    push_payload(alloc, text, payload)?;
    text.push_str("]")
}

fn push_turn(text: &mut String, id: u64, turn: Turn) -> Result<(), AllocError> {
    push_first(text, "stream_id", id)?;
    push_word(text, "stream_side", turn_side(turn))?;
    push_word(text, "new", turn_state(turn))
}

fn push_moved(
    text: &mut String,
    id: u64,
    count: usize,
    from: &str,
    to: &str,
) -> Result<(), AllocError> {
    push_first(text, "stream_id", id)?;
    push_number(text, "length", count as u64)?;
    push_word(text, "from", from)?;
    push_word(text, "to", to)
}

fn push_closed(text: &mut String, code: u64, owner: &str) -> Result<(), AllocError> {
    push_first_code(text, code)?;
    push_word(text, "owner", owner)
}
