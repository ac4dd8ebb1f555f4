// Made from tests/units/qs_ends/src/rows/calls.rattle by rust/erase; not edited by hand.
//! A call for each kind of row. Each tells its answer.

use crate::shim::String;
use super::RowFault;
use super::told::{
    lost_fault, make_fault, set_fault, tell_bytes, tell_closing, tell_count, tell_number,
    tell_open_fault, tell_received, tell_receiving, tell_sending, tell_word, use_fault,
};
use super::words::{Words, bytes, dir, number, size, stream};
use crate::proved::qs_ends::ends;
use crate::proved::qs_conn::{Endpoint, Made, MakeFault, SetFault, UseFault};
use crate::proved::qs_recv::Read;

/// No bytes of a call are more.
const ROOM: usize = 1200;

/// What a slice has in each place before a packet is made in it.
const BEFORE: u8 = 0xa5;

/// Makes the call that the words name, and tells what it answers.
pub(super) fn call(end: &mut Endpoint, words: Words, answer: &mut String) -> Result<(), RowFault> {
    match words[0] {
        b"receive" => receive(end, words, answer),
        b"make" => make(end, words, answer),
        b"make-from" => make_from(end, words, answer),
        b"lose" => lose(end, words, answer),
        _ => stream_call(end, words, answer),
    }
}

fn stream_call(end: &mut Endpoint, words: Words, answer: &mut String) -> Result<(), RowFault> {
    match words[0] {
        b"open" => open(end, words, answer),
        b"accept" => accept(end, answer),
        b"write" => write(end, words, answer),
        b"read" => read(end, words, answer),
        _ => breaking_off(end, words, answer),
    }
}

fn breaking_off(end: &mut Endpoint, words: Words, answer: &mut String) -> Result<(), RowFault> {
    match words[0] {
        b"finish" => finish(end, words, answer),
        b"reset" => reset(end, words, answer),
        b"stop" => stop(end, words, answer),
        b"forget" => forget(end, words, answer),
        _ => setting(end, words, answer),
    }
}

fn setting(end: &mut Endpoint, words: Words, answer: &mut String) -> Result<(), RowFault> {
    match words[0] {
        b"set-window" => tell_set(answer, end.set_conn_window(number(words[1])?)),
        b"set-grant" => tell_set(answer, end.set_grant(dir(words[1])?, number(words[2])?)),
        b"set-buffer" => set_buffer(end, words, answer),
        b"set-stream-window" => set_stream_window(end, words, answer),
        _ => question(end, words, answer),
    }
}

fn tell_set(answer: &mut String, set: Result<(), SetFault>) -> Result<(), RowFault> {
    match set {
        Ok(()) => tell_word(answer, "ok"),
        Err(fault) => tell_word(answer, set_fault(fault)),
    }
}

fn question(end: &Endpoint, words: Words, answer: &mut String) -> Result<(), RowFault> {
    match words[0] {
        b"close" => close(end, answer),
        b"sending" => sending(end, words, answer),
        b"receiving" => receiving(end, words, answer),
        _ => credit(end, words, answer),
    }
}

fn credit(end: &Endpoint, words: Words, answer: &mut String) -> Result<(), RowFault> {
    match words[0] {
        b"stored" => tell_number(answer, end.stored()),
        b"granted" => tell_number(answer, end.granted()),
        b"granted_streams" => tell_number(answer, end.granted_streams(dir(words[1])?)),
        b"spent" => tell_number(answer, end.spent()),
        _ => Err(RowFault::Unreadable),
    }
}

fn receive(end: &mut Endpoint, words: Words, answer: &mut String) -> Result<(), RowFault> {
    let packet = number(words[1])?;
    let mut room = [0u8; ROOM];
    let payload = bytes(words[2], &mut room)?;
    match ends::receive(end, packet, payload) {
        Ok(received) => tell_received(answer, received),
        Err(closing) => tell_closing(answer, closing),
    }
}

fn make(end: &mut Endpoint, words: Words, answer: &mut String) -> Result<(), RowFault> {
    let mut room = [BEFORE; ROOM];
    let Some(out) = room.get_mut(..size(words[1])?) else {
        return Err(RowFault::Unreadable);
    };
    let made = ends::make(end, out);
    tell_made(answer, made, out)
}

// The room, the stream that goes first, and the delay that an ACK tells.
fn make_from(end: &mut Endpoint, words: Words, answer: &mut String) -> Result<(), RowFault> {
    let mut room = [BEFORE; ROOM];
    let Some(out) = room.get_mut(..size(words[1])?) else {
        return Err(RowFault::Unreadable);
    };
    let made = ends::make_from(end, stream(words[2])?, number(words[3])?, out);
    tell_made(answer, made, out)
}

// Behind the payload, and where there is none, the slice stays as it was.
fn tell_made(
    answer: &mut String,
    made: Result<Option<Made>, MakeFault>,
    out: &[u8],
) -> Result<(), RowFault> {
    let len = match made {
        Ok(Some(made)) => made.len,
        Ok(None) | Err(_) => 0,
    };
    if !is_untouched(out, len) {
        return tell_word(answer, "scribbled");
    }
    match made {
        Ok(Some(made)) => {
            let Some(payload) = out.get(..made.len) else {
                return Err(RowFault::Unreadable);
            };
            tell_number(answer, made.number)?;
            tell_word(answer, " ")?;
            tell_bytes(answer, payload)
        }
        Ok(None) => tell_word(answer, "none"),
        Err(fault) => tell_word(answer, make_fault(fault)),
    }
}

fn is_untouched(out: &[u8], from: usize) -> bool {
    let Some(rest) = out.get(from..) else {
        return false;
    };
    for byte in rest {
        if *byte != BEFORE {
            return false;
        }
    }
    true
}

fn lose(end: &mut Endpoint, words: Words, answer: &mut String) -> Result<(), RowFault> {
    match ends::lose(end, number(words[1])?) {
        Ok(()) => tell_word(answer, "ok"),
        Err(fault) => tell_word(answer, lost_fault(fault)),
    }
}

fn open(end: &mut Endpoint, words: Words, answer: &mut String) -> Result<(), RowFault> {
    match ends::open(end, dir(words[1])?) {
        Ok(stream) => tell_number(answer, stream.value()),
        Err(fault) => tell_open_fault(answer, fault),
    }
}

fn accept(end: &mut Endpoint, answer: &mut String) -> Result<(), RowFault> {
    match end.accept() {
        Some(stream) => tell_number(answer, stream.value()),
        None => tell_word(answer, "none"),
    }
}

fn write(end: &mut Endpoint, words: Words, answer: &mut String) -> Result<(), RowFault> {
    let mut room = [0u8; ROOM];
    let data = bytes(words[2], &mut room)?;
    match ends::write(end, stream(words[1])?, data) {
        Ok(count) => tell_count(answer, count),
        Err(fault) => tell_word(answer, use_fault(fault)),
    }
}

fn read(end: &mut Endpoint, words: Words, answer: &mut String) -> Result<(), RowFault> {
    let mut room = [0u8; ROOM];
    let Some(into) = room.get_mut(..size(words[2])?) else {
        return Err(RowFault::Unreadable);
    };
    match end.read(stream(words[1])?, into) {
        Ok(found) => tell_read(answer, found, into),
        Err(fault) => tell_word(answer, use_fault(fault)),
    }
}

fn tell_read(answer: &mut String, found: Read, into: &[u8]) -> Result<(), RowFault> {
    match found {
        Read::Bytes(count) => {
            let Some(data) = into.get(..count) else {
                return Err(RowFault::Unreadable);
            };
            tell_word(answer, "bytes ")?;
            tell_bytes(answer, data)
        }
        Read::End => tell_word(answer, "end"),
        Read::Reset(code) => {
            tell_word(answer, "reset ")?;
            tell_number(answer, code)
        }
        Read::Wait => tell_word(answer, "wait"),
    }
}

fn tell_done(answer: &mut String, done: Result<(), UseFault>) -> Result<(), RowFault> {
    match done {
        Ok(()) => tell_word(answer, "ok"),
        Err(fault) => tell_word(answer, use_fault(fault)),
    }
}

fn finish(end: &mut Endpoint, words: Words, answer: &mut String) -> Result<(), RowFault> {
    let done = end.finish(stream(words[1])?);
    tell_done(answer, done)
}

fn reset(end: &mut Endpoint, words: Words, answer: &mut String) -> Result<(), RowFault> {
    let code = number(words[2])?;
    let done = end.reset(stream(words[1])?, code);
    tell_done(answer, done)
}

fn stop(end: &mut Endpoint, words: Words, answer: &mut String) -> Result<(), RowFault> {
    let code = number(words[2])?;
    let done = end.stop(stream(words[1])?, code);
    tell_done(answer, done)
}

fn forget(end: &mut Endpoint, words: Words, answer: &mut String) -> Result<(), RowFault> {
    let code = number(words[2])?;
    let done = end.stop_and_discard(stream(words[1])?, code);
    tell_done(answer, done)
}

fn set_buffer(end: &mut Endpoint, words: Words, answer: &mut String) -> Result<(), RowFault> {
    let size = size(words[2])?;
    let done = end.set_send_buffer(stream(words[1])?, size);
    tell_set(answer, done)
}

fn set_stream_window(
    end: &mut Endpoint,
    words: Words,
    answer: &mut String,
) -> Result<(), RowFault> {
    let window = number(words[2])?;
    let done = end.set_stream_window(stream(words[1])?, window);
    tell_set(answer, done)
}

fn close(end: &Endpoint, answer: &mut String) -> Result<(), RowFault> {
    let mut room = [0u8; 32];
    let Some(len) = end.close_payload(&mut room) else {
        return tell_word(answer, "none");
    };
    match room.get(..len) {
        Some(payload) => tell_bytes(answer, payload),
        None => Err(RowFault::Unreadable),
    }
}

fn sending(end: &Endpoint, words: Words, answer: &mut String) -> Result<(), RowFault> {
    let report = end.lane_report(stream(words[1])?);
    match report.and_then(|report| report.send) {
        Some(half) => tell_sending(answer, half),
        None => tell_word(answer, "none"),
    }
}

fn receiving(end: &Endpoint, words: Words, answer: &mut String) -> Result<(), RowFault> {
    let report = end.lane_report(stream(words[1])?);
    match report.and_then(|report| report.recv) {
        Some(half) => tell_receiving(answer, half),
        None => tell_word(answer, "none"),
    }
}
