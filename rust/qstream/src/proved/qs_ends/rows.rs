// Made from tests/units/qs_ends/src/rows.rattle by rust/erase; not edited by hand.
//! One end's calls as rows of text, each with what it answers. A test is such a text, so no test's proof follows the end's value.
//!
//! The first row makes the end: `client` or `server`, then the settings that differ from the usual ones, as `conn_window=10`, and the
//! peer's limits, as `peer_max_data=4`. Where no end can be made, the row tells why, and is the last. Each row after it is a call, ` -> `
//! and its answer. Bytes are hex, a dash being none.

use crate::shim::String;
mod calls;
mod setups;
mod told;
mod words;

use calls::call;
use crate::proved::qs_conn::Endpoint;
use setups::{Made, Setup, setup_word};
use crate::shim::alloc::{AllocError, Global};
use crate::shim::str;
use crate::shim::test::Fail;
use words::{first_words, split_answer, split_line};

/// Why a row can't be played.
#[derive(Clone, Copy, Debug, PartialEq, Eq)]
enum RowFault {
    Unreadable,
    NoMemory,
}

impl core::fmt::Display for RowFault {
    fn fmt(&self, f: &mut core::fmt::Formatter<'_>) -> core::fmt::Result {
        match self {
            Self::Unreadable => f.write_str("it can't be read"),
            Self::NoMemory => f.write_str("out of memory"),
        }
    }
}

impl core::error::Error for RowFault {}

impl From<AllocError> for RowFault {
    fn from(_: AllocError) -> RowFault {
        RowFault::NoMemory
    }
}

/// No answer is longer.
const ANSWER_ROOM: usize = 4096;

// Memory that was refused is asked for once more, so that the tests pass with each allocation refused in turn.
fn with_room(alloc: Global) -> Result<String, AllocError> {
    match String::with_capacity(alloc, ANSWER_ROOM) {
        Ok(text) => Ok(text),
        Err(_) => String::with_capacity(alloc, ANSWER_ROOM),
    }
}

fn unlike(row: &[u8], found: &str) -> Fail {
    let row = str::from_utf8(row).unwrap_or("a row");
    Fail::new(format_args!("{row}\nanswers {found}"))
}

fn fault_at(row: &[u8], fault: RowFault) -> Fail {
    let row = str::from_utf8(row).unwrap_or("a row");
    Fail::new(format_args!("{row}\n{fault}"))
}

/// Plays a text; fails at the first row that answers something else.
pub(super) fn play_rows(alloc: Global, text: &[u8]) -> Result<(), Fail> {
    let (first, _) = split_line(text);
    let (words, _) = split_answer(first);
    match Setup::parse(words) {
        Ok(setup) => play_made(alloc, &mut setup.end(alloc), text),
        Err(fault) => Err(fault_at(first, fault)),
    }
}

/// The end was made by the text's first row.
fn play_made(alloc: Global, made: &mut Made, text: &[u8]) -> Result<(), Fail> {
    let (first, rest) = split_line(text);
    let (_, expected) = split_answer(first);
    let word = setup_word(made);
    if word.as_bytes() != made_unless(expected) {
        return Err(unlike(first, word));
    }
    match made {
        Ok(end) => play_calls(alloc, end, rest),
        Err(_) => Ok(()),
    }
}

// The first row may leave out that the end is made.
fn made_unless(expected: &[u8]) -> &[u8] {
    if expected.is_empty() {
        return b"made";
    }
    expected
}

fn play_calls(alloc: Global, end: &mut Endpoint, text: &[u8]) -> Result<(), Fail> {
    let mut answer = with_room(alloc)?;
    let mut rest = text;
    // Each row takes a byte or more.
    for _ in 0..text.len() {
        let (row, after) = split_line(rest);
        play_call(end, row, &mut answer)?;
        rest = after;
    }
    Ok(())
}

fn play_call(end: &mut Endpoint, row: &[u8], answer: &mut String) -> Result<(), Fail> {
    let (words, expected) = split_answer(row);
    let words = first_words(words);
    if words[0].is_empty() {
        return Ok(());
    }
    if !words[4].is_empty() {
        return Err(fault_at(row, RowFault::Unreadable));
    }
    answer.clear();
    if let Err(fault) = call(end, words, answer) {
        return Err(fault_at(row, fault));
    }
    if answer.as_bytes() != expected {
        return Err(unlike(row, answer.as_str()));
    }
    Ok(())
}
