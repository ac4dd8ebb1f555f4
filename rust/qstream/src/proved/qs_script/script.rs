// Made from crates/qs_script/src/script.rt by rust/erase; not edited by hand.
//! Scripts: lines of words, of which each line is an event.

use crate::shim::Vec;

mod line;
mod words;

use line::parse_line;
use crate::proved::qs_calls::Event;
use crate::shim::alloc::Global;

/// Why a line is no event.
#[derive(Clone, Copy, Debug, PartialEq, Eq)]
pub enum Reason {
    UnknownWord,
    WordCount,
    BadEnd,
    BadDir,
    /// A number has 1 to 19 decimal digits.
    NoNumber,
    OutOfRange,
    /// An even number of hex digits, or a dash for no bytes.
    BadHex,
    LongWrite,
    NoMemory,
}

impl core::fmt::Display for Reason {
    fn fmt(&self, f: &mut core::fmt::Formatter<'_>) -> core::fmt::Result {
        match self {
            Self::UnknownWord => f.write_str("unknown first word"),
            Self::WordCount => f.write_str("wrong number of words"),
            Self::BadEnd => f.write_str("an end is A or B"),
            Self::BadDir => f.write_str("a direction is bidi or uni"),
            Self::NoNumber => f.write_str("no number"),
            Self::OutOfRange => f.write_str("number out of range"),
            Self::BadHex => f.write_str("bad hex"),
            Self::LongWrite => f.write_str("a write of more than 65535 bytes"),
            Self::NoMemory => f.write_str("out of memory"),
        }
    }
}

impl core::error::Error for Reason {}

impl Reason {
    /// The reasons counted from 1, as messages name them.
    pub fn number(self) -> u64 {
        match self {
            Reason::UnknownWord => 1,
            Reason::WordCount => 2,
            Reason::BadEnd => 3,
            Reason::BadDir => 4,
            Reason::NoNumber => 5,
            Reason::OutOfRange => 6,
            Reason::BadHex => 7,
            Reason::LongWrite => 8,
            Reason::NoMemory => 9,
        }
    }
}

/// The first line of a script that is no event. Lines are counted from 1.
#[derive(Clone, Copy, Debug, PartialEq, Eq)]
pub struct ScriptFault {
    pub line: usize,
    pub reason: Reason,
}

impl core::fmt::Display for ScriptFault {
    fn fmt(&self, f: &mut core::fmt::Formatter<'_>) -> core::fmt::Result {
        match self {
            Self { line, reason, .. } => write!(f, "line {line}: {reason}"),
        }
    }
}

impl core::error::Error for ScriptFault {}

/// The events of a script, in order, or its first faulty line. The time is linear in the bytes.
pub fn parse_script(alloc: Global, script: &[u8]) -> Result<Vec<Event>, ScriptFault> {
    let mut events = Vec::new(alloc);
    let mut rest = script;
    let mut line = 0;
    while !rest.is_empty() {
        let (text, after) = split_line(rest);
        line += 1;
        if let Err(reason) = push_event(alloc, &mut events, text) {
            return Err(ScriptFault { line, reason });
        }
        rest = after;
    }
    Ok(events)
}

/// Without its end: a carriage return before the line feed goes, too, and only one.
fn split_line(text: &[u8]) -> (&[u8], &[u8]) {
    debug_assert!(0 < text.len());
    match line_feed(text) {
        Some(place) => {
            let (line, rest) = text.split_at(place);
            let (_, after) = rest.split_at(1);
            (without_return(line), after)
        }
        None => (text, &[]),
    }
}

fn line_feed(text: &[u8]) -> Option<usize> {
    text.iter().position(|byte| *byte == b'\n')
}

fn without_return(line: &[u8]) -> &[u8] {
    if line.is_empty() {
        return line;
    }
    let last = line.len() - 1;
    if line[last] != b'\r' {
        return line;
    }
    let (text, _) = line.split_at(last);
    text
}

/// Memory is asked for last, so that a faulty line is named whatever memory there is.
fn push_event(alloc: Global, events: &mut Vec<Event>, line: &[u8]) -> Result<(), Reason> {
    let Some(event) = parse_line(alloc, line)? else {
        return Ok(());
    };
    match events.push(event) {
        Ok(()) => Ok(()),
        Err(_) => Err(Reason::NoMemory),
    }
}
