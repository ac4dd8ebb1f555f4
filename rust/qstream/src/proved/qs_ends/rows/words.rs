// Made from tests/units/qs_ends/src/rows/words.rattle by rust/erase; not edited by hand.
//! The words of a row.

use super::RowFault;
use crate::proved::qs_wire::{Dir, StreamId};
use crate::shim::str;

/// The first words of a call, and empty ones where it has no more. No call has as many.
pub(super) type Words<'a> = [&'a [u8]; 5];

/// The first line without its line feed, and what follows.
pub(super) fn split_line(text: &[u8]) -> (&[u8], &[u8]) {
    match text.iter().position(|byte| *byte == b'\n') {
        Some(place) => {
            let (line, rest) = text.split_at(place);
            let (_, after) = rest.split_at(1);
            (line, after)
        }
        None => (text, &[]),
    }
}

/// A row's call, and its answer, empty where there is none.
pub(super) fn split_answer(row: &[u8]) -> (&[u8], &[u8]) {
    let Some(place) = row.iter().position(|byte| *byte == b'>') else {
        return (row, &[]);
    };
    let (call, answer) = row.split_at(place);
    match (call, answer) {
        ([words @ .., b' ', b'-'], [b'>', b' ', told @ ..]) => (words, told),
        _ => (row, &[]),
    }
}

pub(super) fn first_words(call: &[u8]) -> Words<'_> {
    let (first, rest) = next_word(call);
    let (second, rest) = next_word(rest);
    let (third, rest) = next_word(rest);
    let (fourth, rest) = next_word(rest);
    let (fifth, _) = next_word(rest);
    [first, second, third, fourth, fifth]
}

/// The next word, empty where there is none, and what follows it.
pub(super) fn next_word(text: &[u8]) -> (&[u8], &[u8]) {
    let start = text.iter().position(|byte| *byte != b' ');
    let (_, words) = text.split_at(start.unwrap_or(text.len()));
    let end = words.iter().position(|byte| *byte == b' ');
    words.split_at(end.unwrap_or(words.len()))
}

pub(super) fn any_number(word: &[u8]) -> Result<u64, RowFault> {
    let Ok(text) = str::from_utf8(word) else {
        return Err(RowFault::Unreadable);
    };
    match text.parse::<u64>() {
        Ok(number) => Ok(number),
        Err(_) => Err(RowFault::Unreadable),
    }
}

/// A number that a frame can hold.
pub(super) fn number(word: &[u8]) -> Result<u64, RowFault> {
    match any_number(word) {
        Ok(number) if number < 1 << 62 => Ok(number),
        _ => Err(RowFault::Unreadable),
    }
}

pub(super) fn size(word: &[u8]) -> Result<usize, RowFault> {
    match usize::try_from(any_number(word)?) {
        Ok(size) => Ok(size),
        Err(_) => Err(RowFault::Unreadable),
    }
}

pub(super) fn stream(word: &[u8]) -> Result<StreamId, RowFault> {
    StreamId::new(any_number(word)?).ok_or(RowFault::Unreadable)
}

pub(super) fn dir(word: &[u8]) -> Result<Dir, RowFault> {
    match word {
        b"bidi" => Ok(Dir::Bidi),
        b"uni" => Ok(Dir::Uni),
        _ => Err(RowFault::Unreadable),
    }
}

/// The bytes that a word spells, written into the room's front.
pub(super) fn bytes<'a>(word: &[u8], room: &'a mut [u8]) -> Result<&'a [u8], RowFault> {
    let digits = match word {
        b"" => return Err(RowFault::Unreadable),
        b"-" => &[],
        _ => word,
    };
    let Some(into) = room.get_mut(..digits.len() / 2) else {
        return Err(RowFault::Unreadable);
    };
    match crate::shim::hex::decode_to_slice(digits, into) {
        Ok(()) => Ok(into),
        Err(_) => Err(RowFault::Unreadable),
    }
}
