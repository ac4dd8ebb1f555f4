// Made from crates/qs_script/src/script/words.rt by rust/erase; not edited by hand.
use crate::shim::{Vec, vec};

use crate::proved::qs_script::script::Reason;
use crate::proved::qs_calls::{MAX_BYTES, MAX_VARINT, Side};
use crate::proved::qs_wire::{Dir, StreamId};
use crate::shim::alloc::Global;

/// The largest of 62 bits has 19 digits. With 20 it is no number, however small its value, so no sum overflows.
const MAX_DIGITS: usize = 19;

/// The next word of a line, empty where there is none, and what follows it.
pub fn next_word(line: &[u8]) -> (&[u8], &[u8]) {
    let (_, text) = line.split_at(spaces(line));
    text.split_at(word_len(text))
}

/// How many words a line has.
pub fn count_words(line: &[u8]) -> usize {
    let mut count = 0;
    let mut rest = line;
    loop {
        let (word, after) = next_word(rest);
        if word.is_empty() {
            return count;
        }
        count += 1;
        rest = after;
    }
}

fn spaces(line: &[u8]) -> usize {
    first_other(line).unwrap_or(line.len())
}

fn first_other(line: &[u8]) -> Option<usize> {
    line.iter().position(|byte| *byte != b' ')
}

fn word_len(text: &[u8]) -> usize {
    first_space(text).unwrap_or(text.len())
}

fn first_space(text: &[u8]) -> Option<usize> {
    text.iter().position(|byte| *byte == b' ')
}

pub fn parse_side(word: &[u8]) -> Result<Side, Reason> {
    if word == b"A".as_slice() {
        Ok(Side::A)
    } else if word == b"B".as_slice() {
        Ok(Side::B)
    } else {
        Err(Reason::BadEnd)
    }
}

pub fn parse_dir(word: &[u8]) -> Result<Dir, Reason> {
    if word == b"bidi".as_slice() {
        Ok(Dir::Bidi)
    } else if word == b"uni".as_slice() {
        Ok(Dir::Uni)
    } else {
        Err(Reason::BadDir)
    }
}

/// A number from `least` to `most`.
pub fn parse_number(word: &[u8], least: u64, most: u64) -> Result<u64, Reason> {
    if word.is_empty() || word.len() > MAX_DIGITS || !are_digits(word) {
        return Err(Reason::NoNumber);
    }
    let number = decimal(word);
    if least <= number && number <= most {
        Ok(number)
    } else {
        Err(Reason::OutOfRange)
    }
}

fn are_digits(word: &[u8]) -> bool {
    word.iter().all(|byte| byte.is_ascii_digit())
}

fn decimal(digits: &[u8]) -> u64 {
    debug_assert!(digits.len() <= 19);
    let mut number = 0;
    for digit in digits {
        number = number * 10 + u64::from(*digit - b'0');
    }
    number
}

pub fn parse_stream(word: &[u8]) -> Result<StreamId, Reason> {
    StreamId::new(parse_number(word, 0, MAX_VARINT)?).ok_or(Reason::OutOfRange)
}

/// A number from `least` to `most`.
pub fn parse_size(word: &[u8], least: usize, most: usize) -> Result<usize, Reason> {
    Ok(parse_number(word, least as u64, most as u64)? as usize)
}

/// The bytes that a word spells in hex, a dash being none. At most 65,535.
pub fn parse_bytes(alloc: Global, word: &[u8]) -> Result<Vec<u8>, Reason> {
    if word == b"-".as_slice() {
        return Ok(Vec::new(alloc));
    }
    if !is_hex(word) {
        return Err(Reason::BadHex);
    }
    if word.len() / 2 > MAX_BYTES {
        return Err(Reason::LongWrite);
    }
    let Ok(mut bytes) = vec![in alloc; 0; word.len() / 2] else {
        return Err(Reason::NoMemory);
    };
    match crate::shim::hex::decode_to_slice(word, &mut bytes) {
        Ok(()) => Ok(bytes),
        Err(_) => Err(Reason::BadHex),
    }
}

/// Before memory is asked for.
fn is_hex(word: &[u8]) -> bool {
    word.len() % 2 == 0 && are_hex(word)
}

fn are_hex(word: &[u8]) -> bool {
    word.iter().all(|byte| byte.is_ascii_hexdigit())
}
