// Made from crates/qs_trace/src/words.rt by rust/erase; not edited by hand.
//! Words of a trace.

use crate::shim::String;

use crate::proved::qs_calls::Side;
use crate::proved::qs_wire::Dir;
use crate::shim::alloc::{AllocError, Global};

/// Appends the name of a further member of an object.
pub fn push_name(text: &mut String, name: &str) -> Result<(), AllocError> {
    text.push_str(",\"")?;
    text.push_str(name)?;
    text.push_str("\":")
}

/// Appends a word between quotation marks.
pub fn push_quoted(text: &mut String, word: &str) -> Result<(), AllocError> {
    text.push_str("\"")?;
    text.push_str(word)?;
    text.push_str("\"")
}

/// Appends a member that is a number.
pub fn push_number(text: &mut String, name: &str, number: u64) -> Result<(), AllocError> {
    push_name(text, name)?;
    write!(text, "{number}")
}

/// Appends a member that is an object without members.
pub fn push_empty(text: &mut String, name: &str) -> Result<(), AllocError> {
    push_name(text, name)?;
    text.push_str("{}")
}

/// Appends a member that is a word.
pub fn push_word(text: &mut String, name: &str, word: &str) -> Result<(), AllocError> {
    push_name(text, name)?;
    push_quoted(text, word)
}

/// Appends a member that is bytes, as lower-case hex.
pub fn push_bytes(
    alloc: Global,
    text: &mut String,
    name: &str,
    bytes: &[u8],
) -> Result<(), AllocError> {
    let encoded = crate::shim::hex::encode(alloc, bytes)?;
    push_word(text, name, encoded.as_str())
}

pub fn flag_name(flag: bool) -> &'static str {
    if flag { "true" } else { "false" }
}

pub fn dir_name(dir: Dir) -> &'static str {
    match dir {
        Dir::Bidi => "bidirectional",
        Dir::Uni => "unidirectional",
    }
}

pub fn is_same(a: Side, b: Side) -> bool {
    match (a, b) {
        (Side::A, Side::A) => true,
        (Side::A, Side::B) => false,
        (Side::B, Side::A) => false,
        (Side::B, Side::B) => true,
    }
}
