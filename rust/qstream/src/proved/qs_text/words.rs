// Made from crates/qs_text/src/words.rt by rust/erase; not edited by hand.
//! Words and bytes as text.

use crate::shim::String;

use crate::proved::qs_calls::{Closing, Side};
use crate::proved::qs_wire::Dir;
use crate::shim::alloc::{AllocError, Global};

/// Appends bytes as lower-case hex, or a dash where there are none.
pub fn push_hex(alloc: Global, text: &mut String, bytes: &[u8]) -> Result<(), AllocError> {
    if bytes.is_empty() {
        return text.push_str("-");
    }
    let encoded = crate::shim::hex::encode(alloc, bytes)?;
    text.push_str(encoded.as_str())
}

/// Appends a code or a type: at least two lower-case hex digits.
pub fn push_code(text: &mut String, code: u64) -> Result<(), AllocError> {
    if code < 16 {
        write!(text, "0x0{code:x}")
    } else {
        write!(text, "0x{code:x}")
    }
}

pub fn yes_no(flag: bool) -> &'static str {
    if flag { "yes" } else { "no" }
}

pub fn dir_name(dir: Dir) -> &'static str {
    match dir {
        Dir::Bidi => "bidi",
        Dir::Uni => "uni",
    }
}

pub fn side_name(side: Side) -> &'static str {
    match side {
        Side::A => "A",
        Side::B => "B",
    }
}

/// Appends why an end closed.
pub fn push_closing(text: &mut String, closing: Closing) -> Result<(), AllocError> {
    text.push_str("closing ")?;
    push_code(text, closing.code)?;
    text.push_str(" ")?;
    push_code(text, closing.frame_type)?;
    write!(text, " {}", closing.place)
}
