// Made from crates/qs_cli/src/frames.rt by rust/erase; not edited by hand.
//! Shows the frames of a payload.

use crate::proved::qs_cli::scripts::show;
use crate::proved::qs_cli::status::Status;
use crate::proved::qs_text::payload_text;
use crate::shim::alloc::Global;
use crate::shim::io;

/// The most bytes that a payload has.
const MAX_PAYLOAD: usize = 65_535;

/// Writes the frames of the payload that the word spells in hex, a line for each, and then its
/// canonical text or the fault that ends it. `BadUsage` where the word spells no payload of at most 65,535 bytes.
///
/// It is written once the text stands whole: `NoMemory` where memory was refused, and then nothing was written, and `Failed` where
/// writing failed.
pub fn run_frames<W: io::Write>(alloc: Global, word: &str, out: &mut W) -> Status {
    if payload_fault(word.as_bytes()).is_some() {
        return Status::BadUsage;
    }
    let Ok(payload) = crate::shim::hex::decode(alloc, word) else {
        return Status::NoMemory;
    };
    match payload_text(alloc, &payload) {
        Ok((text, fault)) => show(&text, status_of(fault), out),
        Err(_) => Status::NoMemory,
    }
}

fn status_of(fault: bool) -> Status {
    if fault {
        Status::FaultShown
    } else {
        Status::Success
    }
}

/// Why a word spells no payload of at most 65,535 bytes in hex, if it doesn't. It is judged before memory is asked for, so that such a word is
/// bad usage whatever memory there is.
pub fn payload_fault(word: &[u8]) -> Option<&'static str> {
    if word.len() % 2 != 0 {
        return Some("an odd number of hex digits");
    }
    if word.len() / 2 > MAX_PAYLOAD {
        return Some("more than 65535 bytes");
    }
    if are_hex(word) {
        return None;
    }
    Some("a character is no hex digit")
}

fn are_hex(word: &[u8]) -> bool {
    word.iter().all(|byte| byte.is_ascii_hexdigit())
}
