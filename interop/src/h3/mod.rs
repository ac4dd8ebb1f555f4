//! HTTP/3 (RFC 9114) over the streams, by the C library nghttp3.

mod answers;
pub mod client;
mod declarations;
pub mod server;
pub mod session;
#[cfg(test)]
mod tests;

use crate::program::Refusal;

/// The name of the protocol (RFC 9114, section 3.1).
pub const PROTOCOL: &[u8] = b"h3";

// Codes of RFC 9114, section 8.1.
pub const NO_ERROR: u64 = 0x0100;
pub const INTERNAL_ERROR: u64 = 0x0102;
pub const CLOSED_CRITICAL_STREAM: u64 = 0x0104;
pub const REQUEST_REJECTED: u64 = 0x010b;
pub const REQUEST_CANCELLED: u64 = 0x010c;

/// Refuses a library whose structs may be other ones than those that are declared.
///
/// # Errors
///
/// Where it isn't nghttp3 0.8.
pub fn look_at_library() -> Result<(), Refusal> {
    match session::other_version() {
        None => Ok(()),
        Some(other) => Err(Refusal::Failure(format!(
            "this needs nghttp3 0.8, whose structs are declared by hand: here is {other}"
        ))),
    }
}
