// Made from crates/qs_calls/src/reading.rt by rust/erase; not edited by hand.
//! What a reader gets that consumes bytes without a copy.

use crate::proved::qs_recv::Read;

#[derive(Clone, Copy, Debug, PartialEq, Eq)]
pub struct Consumed {
    /// What a read of so many bytes would return.
    pub read: Read,
    /// Whether the stream ends with these bytes. Then that counts as read (RFC 9000, section 3.2), so that no further call is needed.
    pub at_end: bool,
}
