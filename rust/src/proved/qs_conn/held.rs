// Made from crates/qs_conn/src/held.rt by rust/erase; not edited by hand.
//! How much memory an endpoint takes for the bytes of its streams.

/// How much memory the buffers of streams take, in bytes. Beyond the greatest u64 it stays at that.
#[derive(Debug, Clone, Copy, PartialEq, Eq)]
pub struct Held {
    /// By receive buffers, for bytes that wait to be read (RFC 9000, section 2.2).
    pub receiving: u64,
    /// By sending buffers, for bytes that wait to be acknowledged (RFC 9000, section 13.3).
    pub sending: u64,
}

pub(crate) trait Holds {
    fn held(&self) -> u64;
}

// Of a part nothing is known but what it says, so that is what is summed. By a walk: a sum would have to be kept at each call.
#[inline]
pub(crate) fn sum_held<T: Holds>(parts: &[T]) -> u64 {
    let mut held: u64 = 0;
    for part in parts {
        held = held.saturating_add(part.held());
    }
    held
}
