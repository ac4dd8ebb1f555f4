// Made from crates/qs_c/src/thing.rt by rust/erase; not edited by hand.
//! What a handle holds.

use crate::proved::qs_conn::Endpoint;

/// An endpoint, as one value of this crate.
pub struct Thing {
    pub(crate) end: Endpoint,
}

