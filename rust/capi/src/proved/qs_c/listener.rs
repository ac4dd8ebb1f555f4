// Made from crates/qs_c/src/listener.rt by rust/erase; not edited by hand.
//! What a handle of what was heard holds.

use crate::proved::qs_conn::Heard;

/// What was reported, as one value of this crate.
pub struct Listener {
    pub(crate) heard: Heard,
}

