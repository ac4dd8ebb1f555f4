// Made from crates/qs_send/src/edits.rt by rust/erase; not edited by hand.
//! Edits of sets of offsets.

use crate::proved::qs_ranges::{NoMemory, RangeSet};

/// Adds the offsets from `lo` on and below `hi`. Memory is taken only if there are some, and the set has none of them and none beside them.
#[inline]
pub fn add(offsets: &mut RangeSet, lo: u64, hi: u64) -> Result<(), NoMemory> {
    debug_assert!(lo <= hi);
    debug_assert!(hi <= 1 << 62);
    if lo == hi {
        return Ok(());
    }
    offsets.insert(lo, hi)
}

/// Takes out the offsets from `lo` on and below `hi`. If a run would have to be split and memory for that is refused, they stay: what isn't
/// noted as due costs nothing to keep.
#[inline]
pub fn forget(offsets: &mut RangeSet, lo: u64, hi: u64) {
    debug_assert!(lo <= hi);
    debug_assert!(hi <= 1 << 62);
    let _ = offsets.remove(lo, hi);
}
