// Made from crates/qs_ranges/src/room.rt by rust/erase; not edited by hand.
//! Memory for bytes, and no more than is asked for.
use crate::shim::Vec;

use crate::proved::qs_ranges::NoMemory;

/// Makes room for so many bytes in all, takes memory for no more, and returns how many these are. A vector grows to twice its size by
/// itself, which a bound on memory couldn't promise.
#[inline]
pub fn reserve(bytes: &mut Vec<u8>, size: usize) -> Result<usize, NoMemory> {
    bytes.reserve_exact(size - bytes.len())?;
    Ok(size)
}
