// Made from crates/qs_ranges/src/maybe_number.rt by rust/erase; not edited by hand.
//! A number below 2^62, or none, in eight bytes. A stream has several such numbers, and most end with none.

// No number that there may be, so no flag is needed.
const NO_NUMBER: u64 = u64::MAX;

/// No number, or one below 2^62, in eight bytes: an `Option<u64>` takes sixteen.
#[derive(Clone, Copy)]
pub struct MaybeNumber {
    word: u64,
}

impl MaybeNumber {
    #[inline]
    pub fn none() -> Self {
        MaybeNumber { word: NO_NUMBER }
    }

    #[inline]
    pub fn some(n: u64) -> Self {
        debug_assert!(n <= 0x3fff_ffff_ffff_ffff);
        MaybeNumber { word: n }
    }

    #[inline(always)]
    pub fn get(self) -> Option<u64> {
        if self.word == NO_NUMBER {
            None
        } else {
            Some(self.word)
        }
    }
}
