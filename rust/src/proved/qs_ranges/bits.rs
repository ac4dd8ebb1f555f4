// Made from crates/qs_ranges/src/bits.rt by rust/erase; not edited by hand.
//! Bits of a word, for the marks of 64 streams or slots that one look passes over.

#[inline(always)]
pub fn with_bit(word: u64, bit: usize, is_set: bool) -> u64 {
    debug_assert!(bit < 64);
    if is_set {
        word | (1 << bit)
    } else {
        word & !(1 << bit)
    }
}

#[inline]
pub fn lowest_bit(word: u64, from: usize) -> Option<usize> {
    debug_assert!(from < 64);
    let rest = word >> from;
    if rest == 0 {
        return None;
    }
    Some(from + rest.trailing_zeros() as usize)
}
