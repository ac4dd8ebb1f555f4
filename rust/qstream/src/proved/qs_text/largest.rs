// Made from crates/qs_text/src/largest.rt by rust/erase; not edited by hand.
//! The packet number at which the ranges of an ACK begin.

/// A type of its own, so that its bound is known wherever ranges are shown.
#[derive(Clone, Copy)]
pub struct Largest {
    number: u64,
}

impl Largest {
    pub fn new(number: u64) -> Largest {
        debug_assert!(number < 1 << 62);
        Largest { number }
    }

    pub fn number(self) -> u64 {
        self.number
    }
}
