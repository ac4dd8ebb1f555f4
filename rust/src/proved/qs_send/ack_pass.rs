// Made from crates/qs_send/src/ack_pass.rt by rust/erase; not edited by hand.
//! Which outstanding packets an ACK names. The work is counted here, since a peer chooses the ACK.

use crate::proved::qs_send::records::Records;
use crate::proved::qs_wire::AckRanges;

mod late;

/// One pass over the outstanding records, or over the lost ones, from the highest number that an ACK's ranges name down to the lowest (RFC
/// 9000, section 13.3). Downwards, as the ranges come: so each slot and each range is met once, and a pass that began anew at a range would
/// break the count.
pub struct AckPass<'a> {
    low: u64,
    below: u64,
    ranges: AckRanges<'a>,
    turns: u64,
}

impl<'a> AckPass<'a> {
    #[inline]
    pub fn new(ranges: AckRanges<'a>) -> AckPass<'a> {
        AckPass {
            low: u64::MAX,
            below: u64::MAX,
            ranges,
            turns: 0,
        }
    }

    /// The greatest outstanding number that the ranges name below the last one returned; `None` if there is none. A turn is a range that it
    /// reads, or a look below the last one: at a word of bits, with the word of words and the slot that it leads to, or at a slot without a
    /// bit. How many numbers a word passes is in no clause: the bits only say which slots are surely empty.
    #[inline]
    pub fn next(&mut self, records: &Records) -> Option<u64> {
        let _turns = self.turns;
        loop {
            if let Some(number) = self.in_range(records) {
                return Some(number);
            }
            if !self.read_range() {
                return None;
            }
        }
    }

    /// It gives no number from this one on any more.
    #[inline]
    pub fn below(&self) -> u64 {
        self.below
    }

    /// The lowest number of the range that was read last.
    #[inline]
    pub fn low(&self) -> u64 {
        self.low
    }

    /// Passes the numbers from this one on.
    #[inline]
    pub fn go_below(&mut self, number: u64) {
        self.below = self.below.min(number);
    }

    /// How many turns it took.
    #[inline]
    pub fn turns(&self) -> u64 {
        self.turns
    }

    fn read_range(&mut self) -> bool {
        let Some((low, high)) = self.ranges.next() else {
            return false;
        };
        self.turns = one_more(self.turns);
        self.low = low;
        self.below = self.below.min(high + 1);
        true
    }

    #[inline(always)]
    fn in_range(&mut self, records: &Records) -> Option<u64> {
        match records.within(self.low, self.below, &mut self.turns) {
            Some(number) => {
                self.below = number;
                Some(number)
            }
            None => {
                self.below = self.below.min(self.low);
                None
            }
        }
    }
}

/// The count stops at its greatest value instead of going around, so a clause can bound it.
#[inline]
pub(crate) fn one_more(turns: u64) -> u64 {
    turns.saturating_add(1)
}
