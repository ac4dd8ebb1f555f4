// Made from crates/qs_send/src/lost_pass.rt by rust/erase; not edited by hand.
//! One pass over the lost packets, for a caller without outstanding ones.

use crate::proved::qs_send::ack_pass::AckPass;
use crate::proved::qs_send::lost_records::LostRecords;
use crate::proved::qs_wire::AckRanges;

/// One pass over the lost records alone, from the highest number that an ACK's ranges name down to the lowest (RFC 9000, section 13.2.1).
pub struct LostPass<'a> {
    pass: AckPass<'a>,
}

impl<'a> LostPass<'a> {
    /// A pass over the ranges that are left of an ACK.
    #[inline]
    pub fn new(ranges: AckRanges<'a>) -> LostPass<'a> {
        LostPass {
            pass: AckPass::new(ranges),
        }
    }

    /// The greatest lost number that the ranges name below the one given last, `None` where there is none.
    #[inline]
    pub fn next(&mut self, records: &LostRecords) -> Option<u64> {
        self.pass.next_lost(records)
    }

    /// How many turns it took: one for each record that it looked at, and one for each range that it read.
    #[inline]
    pub fn turns(&self) -> u64 {
        self.pass.turns()
    }
}
