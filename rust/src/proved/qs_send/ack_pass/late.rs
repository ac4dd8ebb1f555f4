// Made from crates/qs_send/src/ack_pass/late.rt by rust/erase; not edited by hand.
//! Which lost packets a late ACK names.

use super::{AckPass, one_more};
use crate::proved::qs_send::lost_records::LostRecords;

impl<'a> AckPass<'a> {
    /// The greatest lost number that the ranges name below the last one returned, `None` if there is none. If no packet is lost, it reads
    /// no range, which is the usual case (RFC 9000, section 13.2.1). Each record that it looks at, also one below the range, and each range
    /// takes one turn, and none is looked at twice.
    #[inline]
    pub fn next_lost(&mut self, records: &LostRecords) -> Option<u64> {
        if records.len() == 0 {
            return None;
        }
        // Before the first look the bound itself.
        let mut seen = self.below;
        // The highest range mostly lies above all of them.
        let mut near = records.len();
        loop {
            if let Some(number) = self.lost_in_range(records, &mut seen, &mut near) {
                return Some(number);
            }
            if !self.read_range() {
                self.below = 0;
                return None;
            }
        }
    }

    // A record below the range stays in hand until a range begins at it or below, so that it is looked at once.
    fn lost_in_range(
        &mut self,
        records: &LostRecords,
        seen: &mut u64,
        near: &mut usize,
    ) -> Option<u64> {
        if self.below <= self.low {
            return None;
        }
        let number = self.look(records, *seen, near)?;
        *seen = number;
        if number < self.low {
            return None;
        }
        self.below = number;
        Some(number)
    }

    // The last one looked at, if it is below; else another one, in one turn.
    fn look(&mut self, records: &LostRecords, seen: u64, near: &mut usize) -> Option<u64> {
        if seen < self.below {
            return Some(seen);
        }
        let number = records.below_near(self.below, near)?;
        self.turns = one_more(self.turns);
        Some(number)
    }
}
