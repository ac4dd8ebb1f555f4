// Made from crates/qs_c/src/telling.rt by rust/erase; not edited by hand.
//! A payload is processed, and C gets the packets that it newly acknowledges.

use crate::proved::qs_c::answers::{FULL, INVALID, of_received};
use crate::proved::qs_c::handle::Handle;
use crate::proved::qs_c::structs::GvClosing;
use crate::proved::qs_c::thing::Thing;
use crate::proved::qs_conn::Told;
use crate::shim::alloc::Global;

const LIMIT: u64 = 1 << 62;

/// Notes numbers in a slice that C lends, as long as it has room: a callback into C in the middle of a call could call the endpoint.
pub(crate) struct Notes<'a> {
    room: &'a mut [u64],
    count: usize,
}

impl Told for Notes<'_> {
    fn tell(&mut self, number: u64) {
        if self.count < self.room.len() {
            self.room[self.count] = number;
            self.count += 1;
        }
    }
}

/// As `gvp_receive`, and writes the numbers of the packets that the payload newly acknowledges. If `told` hasn't a place for each number
/// from the lowest outstanding to the highest, nothing changes: a number that finds no place would be lost.
pub fn gvp_receive_with_acks(
    alloc: Global,
    end: &mut Handle,
    number: u64,
    payload: &[u8],
    closing: &mut GvClosing,
    told: &mut [u64],
    count: &mut usize,
) -> u32 {
    let Some(mut thing) = end.take(alloc) else {
        return INVALID;
    };
    let status = thing.receive_with_acks(number, payload, closing, told, count);
    end.put(thing);
    status
}

impl Thing {
    pub(crate) fn receive_with_acks(
        &mut self,
        number: u64,
        payload: &[u8],
        closing: &mut GvClosing,
        told: &mut [u64],
        count: &mut usize,
    ) -> u32 {
        if number >= LIMIT {
            return INVALID;
        }
        if !self.lie_within(told.len()) {
            return FULL;
        }
        let mut notes = Notes {
            room: told,
            count: 0,
        };
        let answer = self.end.receive_with_acks(number, payload, &mut notes);
        *count = notes.count;
        of_received(answer, closing)
    }

    fn lie_within(&self, room: usize) -> bool {
        let Some(least) = self.end.next_outstanding(0) else {
            return true;
        };
        match least.checked_add(room as u64) {
            Some(past) => self.end.next_outstanding(past).is_none(),
            None => false,
        }
    }
}
