// Made from crates/qs_c/src/acks.rt by rust/erase; not edited by hand.
//! The ranges of an ACK frame.

use crate::proved::qs_c::answers::{FULL, INVALID, NONE, OK};
use crate::proved::qs_c::reads::skip;
use crate::proved::qs_wire::{AckRanges, put_delayed_ack};

/// Both ends of a range are in it, as in the frame.
#[repr(C)]
#[derive(Clone, Copy)]
pub struct GvRange {
    pub smallest: u64,
    pub largest: u64,
}

const LIMIT: u64 = 1 << 62;

const MOST: usize = 32;

/// As many as fit, the highest first: those left out are the oldest.
pub(crate) fn put(
    ranges: &[GvRange],
    delay: u64,
    out: &mut [u8],
    count: &mut usize,
    len: &mut usize,
) -> u32 {
    if delay >= LIMIT || ranges.is_empty() || ranges.len() > MOST || !is_apart(ranges) {
        return INVALID;
    }
    let pairs = pairs_of(ranges);
    match put_delayed_ack(&pairs[..ranges.len()], delay, out) {
        Ok((taken, written)) => {
            *count = taken;
            *len = written;
            OK
        }
        Err(_) => FULL,
    }
}

/// Checked, since C's numbers have no type that says so, and the writer below requires it.
fn is_apart(ranges: &[GvRange]) -> bool {
    let mut above = LIMIT + 1;
    for range in ranges {
        if range.smallest > range.largest || above < 2 || range.largest > above - 2 {
            return false;
        }
        above = range.smallest;
    }
    true
}

fn pairs_of(ranges: &[GvRange]) -> [(u64, u64); 32] {
    debug_assert!(ranges.len() <= 32);
    let mut pairs = [(0, 0); 32];
    for i in 0..ranges.len() {
        let range = ranges[i];
        pairs[i] = (range.smallest, range.largest + 1);
    }
    pairs
}

/// How many bytes the range takes and where the next begins are returned, so that C keeps the place and no handle is needed.
pub(crate) fn next_range(
    bytes: &[u8],
    largest: &mut u64,
    used: &mut usize,
    range: &mut GvRange,
) -> u32 {
    if *largest >= LIMIT {
        return INVALID;
    }
    let mut ranges = AckRanges::new(*largest, bytes);
    let Some((smallest, top)) = ranges.next() else {
        return NONE;
    };
    *range = GvRange {
        smallest,
        largest: top,
    };
    *used = skip(2, bytes);
    *largest = match ranges.next() {
        Some((_, below)) => below,
        None => 0,
    };
    OK
}
