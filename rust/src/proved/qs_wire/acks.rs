// Made from crates/qs_wire/src/acks.rt by rust/erase; not edited by hand.
//! The ranges of an ACK frame (RFC 9000, section 19.3.1).

use crate::proved::qs_wire::fault::Full;
use crate::proved::qs_wire::varint::{number_at, varint_len};
use crate::proved::qs_wire::writing::{put_number, put_numbers};

/// Gives the ranges of an ACK frame as smallest and largest packet number, the highest first. They stay a slice of the payload: an ACK may
/// have many, and reading takes no memory.
#[derive(Debug)]
pub struct AckRanges<'a> {
    largest: u64,
    rest: &'a [u8],
}

impl<'a> AckRanges<'a> {
    /// The ranges below a frame's largest number.
    #[inline]
    pub fn new(largest: u64, ranges: &'a [u8]) -> AckRanges<'a> {
        debug_assert!(largest < 1 << 62);
        AckRanges {
            largest,
            rest: ranges,
        }
    }

    /// The smallest and the largest number of the next range, `None` after the last. It never fails: a range that fell below zero, which no
    /// frame has that was read, begins at 0.
    #[inline]
    pub fn next(&mut self) -> Option<(u64, u64)> {
        let largest = self.largest;
        let (len, rest) = match number_at(self.rest) {
            Ok(read) => read,
            Err(_) => return None,
        };
        let smallest = largest.saturating_sub(len);
        self.rest = rest;
        if let Ok((gap, after)) = number_at(rest) {
            self.largest = smallest.saturating_sub(gap + 2);
            self.rest = after;
        }
        Some((smallest, largest))
    }
}

fn gap_and_length(above: u64, pair: (u64, u64)) -> (u64, u64) {
    debug_assert!(above <= 1 << 62);
    let (start, end) = pair;
    (above - end - 1, end - 1 - start)
}

/// Measured only if the room is scarce, since mostly all ranges fit.
#[inline]
fn two_fit(a: u64, b: u64, room: usize) -> bool {
    debug_assert!(a < 1 << 62);
    debug_assert!(b < 1 << 62);
    if room >= 16 {
        return true;
    }
    varint_len(a) + varint_len(b) <= room
}

/// As many as fit from the highest on: the older ranges were in earlier ACKs.
fn put_ranges(smallest: u64, pairs: &[(u64, u64)], at: usize, out: &mut [u8]) -> (usize, usize) {
    debug_assert!(smallest <= 1 << 62);
    debug_assert!(at <= out.len());
    let mut above = smallest;
    let mut count = 0;
    let mut next = at;
    for pair in pairs {
        let (gap, range) = gap_and_length(above, *pair);
        if !two_fit(gap, range, out.len() - next) {
            return (count, next);
        }
        next = put_number(gap, next, out);
        next = put_number(range, next, out);
        count += 1;
        above = pair.0;
    }
    (count, next)
}

const ACK: u64 = 0x02;

/// Writes an ACK frame without delay and ECN counts at the slice's front, of as many ranges as fit, and returns how many and the frame's
/// length in bytes. The ranges are half-open, the highest first. If not even one fits, nothing is written.
#[inline]
pub fn put_ack(pairs: &[(u64, u64)], out: &mut [u8]) -> Result<(usize, usize), Full> {
    put_delayed_ack(pairs, 0, out)
}

/// The same of an ACK frame with a delay.
#[inline]
pub fn put_delayed_ack(
    pairs: &[(u64, u64)],
    delay: u64,
    out: &mut [u8],
) -> Result<(usize, usize), Full> {
    debug_assert!(delay < 1 << 62);
    let (start, end) = pairs[0];
    let (_, others) = pairs.split_at(1);
    let numbers = varint_len(end - 1) + varint_len(end - 1 - start);
    let first = numbers + varint_len(delay) + 2;
    if first > out.len() {
        return Err(Full);
    }
    let (count, next) = put_ranges(start, others, first, out);
    put_numbers(&[ACK, end - 1, delay, count as u64, end - 1 - start], out);
    Ok((count + 1, next))
}
