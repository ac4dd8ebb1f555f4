// Made from crates/qs_recv/src/ring.rt by rust/erase; not edited by hand.
//! A ring of bytes of which only the written ones are kept, so that a new one needn't be filled with zeros.
use crate::shim::Vec;

use crate::proved::qs_ranges::{NoMemory, reserve};
use crate::shim::alloc::Global;

/// The byte of an offset stands at the offset modulo the ring's size, so arrival in any order costs copies alone. As the ring is made, the
/// place is chosen at which the kept bytes begin: what comes in order from there on is appended.
pub(crate) struct Ring {
    // Shorter than the room until all of it was written: what lies behind was never filled.
    bytes: Vec<u8>,
    size: usize,
    // How far on in `bytes` the places begin. Choosing it anew when a ring grows keeps each byte where it stands.
    turn: usize,
}

impl Ring {
    #[inline]
    pub(crate) fn none(alloc: Global) -> Self {
        Self {
            bytes: Vec::new(alloc),
            size: 0,
            turn: 0,
        }
    }

    #[inline]
    pub(crate) fn len(&self) -> usize {
        self.size
    }

    /// Of a ring from which nothing is to be read any more: what comes next begins at its front, and goes around its end as late as it can.
    #[inline]
    pub(crate) fn begin_at(&mut self, from: u64) {
        debug_assert!(from <= 1 << 62);
        if self.size > 0 {
            self.turn = self.size - place_of(from, self.size);
        }
    }

    #[inline(always)]
    pub(crate) fn write(&mut self, at: u64, bytes: &[u8]) {
        debug_assert!(at <= 1 << 62);
        let place = place_of(at + self.turn as u64, self.size);
        let room = self.size - place;
        if bytes.len() <= room {
            write_over(&mut self.bytes, place, bytes);
        } else {
            let (front, back) = bytes.split_at(room);
            write_over(&mut self.bytes, place, front);
            write_over(&mut self.bytes, 0, back);
        }
    }

    #[inline]
    pub(crate) fn copy_out(&mut self, at: u64, into: &mut [u8]) {
        debug_assert!(at <= 1 << 62);
        let count = into.len();
        if count == 0 {
            return;
        }
        let place = place_of(at + self.turn as u64, self.size);
        if place + count <= self.bytes.len() {
            into.copy_from_slice(&self.bytes[place..place + count]);
            return;
        }
        fill(&mut self.bytes, self.size, place, count);
        let (front, back) = pieces(&self.bytes, self.size, place, count);
        write_at(into, 0, front);
        write_at(into, front.len(), back);
    }

    /// All of them were written, which the invariant of an assembly says of what came and wasn't read.
    #[inline]
    pub(crate) fn front(&self, at: u64, count: usize) -> (&[u8], &[u8]) {
        debug_assert!(at <= 1 << 62);
        debug_assert!(0 < count);
        let place = place_of(at + self.turn as u64, self.size);
        pieces(&self.bytes, self.size, place, count)
    }

    #[inline]
    pub(crate) fn are_at(&self, at: u64, bytes: &[u8]) -> bool {
        debug_assert!(at <= 1 << 62);
        let count = bytes.len();
        if count == 0 {
            return true;
        }
        let place = place_of(at + self.turn as u64, self.size);
        let room = self.size - place;
        if count <= room {
            return is_at(&self.bytes, place, bytes);
        }
        let (front, back) = bytes.split_at(room);
        is_at(&self.bytes, place, front) && is_at(&self.bytes, 0, back)
    }

    /// What is written behind these bytes is appended.
    #[inline]
    pub(crate) fn resized(
        &mut self,
        alloc: Global,
        from: u64,
        count: usize,
        size: usize,
    ) -> Result<Ring, NoMemory> {
        debug_assert!(from <= 1 << 62);
        debug_assert!(0 < size);
        debug_assert!(size <= 1 << 30);
        debug_assert!(count <= size);
        let turn = size - place_of(from, size);
        let mut bytes = Vec::new(alloc);
        let room = reserve(&mut bytes, size)?;
        if count == 0 {
            return Ok(Ring {
                bytes,
                size: room,
                turn,
            });
        }
        let place = place_of(from + self.turn as u64, self.size);
        fill(&mut self.bytes, self.size, place, count);
        copy_to(&mut bytes, &self.bytes, self.size, place, count);
        Ok(Ring {
            bytes,
            size: room,
            turn,
        })
    }

    /// In memory that grows bytes keep their place. Only if they go around the ring's end a new ring is taken and they are copied.
    #[inline(never)]
    pub(crate) fn widen(
        &mut self,
        alloc: Global,
        from: u64,
        count: usize,
        size: usize,
    ) -> Result<(), NoMemory> {
        debug_assert!(from <= 1 << 62);
        debug_assert!(0 < size);
        debug_assert!(size <= 1 << 30);
        if count == 0 {
            *self = self.resized(alloc, from, count, size)?;
            return Ok(());
        }
        let place = place_of(from + self.turn as u64, self.size);
        if count > self.size - place {
            *self = self.resized(alloc, from, count, size)?;
            return Ok(());
        }
        self.size = reserve(&mut self.bytes, size)?;
        self.turn = turn_to(place, from, size);
        Ok(())
    }

    /// In place, for a read must not fail and a copy may be refused memory: turned so that what is next stands first, cut off, and turned
    /// back.
    #[inline]
    pub(crate) fn narrow(&mut self, from: u64, count: usize, size: usize) {
        debug_assert!(from <= 1 << 62);
        debug_assert!(0 < count);
        debug_assert!(count <= size);
        let place = place_of(from + self.turn as u64, self.size);
        fill(&mut self.bytes, self.size, place, count);
        bring_to_front(&mut self.bytes, place, count);
        self.bytes.shrink_to(size);
        self.size = size;
        self.turn = size - place_of(from, size);
    }
}

// Most sizes are powers of two, unless a window cuts one, and there the low bits are the place: no division.
fn place_of(at: u64, size: usize) -> usize {
    debug_assert!(0 < size);
    if size.is_power_of_two() {
        (at & (size as u64 - 1)) as usize
    } else {
        (at % size as u64) as usize
    }
}

fn turn_to(place: usize, from: u64, size: usize) -> usize {
    debug_assert!(size <= 1 << 30);
    debug_assert!(place < size);
    let turn = place + (size - place_of(from, size));
    if turn <= size { turn } else { turn - size }
}

// Zeros only before a place that is written past the end; in order there are none.
fn fill(bytes: &mut Vec<u8>, size: usize, place: usize, count: usize) {
    debug_assert!(size <= 1 << 30);
    debug_assert!(place < size);
    debug_assert!(count <= size);
    let end = (place + count).min(size);
    if bytes.len() < end {
        let _filled = bytes.resize(end, 0);
    }
}

fn pieces(bytes: &[u8], size: usize, place: usize, count: usize) -> (&[u8], &[u8]) {
    debug_assert!(bytes.len() <= size);
    debug_assert!(place < size);
    debug_assert!(count <= size);
    let room = size - place;
    if count <= room {
        (&bytes[place..place + count], &[])
    } else {
        (&bytes[place..], &bytes[..count - room])
    }
}

// By rotation, so that it needs no second buffer.
fn bring_to_front(bytes: &mut Vec<u8>, place: usize, count: usize) {
    if count <= bytes.len() - place {
        bytes.copy_within(place..place + count, 0);
        bytes.truncate(count);
        return;
    }
    bytes.rotate_left(place);
    bytes.truncate(count);
}

fn copy_to(made: &mut Vec<u8>, bytes: &[u8], size: usize, place: usize, count: usize) {
    debug_assert!(bytes.len() <= size);
    debug_assert!(place < size);
    debug_assert!(count <= size);
    let (front, back) = pieces(bytes, size, place, count);
    let _copied = made.extend_from_slice(front);
    let _copied = made.extend_from_slice(back);
}

#[inline(always)]
fn write_over(into: &mut Vec<u8>, place: usize, bytes: &[u8]) {
    if place + bytes.len() <= into.len() {
        write_at(into, place, bytes);
        return;
    }
    if place != into.len() {
        let _filled = into.resize(place, 0);
    }
    let _written = into.extend_from_slice(bytes);
}

#[inline]
pub(crate) fn write_at(into: &mut [u8], place: usize, bytes: &[u8]) {
    into[place..place + bytes.len()].copy_from_slice(bytes);
}

#[inline]
pub(crate) fn is_at(kept: &[u8], place: usize, bytes: &[u8]) -> bool {
    let end = place + bytes.len();
    if end <= kept.len() {
        return bytes == &kept[place..end];
    }
    let mut i = 0;
    while i < bytes.len() {
        let there = if place + i < kept.len() {
            kept[place + i]
        } else {
            0
        };
        if bytes[i] != there {
            return false;
        }
        i += 1;
    }
    true
}
