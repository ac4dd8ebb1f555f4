// Made from crates/qs_send/src/kept.rt by rust/erase; not edited by hand.
//! Bytes that come in at the back and are freed at the front.
use crate::shim::Vec;

use crate::proved::qs_ranges::{NoMemory, reserve};
use crate::shim::alloc::Global;

// So much room stays when nothing is kept, so that a few bytes now and then take no memory anew.
const IDLE_ROOM: usize = 4096;

/// A ring: none is moved while others come and go. A row that is moved to the front once half of it is free moves each byte once more, when
/// it has left the processor's caches, and takes twice the memory.
pub struct Kept {
    alloc: Global,
    ring: Vec<u8>,
    start: usize,
    count: usize,
}

impl Kept {
    #[inline]
    pub fn new(alloc: Global) -> Self {
        Self {
            alloc,
            ring: Vec::new(alloc),
            start: 0,
            count: 0,
        }
    }

    #[inline(always)]
    pub fn len(&self) -> usize {
        self.count
    }

    /// How many bytes of memory it takes: at least those that are kept, and no more than 4,096 if none is.
    #[inline]
    pub fn held(&self) -> usize {
        self.ring.len()
    }

    /// Appends the bytes. It grows by doubling, since only then bytes are moved, but past `most` no further than the bytes need.
    #[inline]
    pub fn append(&mut self, bytes: &[u8], most: usize) -> Result<(), NoMemory> {
        let count = self.count + bytes.len();
        if count > self.ring.len() {
            let size = self.ring.len().saturating_mul(2).min(most).max(count);
            if self.start > 0 {
                return self.move_to(size, bytes);
            }
            grow(&mut self.ring, self.count, bytes, size)?;
            self.count = count;
            return Ok(());
        }
        write_behind(&mut self.ring, self.start, self.count, bytes);
        self.count = count;
        Ok(())
    }

    #[inline]
    pub fn truncate(&mut self, n: usize) {
        if n == 0 && self.ring.len() > IDLE_ROOM {
            self.give_back();
        } else {
            self.count = n;
        }
    }

    /// Frees the first `n` bytes. If nothing is left, memory of more than 4,096 bytes is given back, and any if nothing more comes.
    #[inline]
    pub fn let_go(&mut self, n: usize, is_over: bool) {
        let count = self.count - n;
        if count > 0 {
            self.start = place(self.ring.len(), self.start + n);
            self.count = count;
        } else if is_over || self.ring.len() > IDLE_ROOM {
            self.give_back();
        } else {
            self.start = 0;
            self.count = 0;
        }
    }

    /// In two pieces if they go around the ring's end.
    #[inline]
    pub fn part(&self, from: usize, len: usize) -> (&[u8], &[u8]) {
        let start = place(self.ring.len(), self.start + from);
        pieces(&self.ring, start, len)
    }

    // Unchanged if memory is refused.
    fn move_to(&mut self, size: usize, bytes: &[u8]) -> Result<(), NoMemory> {
        debug_assert!(0 < bytes.len());
        let (front, back) = pieces(&self.ring, self.start, self.count);
        let ring = joined(self.alloc, front, back, bytes, size)?;
        self.ring = ring;
        self.start = 0;
        self.count += bytes.len();
        Ok(())
    }

    fn give_back(&mut self) {
        self.ring = Vec::new(self.alloc);
        self.start = 0;
        self.count = 0;
    }
}

fn place(size: usize, at: usize) -> usize {
    if at < size { at } else { at - size }
}

fn pieces(ring: &[u8], start: usize, count: usize) -> (&[u8], &[u8]) {
    debug_assert!(start <= ring.len());
    debug_assert!(count <= ring.len());
    let room = ring.len() - start;
    if count <= room {
        (&ring[start..start + count], &[])
    } else {
        (&ring[start..], &ring[..count - room])
    }
}

// Used while the bytes don't go around: then growing where they stand moves none. Unchanged if memory is refused.
fn grow(ring: &mut Vec<u8>, count: usize, bytes: &[u8], size: usize) -> Result<(), NoMemory> {
    let room = reserve(ring, size)?;
    ring.truncate(count);
    let _written = ring.extend_from_slice(bytes);
    let _filled = ring.resize(room, 0);
    Ok(())
}

#[inline(always)]
fn write_behind(ring: &mut [u8], start: usize, count: usize, bytes: &[u8]) {
    debug_assert!(start <= ring.len());
    let at = place(ring.len(), start + count);
    let room = ring.len() - at;
    if bytes.len() <= room {
        write_at(ring, at, bytes);
    } else {
        let (front, back) = bytes.split_at(room);
        write_at(ring, at, front);
        write_at(ring, 0, back);
    }
}

fn write_at(into: &mut [u8], at: usize, bytes: &[u8]) {
    into[at..at + bytes.len()].copy_from_slice(bytes);
}

fn joined(
    alloc: Global,
    front: &[u8],
    back: &[u8],
    bytes: &[u8],
    size: usize,
) -> Result<Vec<u8>, NoMemory> {
    let mut ring = Vec::new(alloc);
    let room = reserve(&mut ring, size)?;
    ring.extend_from_slice(front)?;
    ring.extend_from_slice(back)?;
    ring.extend_from_slice(bytes)?;
    ring.resize(room, 0)?;
    Ok(ring)
}
