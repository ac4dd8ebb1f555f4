// Made from crates/qs_chunks/src/chunk_assembly.rt by rust/erase; not edited by hand.
//! An assembly that keeps what came in chunks, each with its own bytes.

use crate::proved::qs_chunks::chunk_list::{ChunkList, Spot};
use crate::proved::qs_ranges::{NoMemory, RangeSet};
use crate::proved::qs_recv::Assembly;
use crate::shim::alloc::Global;

/// Chunks in order that lie apart, beside the set of every received offset. It takes memory by what is stored, and one chunk for each gap;
/// it stands beside the ring to show that the laws of an assembly are enough.
pub struct ChunkAssembly {
    chunks: ChunkList,
    received: RangeSet,
    read_count: u64,
    stored: u64,
    window: u64,
    discarding: bool,
}

impl ChunkAssembly {
    // Takes bytes out of the first chunk, where it is next.
    fn take_first(&mut self, into: &mut [u8]) -> usize {
        debug_assert!(0 < into.len());
        if !self.chunks.begins_at(self.read_count) {
            return 0;
        }
        let count = self.chunks.take_front(into);
        self.read_count += count as u64;
        self.stored -= count as u64;
        count
    }
}

impl Assembly for ChunkAssembly {
    fn new(alloc: Global, window: u64) -> Self {
        ChunkAssembly {
            chunks: ChunkList::new(alloc),
            received: RangeSet::new(alloc),
            read_count: 0,
            stored: 0,
            window,
            discarding: false,
        }
    }

    fn at_rest(alloc: Global, window: u64, read_count: u64, end: u64, discarding: bool) -> Self {
        ChunkAssembly {
            chunks: ChunkList::new(alloc),
            received: RangeSet::below(alloc, end),
            read_count,
            stored: 0,
            window,
            discarding,
        }
    }

    fn put(&mut self, offset: u64, bytes: &[u8]) -> Result<(), NoMemory> {
        let end = offset + bytes.len() as u64;
        if self.discarding {
            return note(&mut self.received, offset, end);
        }
        let start = offset.max(self.read_count);
        let Some(spot) = self.chunks.find_spot(start, end) else {
            return Ok(());
        };
        let new = &bytes[(spot.from - offset) as usize..(spot.to - offset) as usize];
        place(&mut self.chunks, &mut self.received, offset, end, spot, new)?;
        self.stored = self.stored - spot.held + (spot.to - spot.from);
        Ok(())
    }

    fn take(&mut self, into: &mut [u8]) -> usize {
        let _ = &self.chunks;
        let mut done = 0;
        while done < into.len() {
            let count = self.take_first(&mut into[done..]);
            if count == 0 {
                break;
            }
            done += count;
        }
        done
    }

    fn discard(&mut self) {
        self.chunks.clear_all();
        self.stored = 0;
        self.discarding = true;
    }

    fn widen(&mut self, window: u64) {
        self.window = self.window.max(window);
    }

    // Chunks that are read are gone, so there is nothing to give back.
    fn give_back(&mut self) {}

    fn same(&self, offset: u64, bytes: &[u8]) -> bool {
        self.chunks.agree(offset, bytes)
    }

    fn stored(&self) -> u64 {
        self.stored
    }

    // As it counts: the bytes. A chunk's buffer may have room for more.
    fn held(&self) -> u64 {
        self.stored
    }

    fn received(&self) -> &RangeSet {
        &self.received
    }
}

// Notes the offsets from `lo` on and below `hi`. Memory is taken only where there are some, and none of them or beside
// them came before.
fn note(received: &mut RangeSet, lo: u64, hi: u64) -> Result<(), NoMemory> {
    debug_assert!(lo <= hi);
    debug_assert!(hi <= 0x3fff_ffff_ffff_ffff);
    if lo == hi {
        return Ok(());
    }
    received.insert(lo, hi)
}

// Puts bytes at a spot, where those that came first stay, and notes the offsets of their frame.
fn place(
    chunks: &mut ChunkList,
    received: &mut RangeSet,
    offset: u64,
    end: u64,
    spot: Spot,
    bytes: &[u8],
) -> Result<(), NoMemory> {
    debug_assert!(offset <= end);
    debug_assert!(end <= 0x3fff_ffff_ffff_ffff);
    if spot.first == spot.after {
        return add(chunks, received, offset, end, spot, bytes);
    }
    let patched = chunks.patched(spot, bytes)?;
    add(chunks, received, offset, end, spot, &patched)
}

// Puts bytes at a spot, in the place of the chunks in it, and notes the offsets of their frame.
fn add(
    chunks: &mut ChunkList,
    received: &mut RangeSet,
    offset: u64,
    end: u64,
    spot: Spot,
    bytes: &[u8],
) -> Result<(), NoMemory> {
    debug_assert!(offset <= end);
    debug_assert!(end <= 0x3fff_ffff_ffff_ffff);
    if spot.joins {
        chunks.extend(spot, bytes)?;
        if let Err(error) = received.insert(offset, end) {
            chunks.shorten(spot, bytes.len());
            return Err(error);
        }
        chunks.clear_behind(spot.first - 1, spot.after - spot.first);
    } else {
        chunks.insert(spot, bytes)?;
        if let Err(error) = received.insert(offset, end) {
            chunks.remove(spot.first);
            return Err(error);
        }
        chunks.clear_behind(spot.first, spot.after - spot.first);
    }
    Ok(())
}
