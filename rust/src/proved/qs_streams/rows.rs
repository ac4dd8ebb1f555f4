// Made from crates/qs_streams/src/rows.rt by rust/erase; not edited by hand.
//! A row of flags for each task. Those of 64 indexes stand side by side, so that a change of one touches one place.
use crate::shim::Vec;

use crate::proved::qs_ranges::{NoMemory, lowest_bit, with_bit};
use crate::shim::alloc::Global;

pub(crate) const ROWS: usize = 22;

pub(crate) const PER_WORD: usize = 64;

pub(crate) struct Rows {
    blocks: Vec<[u64; ROWS]>,
}

impl Rows {
    #[inline]
    pub(crate) fn new(alloc: Global) -> Self {
        Rows {
            blocks: Vec::new(alloc),
        }
    }

    /// How many blocks of 64 indexes there are.
    #[inline(always)]
    pub(crate) fn len(&self) -> usize {
        self.blocks.len()
    }

    /// One block more, without a flag.
    #[inline]
    pub(crate) fn grow(&mut self) -> Result<(), NoMemory> {
        if self.blocks.is_empty() {
            // Most endpoints need no more than one, and a push makes room for four at least.
            self.blocks.reserve_exact(1)?;
        }
        if let Err(_refused) = self.blocks.push([0; ROWS]) {
            return Err(NoMemory);
        }
        Ok(())
    }

    /// The flags of 64 indexes.
    #[inline(always)]
    pub(crate) fn word(&self, row: usize, place: usize) -> u64 {
        debug_assert!(row < 22);
        self.blocks[place][row]
    }

    #[inline(always)]
    pub(crate) fn has(&self, row: usize, index: usize) -> bool {
        debug_assert!(row < 22);
        if index / PER_WORD >= self.blocks.len() {
            return false;
        }
        has_bit(self.word(row, index / PER_WORD), index % PER_WORD)
    }

    /// The least index from one on that has a flag, by a look at each word.
    #[inline]
    pub(crate) fn next(&self, row: usize, from: usize) -> Option<usize> {
        debug_assert!(row < 22);
        let mut bit = from % PER_WORD;
        for place in from / PER_WORD..self.blocks.len() {
            if let Some(found) = lowest_bit(self.word(row, place), bit) {
                return Some(place * PER_WORD + found);
            }
            bit = 0;
        }
        None
    }

    /// Sets a flag or clears it. Answers the word as it was, and as it is.
    #[inline(always)]
    pub(crate) fn turn(&mut self, row: usize, index: usize, is_set: bool) -> (u64, u64) {
        debug_assert!(row < 22);
        let block = &mut self.blocks[index / PER_WORD];
        let was = block[row];
        let is = with_bit(was, index % PER_WORD, is_set);
        block[row] = is;
        (was, is)
    }
}

#[inline(always)]
fn has_bit(word: u64, bit: usize) -> bool {
    debug_assert!(bit < 64);
    (word >> bit) & 1 == 1
}
