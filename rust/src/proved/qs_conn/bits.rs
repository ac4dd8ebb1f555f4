// Made from crates/qs_conn/src/bits.rt by rust/erase; not edited by hand.
//! Flags of indexes, as bits of words.
use crate::shim::Vec;

use crate::proved::qs_ranges::{NoMemory, with_bit};
use crate::shim::alloc::Global;

pub(crate) const FLAGS_PER_WORD: usize = 64;

/// A flag for each index. A search looks at a word of them at a time.
pub(crate) struct Bits {
    words: Vec<u64>,
    count: usize,
}

impl Bits {
    #[inline]
    pub(crate) fn new(alloc: Global) -> Self {
        Bits {
            words: Vec::new(alloc),
            count: 0,
        }
    }

    #[inline]
    pub(crate) fn len(&self) -> usize {
        self.count
    }

    /// How many words they take.
    #[inline]
    pub(crate) fn words(&self) -> usize {
        self.words.len()
    }

    #[inline(always)]
    pub(crate) fn open_to(&mut self, count: usize) -> Result<(), NoMemory> {
        if count <= self.count {
            return Ok(());
        }
        // Mostly the last word has room.
        if (count - 1) / FLAGS_PER_WORD < self.words.len() {
            self.count = count;
            return Ok(());
        }
        self.grow_to(count)
    }

    #[inline(never)]
    fn grow_to(&mut self, count: usize) -> Result<(), NoMemory> {
        let words = count.div_ceil(FLAGS_PER_WORD).max(self.words.len());
        match self.words.resize(words, 0) {
            Ok(()) => {
                self.count = count;
                Ok(())
            }
            Err(_refused) => Err(NoMemory),
        }
    }

    /// Takes away the flags from an index on, none of which is set.
    #[inline]
    pub(crate) fn close_to(&mut self, count: usize) {
        if count < self.count {
            self.words.truncate(count.div_ceil(FLAGS_PER_WORD));
            self.count = count;
        }
    }

    #[inline(always)]
    pub(crate) fn has(&self, index: usize) -> bool {
        let word = self.word(index / FLAGS_PER_WORD);
        has_bit(word, index % FLAGS_PER_WORD)
    }

    #[inline(always)]
    pub(crate) fn set(&mut self, index: usize, is_marked: bool) {
        let place = index / FLAGS_PER_WORD;
        self.words[place] = with_bit(self.words[place], index % FLAGS_PER_WORD, is_marked);
    }
}

/// Flags that are read a word at a time.
pub(crate) trait Row {
    /// The flags of 64 indexes: past the last one none is set.
    fn word(&self, place: usize) -> u64;
}

impl Row for Bits {
    #[inline(always)]
    fn word(&self, place: usize) -> u64 {
        if place >= self.words.len() {
            return 0;
        }
        self.words[place]
    }
}

/// The flags that two rows share.
pub(crate) struct Both<'a> {
    pub(crate) marks: &'a Bits,
    pub(crate) others: &'a Bits,
}

impl Row for Both<'_> {
    fn word(&self, place: usize) -> u64 {
        self.marks.word(place) & self.others.word(place)
    }
}

/// The same, without those of a third one.
pub(crate) struct Left<'a> {
    pub(crate) shared: Both<'a>,
    pub(crate) told: &'a Bits,
}

impl Row for Left<'_> {
    fn word(&self, place: usize) -> u64 {
        self.shared.word(place) & !self.told.word(place)
    }
}

#[inline(always)]
fn has_bit(word: u64, bit: usize) -> bool {
    debug_assert!(bit < 64);
    (word >> bit) & 1 == 1
}
