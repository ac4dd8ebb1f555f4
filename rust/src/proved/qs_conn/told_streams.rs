// Made from crates/qs_conn/src/told_streams.rt by rust/erase; not edited by hand.
//! Which streams were reported to the application.

use crate::proved::qs_conn::bits::{Bits, FLAGS_PER_WORD, Row};
use crate::proved::qs_conn::marks::Marks;
use crate::proved::qs_ranges::{NoMemory, lowest_bit};
use crate::proved::qs_streams::{index_of, type_of};
use crate::proved::qs_wire::StreamId;
use crate::shim::alloc::Global;

/// A mark for each stream that was reported, by type and index. One without a place wasn't, so marks take memory only up to the highest.
pub(crate) struct ToldStreams {
    // In the order of the two lowest bits of a stream's number.
    types: [ToldMarks; 4],
}

impl ToldStreams {
    #[inline]
    pub(crate) fn new(alloc: Global) -> Self {
        ToldStreams {
            types: [
                ToldMarks::new(alloc),
                ToldMarks::new(alloc),
                ToldMarks::new(alloc),
                ToldMarks::new(alloc),
            ],
        }
    }

    #[inline]
    pub(crate) fn has(&self, stream: StreamId) -> bool {
        let marks = &self.types[type_of(stream)];
        marks.has(index_of(stream))
    }

    /// Memory only for the highest stream of its type so far.
    #[inline]
    pub(crate) fn tell(&mut self, stream: StreamId) -> Result<(), NoMemory> {
        let marks = &mut self.types[type_of(stream)];
        marks.tell(index_of(stream))
    }

    /// The same here and among others, or nowhere.
    #[inline]
    pub(crate) fn tell_both(
        &mut self,
        others: &mut ToldStreams,
        stream: StreamId,
    ) -> Result<(), NoMemory> {
        let marks = &mut self.types[type_of(stream)];
        let beside = &mut others.types[type_of(stream)];
        marks.tell_both(beside, index_of(stream))
    }

    #[inline]
    pub(crate) fn forget(&mut self, stream: StreamId) {
        let marks = &mut self.types[type_of(stream)];
        marks.forget(index_of(stream));
    }

    /// A flag, so that mostly nothing is searched.
    #[inline(always)]
    pub(crate) fn may_have(&self) -> bool {
        if self.types[0].may_have() {
            return true;
        }
        if self.types[1].may_have() {
            return true;
        }
        if self.types[2].may_have() {
            return true;
        }
        self.types[3].may_have()
    }

    #[inline]
    pub(crate) fn of_type(&self, stream_type: usize) -> &ToldMarks {
        debug_assert!(stream_type < 4);
        &self.types[stream_type]
    }
}

/// A mark for each index, and a flag for each word of marks of which every index has one: so a search for what wasn't reported passes 4,096
/// that were by one look.
pub(crate) struct ToldMarks {
    marks: Marks,
    // Each index of a word with a flag is marked.
    full: Bits,
    // Each word below it has a flag: a search passes what was told long ago at once.
    first: usize,
}

impl ToldMarks {
    #[inline]
    pub(crate) fn new(alloc: Global) -> Self {
        ToldMarks {
            marks: Marks::new(alloc),
            full: Bits::new(alloc),
            first: 0,
        }
    }

    #[inline]
    pub(crate) fn len(&self) -> usize {
        self.marks.len()
    }

    #[inline]
    pub(crate) fn has(&self, index: usize) -> bool {
        self.bits().has(index)
    }

    #[inline]
    pub(crate) fn open_to(&mut self, count: usize) -> Result<(), NoMemory> {
        debug_assert!(count <= 1 << 60);
        if count <= self.marks.len() {
            return Ok(());
        }
        // More flags than there are words of marks say the same of the same words.
        self.full.open_to(count.div_ceil(FLAGS_PER_WORD))?;
        self.marks.open_to(count)
    }

    // Takes away what `open_to` gave.
    fn close_to(&mut self, count: usize) {
        self.marks.close_to(count);
    }

    #[inline]
    pub(crate) fn set(&mut self, index: usize, is_marked: bool) {
        if self.marks.has(index) == is_marked {
            return;
        }
        self.marks.set(index, is_marked);
        let word = index / FLAGS_PER_WORD;
        if !is_marked {
            self.full.set(word, false);
            self.first = self.first.min(word);
        } else if self.marks.bits().word(word) == u64::MAX {
            self.full.set(word, true);
            if self.first == word {
                self.first = word + 1;
            }
        }
    }

    #[inline(always)]
    pub(crate) fn may_have(&self) -> bool {
        self.marks.may_have()
    }

    /// Room up to it: memory is taken only past the last.
    #[inline]
    pub(crate) fn tell(&mut self, index: usize) -> Result<(), NoMemory> {
        debug_assert!(index < 1 << 60);
        self.open_to(index + 1)?;
        self.set(index, true);
        Ok(())
    }

    /// The same here and among others, or nowhere.
    #[inline]
    pub(crate) fn tell_both(&mut self, others: &mut ToldMarks, index: usize) -> Result<(), NoMemory> {
        debug_assert!(index < 1 << 60);
        let count = others.len();
        others.open_to(index + 1)?;
        if let Err(refused) = self.tell(index) {
            others.close_to(count);
            return Err(refused);
        }
        others.set(index, true);
        Ok(())
    }

    #[inline]
    pub(crate) fn forget(&mut self, index: usize) {
        if index < self.len() {
            self.set(index, false);
        }
    }

    #[inline]
    pub(crate) fn marks(&self) -> &Marks {
        &self.marks
    }

    #[inline]
    pub(crate) fn bits(&self) -> &Bits {
        self.marks.bits()
    }

    #[inline]
    pub(crate) fn full(&self) -> &Bits {
        &self.full
    }

    /// An index below which each was told.
    #[inline]
    pub(crate) fn first(&self) -> usize {
        let untold = !self.bits().word(self.first);
        let below = lowest_bit(untold, 0).unwrap_or(FLAGS_PER_WORD);
        self.first
            .saturating_mul(FLAGS_PER_WORD)
            .saturating_add(below)
    }
}
