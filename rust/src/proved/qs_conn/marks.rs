// Made from crates/qs_conn/src/marks.rt by rust/erase; not edited by hand.
//! Which streams of one type may have something to send or to tell.

use crate::proved::qs_conn::bits::{Bits, Both, FLAGS_PER_WORD, Left, Row};
use crate::proved::qs_conn::told_streams::ToldMarks;
use crate::proved::qs_ranges::{NoMemory, lowest_bit};
use crate::proved::qs_streams::index_from;
use crate::shim::alloc::Global;

/// A mark for each index of the streams of one type, and a flag for each word of marks that has one: so a search looks at one word of flags
/// for 4,096 indexes without a mark, and at none if no index has one.
pub(crate) struct Marks {
    marks: Bits,
    // A word without a flag has no mark.
    words: Bits,
    // The least one with a mark.
    first: Option<usize>,
    // No index past it has a mark.
    last: usize,
}

impl Marks {
    #[inline]
    pub(crate) fn new(alloc: Global) -> Self {
        Marks {
            marks: Bits::new(alloc),
            words: Bits::new(alloc),
            first: None,
            last: 0,
        }
    }

    /// Whether some index has a mark.
    #[inline(always)]
    pub(crate) fn may_have(&self) -> bool {
        self.first.is_some()
    }

    #[inline]
    pub(crate) fn has(&self, index: usize) -> bool {
        self.marks.has(index)
    }

    #[inline]
    pub(crate) fn len(&self) -> usize {
        self.marks.len()
    }

    #[inline]
    pub(crate) fn bits(&self) -> &Bits {
        &self.marks
    }

    #[inline]
    pub(crate) fn open_to(&mut self, count: usize) -> Result<(), NoMemory> {
        debug_assert!(count <= 1 << 60);
        if count <= self.len() {
            return Ok(());
        }
        // More words than there are marks for sum up the same marks.
        self.words.open_to(count.div_ceil(FLAGS_PER_WORD))?;
        self.marks.open_to(count)
    }

    /// Takes away the indexes from one on, none of which is marked.
    #[inline]
    pub(crate) fn close_to(&mut self, count: usize) {
        self.marks.close_to(count);
    }

    /// Makes room for an index, where all below it have room. It comes in blocks, so that mostly it is there.
    #[inline(always)]
    pub(crate) fn make_room(&mut self, index: usize) -> Result<(), NoMemory> {
        debug_assert!(index < 1 << 60);
        if index % FLAGS_PER_WORD > 0 {
            return Ok(());
        }
        self.open_to(index + FLAGS_PER_WORD)
    }

    /// Takes away each mark from an index on.
    #[inline]
    pub(crate) fn clear_from(&mut self, count: usize) {
        for index in count..self.len() {
            self.set(index, false);
        }
    }

    /// Where there is room for the index: past it none is marked.
    #[inline(always)]
    pub(crate) fn set(&mut self, index: usize, is_marked: bool) {
        // Most marks stay as they are.
        if self.marks.has(index) == is_marked {
            return;
        }
        if is_marked {
            self.turn_on(index);
        } else {
            self.turn_off(index);
        }
    }

    // Both apart, so that a caller that changes nothing pays for one look at the mark.
    #[inline(never)]
    fn turn_on(&mut self, index: usize) {
        if index >= self.len() {
            return;
        }
        self.marks.set(index, true);
        self.words.set(index / FLAGS_PER_WORD, true);
        self.first = least_index(self.first, index);
        self.last = self.last.max(index);
    }

    #[inline(never)]
    fn turn_off(&mut self, index: usize) {
        self.marks.set(index, false);
        let word = index / FLAGS_PER_WORD;
        self.words.set(word, self.marks.word(word) != 0);
        if self.first == Some(index) {
            self.first = least_left(index, self.last, &self.marks, &self.words);
        }
    }

    #[inline]
    pub(crate) fn next(&self, from: usize) -> Option<usize> {
        match self.first {
            Some(first) if first < from => least_from(from, &self.marks, &self.words),
            first => first,
        }
    }

    /// The same of the streams of a type, by number.
    #[inline]
    pub(crate) fn next_stream(&self, stream_type: usize, from: u64) -> Option<u64> {
        debug_assert!(stream_type < 4);
        debug_assert!(from <= 1 << 62);
        numbered(stream_type, self.next(index_from(stream_type, from)))
    }

    /// The least stream of a type with both marks, by number.
    #[inline(never)]
    pub(crate) fn next_both(&self, others: &Marks, stream_type: usize) -> Option<u64> {
        debug_assert!(stream_type < 4);
        if !self.may_have() {
            return None;
        }
        if !others.may_have() {
            return None;
        }
        let summary = Both {
            marks: &self.words,
            others: &others.words,
        };
        let row = Both {
            marks: &self.marks,
            others: &others.marks,
        };
        numbered(stream_type, search(0, self.marks.words(), &summary, &row))
    }

    /// The least stream of a type from a number on with both marks that wasn't told. If only these marks count, they are both, so that one
    /// search serves all.
    #[inline(always)]
    pub(crate) fn next_untold(
        &self,
        others: &Marks,
        told: &ToldMarks,
        stream_type: usize,
        from: u64,
    ) -> Option<u64> {
        debug_assert!(stream_type < 4);
        debug_assert!(from <= 1 << 62);
        let first = self.first?;
        let below = told.first();
        // Mostly all with a mark were told.
        if self.last < below {
            return None;
        }
        let start = index_from(stream_type, from).max(first).max(below);
        numbered(stream_type, self.least_untold(others, told, start))
    }

    #[inline(always)]
    fn least_untold(&self, others: &Marks, told: &ToldMarks, from: usize) -> Option<usize> {
        let words = Both {
            marks: &self.words,
            others: &others.words,
        };
        let marks = Both {
            marks: &self.marks,
            others: &others.marks,
        };
        let summary = Left {
            shared: words,
            told: told.full(),
        };
        let row = Left {
            shared: marks,
            told: told.bits(),
        };
        search(from, self.marks.words(), &summary, &row)
    }
}

// The stream of a type that has an index.
fn numbered(stream_type: usize, index: Option<usize>) -> Option<u64> {
    debug_assert!(stream_type < 4);
    match index {
        Some(index) => Some((index * 4 + stream_type) as u64),
        None => None,
    }
}

// The lesser of an index and another one, where there is one.
fn least_index(first: Option<usize>, index: usize) -> Option<usize> {
    match first {
        Some(first) => Some(first.min(index)),
        None => Some(index),
    }
}

// The least marked index from one on that has lost its mark. Mostly it was the only one.
fn least_left(index: usize, last: usize, marks: &Bits, words: &Bits) -> Option<usize> {
    if last == index {
        return None;
    }
    least_from(index, marks, words)
}

// The least marked index from an index on. It stands apart, so that where no search is wanted a caller doesn't pay for its room.
#[inline(never)]
fn least_from(from: usize, marks: &Bits, words: &Bits) -> Option<usize> {
    search(from, marks.words(), words, marks)
}

/// The least flag of a row from an index on, within a count of words. In a word without a flag in the summary there is none.
#[inline(always)]
fn search<S: Row, R: Row>(from: usize, words: usize, summary: &S, row: &R) -> Option<usize> {
    debug_assert!(words <= 1 << 58);
    let mut place = from / FLAGS_PER_WORD;
    let mut bit = from % FLAGS_PER_WORD;
    while place < words {
        if let Some(flag) = lowest_bit(row.word(place), bit) {
            return Some(place * FLAGS_PER_WORD + flag);
        }
        place = next_word(place + 1, words, summary);
        bit = 0;
    }
    None
}

// The least word from one on that has a flag in the summary, or one past the last.
#[inline(always)]
fn next_word<S: Row>(from: usize, words: usize, summary: &S) -> usize {
    debug_assert!(words <= 1 << 58);
    let mut bit = from % FLAGS_PER_WORD;
    for place in from / FLAGS_PER_WORD..words.div_ceil(FLAGS_PER_WORD) {
        if let Some(flag) = lowest_bit(summary.word(place), bit) {
            return place * FLAGS_PER_WORD + flag;
        }
        bit = 0;
    }
    from.max(words)
}
