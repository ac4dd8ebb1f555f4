// Made from crates/qs_conn/src/by_dir.rt by rust/erase; not edited by hand.
//! What there is of each direction of streams.

use crate::proved::qs_conn::endpoint::is_uni;
use crate::proved::qs_wire::{Dir, StreamId};

/// One of each direction of streams (RFC 9000, section 2.1): what is said of one direction is so written once.
#[derive(Clone, Copy)]
pub(crate) struct ByDir<T> {
    pub bidi: T,
    pub uni: T,
}

impl<T: Copy> ByDir<T> {
    #[inline]
    pub(crate) fn new(bidi: T, uni: T) -> Self {
        ByDir { bidi, uni }
    }

    #[inline(always)]
    pub(crate) fn of(&self, dir: Dir) -> T {
        match dir {
            Dir::Bidi => self.bidi,
            Dir::Uni => self.uni,
        }
    }

    #[inline]
    pub(crate) fn set(&mut self, dir: Dir, value: T) {
        match dir {
            Dir::Bidi => self.bidi = value,
            Dir::Uni => self.uni = value,
        }
    }
}

// Counted as streams change, since counts of streams follow it at every call (RFC 9000, sections 3 and 4.6).
impl ByDir<u64> {
    #[inline]
    pub(crate) fn is_same(&self, other: ByDir<u64>) -> bool {
        self.bidi == other.bidi && self.uni == other.uni
    }

    /// What the stream added before goes, so that it isn't counted twice. Modulo 2^64: whoever asks knows that the counts fit.
    #[inline]
    pub(crate) fn recount(&mut self, stream: StreamId, was: bool, is: bool) {
        if is_uni(stream) {
            self.uni = moved(self.uni, was, is);
        } else {
            self.bidi = moved(self.bidi, was, is);
        }
    }
}

fn moved(count: u64, was: bool, is: bool) -> u64 {
    count
        .wrapping_add(u64::from(is))
        .wrapping_sub(u64::from(was))
}
