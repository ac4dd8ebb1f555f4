// Made from crates/qs_send/src/remaining.rt by rust/erase; not edited by hand.
//! What is left of several pieces.
use crate::shim::Vec;

use crate::proved::qs_send::piece::Piece;

/// The pieces of a vector without the first `start` ones: dropping the first costs no move.
pub(crate) struct Remaining {
    start: usize,
    pieces: Vec<Piece>,
}

impl Remaining {
    #[inline]
    pub(crate) fn new(pieces: Vec<Piece>) -> Self {
        Remaining { start: 0, pieces }
    }

    #[inline]
    pub(crate) fn len(&self) -> usize {
        self.pieces.len() - self.start
    }

    #[inline]
    pub(crate) fn first(&self) -> Option<Piece> {
        match self.pieces.get(self.start) {
            Some(piece) => Some(*piece),
            None => None,
        }
    }

    #[inline]
    pub(crate) fn drop_first(&mut self) {
        self.start += 1;
    }

    #[inline]
    pub(crate) fn has(&self, piece: Piece) -> bool {
        self.pieces[self.start..].contains(&piece)
    }
}
