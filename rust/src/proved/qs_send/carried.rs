// Made from crates/qs_send/src/carried.rt by rust/erase; not edited by hand.
use crate::shim::Vec;

use crate::proved::qs_send::piece::Piece;
use crate::proved::qs_send::remaining::Remaining;

/// The pieces of a packet that are neither acknowledged nor lost yet.
pub(crate) struct Carried {
    pieces: Pieces,
}

// Most packets carry one piece: it stands in the value itself, so that a steady flow takes no memory for it.
enum Pieces {
    Empty,
    One(Piece),
    Several(Remaining),
}

impl Carried {
    #[inline]
    pub(crate) fn empty() -> Self {
        Carried {
            pieces: Pieces::Empty,
        }
    }

    #[inline]
    pub(crate) fn one(piece: Piece) -> Self {
        Carried {
            pieces: Pieces::One(piece),
        }
    }

    /// With their memory, so that putting them into a record takes none.
    #[inline]
    pub(crate) fn several(pieces: Vec<Piece>) -> Self {
        Carried {
            pieces: Pieces::Several(Remaining::new(pieces)),
        }
    }

    #[inline]
    pub(crate) fn len(&self) -> usize {
        match &self.pieces {
            Pieces::Empty => 0,
            Pieces::One(_) => 1,
            Pieces::Several(pieces) => pieces.len(),
        }
    }

    #[inline]
    pub(crate) fn first(&self) -> Option<Piece> {
        match &self.pieces {
            Pieces::Empty => None,
            Pieces::One(piece) => Some(*piece),
            Pieces::Several(pieces) => pieces.first(),
        }
    }

    /// The piece where there is one alone.
    #[inline]
    pub(crate) fn only(&self) -> Option<Piece> {
        if self.len() != 1 {
            return None;
        }
        self.first()
    }

    #[inline]
    pub(crate) fn drop_first(&mut self) {
        if self.len() <= 1 {
            self.pieces = Pieces::Empty;
            return;
        }
        if let Pieces::Several(pieces) = &mut self.pieces {
            pieces.drop_first();
        }
    }

    #[inline]
    pub(crate) fn has(&self, piece: Piece) -> bool {
        match &self.pieces {
            Pieces::Empty => false,
            Pieces::One(one) => *one == piece,
            Pieces::Several(pieces) => pieces.has(piece),
        }
    }
}
