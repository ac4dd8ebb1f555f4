// Made from crates/qs_send/src/lost_record.rt by rust/erase; not edited by hand.
use crate::shim::Vec;

use crate::proved::qs_send::piece::Piece;
use crate::proved::qs_ranges::NoMemory;

// The memory for so many pieces goes from one record to the next; more is given back, so that one large packet doesn't make it stay.
const FEW: usize = 4;

/// The pieces of a packet in the order in which they were declared lost. The first `start` are gone, which costs no move.
pub(crate) struct LostRecord {
    number: u64,
    start: usize,
    pieces: Vec<Piece>,
}

impl LostRecord {
    #[inline]
    pub(crate) fn new(number: u64, pieces: Vec<Piece>) -> Self {
        LostRecord {
            number,
            start: 0,
            pieces,
        }
    }

    #[inline(always)]
    pub(crate) fn number(&self) -> u64 {
        self.number
    }

    #[inline]
    pub(crate) fn first(&self) -> Option<Piece> {
        match self.pieces.get(self.start) {
            Some(piece) => Some(*piece),
            None => None,
        }
    }

    #[inline]
    pub(crate) fn is_last(&self) -> bool {
        self.pieces.len() - self.start <= 1
    }

    #[inline]
    pub(crate) fn reserve(&mut self) -> Result<(), NoMemory> {
        self.pieces.reserve(1)?;
        Ok(())
    }

    #[inline]
    pub(crate) fn push(&mut self, piece: Piece) {
        hold(&mut self.pieces, piece);
    }

    /// Empty memory for the next record; none if it is for many, so that it doesn't stay for ever.
    #[inline]
    pub(crate) fn emptied(self) -> Vec<Piece> {
        let mut pieces = self.pieces;
        if pieces.capacity() > FEW {
            return Vec::new(*pieces.allocator());
        }
        pieces.clear();
        pieces
    }

    #[inline]
    pub(crate) fn drop_first(&mut self) {
        self.start += 1;
    }
}

// One more piece, for which there is memory.
#[inline]
pub(crate) fn hold(pieces: &mut Vec<Piece>, piece: Piece) {
    let _ = match piece {
        Piece::Data { stream, chunk } => pieces.push(Piece::Data { stream, chunk }),
        Piece::Told(item) => pieces.push(Piece::Told(item)),
    };
}
