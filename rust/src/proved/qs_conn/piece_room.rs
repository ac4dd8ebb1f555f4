// Made from crates/qs_conn/src/piece_room.rt by rust/erase; not edited by hand.
//! Memory for the pieces of a packet of several.
use crate::shim::Vec;

use crate::proved::qs_ranges::NoMemory;
use crate::proved::qs_send::Piece;
use crate::shim::alloc::Global;
use crate::shim::mem;

// What a packet mostly carries.
const FEW: usize = 4;

/// Memory that is taken before a packet is filled, so that a refusal changes nothing and its record takes none: for about as many pieces as
/// packets carried lately.
pub(crate) struct PieceRoom {
    empty: Vec<Piece>,
    expected: usize,
}

impl PieceRoom {
    #[inline]
    pub(crate) fn new(alloc: Global) -> Self {
        PieceRoom {
            empty: Vec::new(alloc),
            expected: FEW,
        }
    }

    /// With some to spare, so that packets of growing count don't each take memory.
    #[inline]
    pub(crate) fn prepare(&mut self) -> Result<(), NoMemory> {
        self.empty
            .reserve(self.expected.saturating_add(self.expected / 4))?;
        Ok(())
    }

    /// In the memory that was taken, so that the buffer serves the next packet, too. If there are more pieces than that has room for, the
    /// buffer itself goes, and the next packet takes another.
    #[inline]
    pub(crate) fn hand_over(&mut self, buffer: &mut Vec<Piece>) -> Vec<Piece> {
        let count = buffer.len();
        let alloc = *buffer.allocator();
        self.expected = count.max(self.expected.saturating_sub(1));
        self.empty.clear();
        if count <= self.empty.capacity() && self.empty.extend_from_slice(buffer).is_ok() {
            buffer.clear();
            return mem::replace(&mut self.empty, Vec::new(alloc));
        }
        mem::replace(buffer, Vec::new(alloc))
    }
}
