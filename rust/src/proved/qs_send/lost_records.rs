// Made from crates/qs_send/src/lost_records.rt by rust/erase; not edited by hand.
//! What the packets carried that were declared lost.

use crate::proved::qs_send::by_number::ByNumber;
use crate::proved::qs_send::piece::Piece;
use crate::proved::qs_ranges::NoMemory;
use crate::shim::alloc::Global;
use crate::shim::collections::VecDeque;

/// An ACK may come late for any of them, and a bound keeps a peer that acknowledges nothing from holding memory.
const MOST: usize = 256;

/// The pieces of each packet that was declared lost, by packet number: a late ACK may still name it (RFC 9000, section 13.2.1).
///
/// The 256 latest stay, by the order in which they were first declared lost: that is the order in which their ACKs stop being likely.
pub struct LostRecords {
    list: ByNumber,
    order: VecDeque<u64>,
    ready: Option<u64>,
}

impl LostRecords {
    #[inline]
    pub fn new(alloc: Global) -> Self {
        LostRecords {
            list: ByNumber::new(alloc),
            order: VecDeque::new(alloc),
            ready: None,
        }
    }

    /// Makes room for one more piece of a packet, in the place of the room made before. Unchanged if memory was refused.
    #[inline]
    pub fn make_room(&mut self, number: u64) -> Result<(), NoMemory> {
        self.order.reserve(1)?;
        self.list.reserve(number)?;
        self.ready = Some(number);
        Ok(())
    }

    /// Holds one more piece of a packet. If that makes one packet too many, the oldest goes. It takes no memory.
    #[inline]
    pub fn add(&mut self, number: u64, piece: Piece) {
        self.ready = None;
        let held = self.list.is_held(number);
        note(&mut self.order, number, held);
        self.list.add(number, piece);
        drop_oldest(&mut self.order, &mut self.list);
    }

    #[inline]
    pub fn first(&self, number: u64) -> Option<Piece> {
        self.list.first(number)
    }

    /// Drops the first piece of a packet, and the record with the last. Room that was made may go too: it may have been the packet's own
    /// memory.
    #[inline]
    pub fn drop_first(&mut self, number: u64) {
        self.ready = None;
        self.list.drop_first(number);
        if !self.list.is_held(number) {
            forget(&mut self.order, number);
        }
    }

    #[inline]
    pub fn is_held(&self, number: u64) -> bool {
        self.list.is_held(number)
    }

    /// The greatest number below `number` that is held.
    #[inline]
    pub fn below(&self, number: u64) -> Option<u64> {
        let mut near = 0;
        self.below_near(number, &mut near)
    }

    /// For a pass from high numbers to low ones: `near` is where the search begins, and goes from call to call.
    #[inline]
    pub(crate) fn below_near(&self, number: u64, near: &mut usize) -> Option<u64> {
        self.list.below(number, near)
    }

    #[inline(always)]
    pub fn len(&self) -> usize {
        self.order.len()
    }

}

fn note(order: &mut VecDeque<u64>, number: u64, held: bool) {
    if !held {
        order.push_back_reserved(number);
    }
}

fn drop_oldest(order: &mut VecDeque<u64>, list: &mut ByNumber) {
    if order.len() > MOST {
        if let Some(oldest) = order.pop_front() {
            list.remove(oldest);
        }
    }
}

fn forget(order: &mut VecDeque<u64>, number: u64) {
    order.retain(|k| *k != number);
}
