// Made from crates/qs_send/src/records.rt by rust/erase; not edited by hand.
//! What the outstanding packets carried.
use crate::shim::Vec;

use crate::proved::qs_send::ack_pass::one_more;
use crate::proved::qs_send::carried::Carried;
use crate::proved::qs_send::gone::{self, Gone};
use crate::proved::qs_send::piece::Piece;
use crate::proved::qs_ranges::NoMemory;
use crate::shim::alloc::Global;
use crate::shim::collections::VecDeque;

/// The pieces of each outstanding packet, in the order in which they went in, by packet number (RFC 9000, section 13.3).
///
/// Each number from `base` on has a slot, so a record is found in constant time. A slot is empty if its packet carried nothing or is done:
/// one packet that stays outstanding while many later ones come and go keeps a slot for each of those.
pub struct Records {
    base: u64,
    slots: VecDeque<Carried>,
    // Hints as bits, of which the first is that of number `first`: a search looks at one word for 64 slots, and at one for 4,096 that are
    // empty. A slot without a bit, for want of memory, is looked at itself.
    first: u64,
    gone: Gone,
}

impl Records {
    #[inline]
    pub fn new(alloc: Global) -> Self {
        Records {
            base: 0,
            slots: VecDeque::new(alloc),
            first: 0,
            gone: Gone::new(alloc),
        }
    }

    /// Makes room for the record of a number, which stays until a `put`: before a packet is filled, so that a refusal changes nothing.
    #[inline]
    pub fn make_room(&mut self, number: u64) -> Result<(), NoMemory> {
        if self.slots.is_empty() {
            self.slots.reserve(1)?;
            self.base = number;
            self.first = number;
            self.gone.clear();
            self.gone.make_room(0);
            return Ok(());
        }
        let place = number.saturating_sub(self.base) as usize;
        if place < self.slots.len() {
            return Ok(());
        }
        let more = place - self.slots.len() + 1;
        self.slots.reserve(more)?;
        self.gone.make_room((number - self.first) as usize);
        Ok(())
    }

    /// Holds the pieces of a packet, which come with their memory, so it takes none.
    #[inline]
    pub fn put(&mut self, number: u64, pieces: Vec<Piece>) {
        self.end_at(number);
        self.push_slot(Carried::several(pieces));
    }

    /// Holds the one piece of a packet in its slot: with a vector for each, a steady flow of one stream cost a seventh more time.
    #[inline]
    pub fn put_one(&mut self, number: u64, piece: Piece) {
        self.end_at(number);
        self.push_slot(Carried::one(piece));
    }

    #[inline]
    pub fn first(&self, number: u64) -> Option<Piece> {
        match self.slot_of(number) {
            Some(place) => self.slots[place].first(),
            None => None,
        }
    }

    /// The piece of a packet of which one alone is left.
    #[inline]
    pub fn only(&self, number: u64) -> Option<Piece> {
        match self.slot_of(number) {
            Some(place) => self.slots[place].only(),
            None => None,
        }
    }

    /// Drops the first piece of a packet, and the record with the last. If the number isn't held, nothing changes.
    #[inline]
    pub fn drop_first(&mut self, number: u64) {
        if let Some(place) = self.slot_of(number) {
            self.slots[place].drop_first();
            self.note(place);
        }
    }

    /// Drops the empty slots before the first record. After an ACK or a loss, and not as records go: a pass that goes on keeps its places.
    #[inline]
    pub fn trim(&mut self) {
        while self.starts_empty() {
            self.drop_front();
            self.drop_group();
        }
    }

    #[inline]
    pub fn holds(&self, piece: Piece) -> bool {
        some_has(&self.slots, piece)
    }

    #[inline]
    pub fn is_held(&self, number: u64) -> bool {
        match self.slot_of(number) {
            Some(place) => self.is_filled(place),
            None => false,
        }
    }

    #[inline]
    pub fn greatest(&self) -> Option<u64> {
        self.last_of(self.slots.len())
    }

    /// The greatest number below `number` that is held.
    #[inline]
    pub fn below(&self, number: u64) -> Option<u64> {
        let count = number.saturating_sub(self.base) as usize;
        self.last_of(count.min(self.slots.len()))
    }

    /// The number of the first slot. No lower one is held.
    #[inline]
    pub fn base(&self) -> u64 {
        self.base
    }

    /// Each look is counted in `looks`: at a word of bits, with the word of words and the slot that it leads to, or at a slot without a
    /// bit.
    #[inline]
    pub(crate) fn within(&self, low: u64, below: u64, looks: &mut u64) -> Option<u64> {
        let from = low.saturating_sub(self.base) as usize;
        let below = below.saturating_sub(self.base) as usize;
        let count = below.min(self.slots.len());
        if self.slots.len() < gone::PER_WORD {
            return self.last_looked_at(from, count, looks);
        }
        self.last_from(from, count, looks)
    }

    fn slot_of(&self, number: u64) -> Option<usize> {
        if number < self.base {
            return None;
        }
        let place = (number - self.base) as usize;
        if place < self.slots.len() {
            Some(place)
        } else {
            None
        }
    }

    fn last_of(&self, count: usize) -> Option<u64> {
        let _slots = &self.slots;
        self.last_from(0, count, &mut 0)
    }

    #[inline(always)]
    fn last_from(&self, from: usize, count: usize, looks: &mut u64) -> Option<u64> {
        let mut place = count;
        while place > from {
            let end = self.end_of_left(from, place, looks);
            if end <= from {
                return None;
            }
            place = end - 1;
            if self.is_filled(place) {
                return Some(self.base + place as u64);
            }
        }
        None
    }

    fn last_looked_at(&self, from: usize, count: usize, looks: &mut u64) -> Option<u64> {
        let mut place = count;
        while place > from {
            *looks = one_more(*looks);
            place -= 1;
            if self.is_filled(place) {
                return Some(self.base + place as u64);
            }
        }
        None
    }

    // As low as the bits permit, down to `from`. Each look is counted, also that at the slot before the end.
    fn end_of_left(&self, from: usize, count: usize, looks: &mut u64) -> usize {
        debug_assert!(from < count);
        let skew = (self.base - self.first) as usize;
        match skew.checked_add(count) {
            Some(end) => self
                .gone
                .end_of_left(skew + from, end, looks)
                .saturating_sub(skew),
            None => {
                *looks = one_more(*looks);
                count
            }
        }
    }

    // No clause sees the note, which is a hint. Of few slots each is looked at itself, so that a short queue pays for no bits.
    fn note(&mut self, place: usize) {
        if self.slots.len() >= gone::PER_WORD && !self.is_filled(place) {
            let skew = (self.base - self.first) as usize;
            self.gone.note(skew + place);
        }
    }

    fn is_filled(&self, place: usize) -> bool {
        self.slots[place].len() > 0
    }

    // In groups, so that bits move along by whole words. No clause sees it.
    fn drop_group(&mut self) {
        if self.base - self.first >= gone::PER_GROUP as u64 {
            self.gone.drop_group();
            self.first += gone::PER_GROUP as u64;
        }
    }

    fn starts_empty(&self) -> bool {
        match self.slots.front() {
            Some(slot) => slot.len() == 0,
            None => false,
        }
    }

    fn drop_front(&mut self) {
        drop(self.slots.pop_front());
        if !self.slots.is_empty() {
            self.base += 1;
        }
    }

    fn end_at(&mut self, number: u64) {
        if !self.ends_at(number) {
            self.move_end(number);
        }
    }

    // Mostly so, since packets are numbered one after the other.
    fn ends_at(&self, number: u64) -> bool {
        number >= self.base && number - self.base == self.slots.len() as u64
    }

    #[inline(never)]
    fn move_end(&mut self, number: u64) {
        self.drop_from(number);
        self.start_at(number);
        self.fill_to(number);
    }

    // Mostly there are none: a number that was claimed, or an ACK alone, left them.
    fn drop_from(&mut self, number: u64) {
        while self.ends_past(number) {
            self.drop_back();
        }
    }

    fn ends_past(&self, number: u64) -> bool {
        number.saturating_sub(self.base) < self.slots.len() as u64
    }

    fn drop_back(&mut self) {
        drop(self.slots.pop_back());
    }

    // Otherwise the slots of all numbers since would be filled in, empty.
    fn start_at(&mut self, number: u64) {
        if self.slots.is_empty() {
            self.base = number;
            self.first = number;
            self.gone.clear();
        }
    }

    fn fill_to(&mut self, number: u64) {
        while self.ends_before(number) {
            let place = self.slots.len();
            self.push_slot(Carried::empty());
            self.note(place);
        }
    }

    fn ends_before(&self, number: u64) -> bool {
        self.slots.len() < (number - self.base) as usize
    }

    fn push_slot(&mut self, slot: Carried) {
        let index = (self.base - self.first) as usize + self.slots.len();
        self.gone.begin(index);
        self.slots.push_back_reserved(slot);
    }
}

fn some_has(slots: &VecDeque<Carried>, piece: Piece) -> bool {
    slots.iter().any(|slot| slot.has(piece))
}
