// Made from crates/qs_send/src/by_number.rt by rust/erase; not edited by hand.
//! Records of lost packets by number: a pass over an ACK finds each by one search, and mostly by a look beside the last.
use crate::shim::Vec;

use crate::proved::qs_send::lost_record::{LostRecord, hold};
use crate::proved::qs_send::piece::Piece;
use crate::proved::qs_ranges::NoMemory;
use crate::shim::alloc::Global;
use crate::shim::mem;

/// The records in the order of their numbers, and the memory for the pieces of the next one, so that losing packets one after the other
/// takes none.
pub(crate) struct ByNumber {
    alloc: Global,
    records: Vec<LostRecord>,
    spare: Vec<Piece>,
}

impl ByNumber {
    #[inline]
    pub(crate) fn new(alloc: Global) -> Self {
        ByNumber {
            alloc,
            records: Vec::new(alloc),
            spare: Vec::new(alloc),
        }
    }

    /// Apart from `add`, so that a caller asks for memory before it moves a piece.
    #[inline]
    pub(crate) fn reserve(&mut self, number: u64) -> Result<(), NoMemory> {
        match self.place_of(number) {
            Ok(place) => self.records[place].reserve(),
            Err(_) => self.reserve_record(),
        }
    }

    #[inline]
    pub(crate) fn add(&mut self, number: u64, piece: Piece) {
        match self.place_of(number) {
            Ok(place) => self.records[place].push(piece),
            Err(place) => self.insert(place, number, piece),
        }
    }

    #[inline]
    pub(crate) fn first(&self, number: u64) -> Option<Piece> {
        match self.place_of(number) {
            Ok(place) => self.records[place].first(),
            Err(_) => None,
        }
    }

    #[inline]
    pub(crate) fn drop_first(&mut self, number: u64) {
        if let Ok(place) = self.place_of(number) {
            if self.records[place].is_last() {
                self.remove(number);
            } else {
                self.records[place].drop_first();
            }
        }
    }

    /// Little memory stays for the next record's pieces; much would stay for ever.
    #[inline]
    pub(crate) fn remove(&mut self, number: u64) {
        if let Ok(place) = self.place_of(number) {
            self.spare = self.records.remove(place).emptied();
        }
    }

    #[inline]
    pub(crate) fn is_held(&self, number: u64) -> bool {
        self.place_of(number).is_ok()
    }

    /// Looks at the place `near` first, and leaves there the place of the next one below: a pass goes from high numbers to low.
    #[inline]
    pub(crate) fn below(&self, number: u64, near: &mut usize) -> Option<u64> {
        let records = &self.records;
        let count = self.count_near(number, *near);
        if count == 0 {
            return None;
        }
        *near = count - 1;
        Some(records[count - 1].number())
    }

    // An ACK names runs of numbers, so the next record mostly stands beside the last one, and a search is spared.
    fn count_near(&self, number: u64, near: usize) -> usize {
        if self.parts_at(number, near) {
            return near;
        }
        self.count_below(number)
    }

    fn parts_at(&self, number: u64, count: usize) -> bool {
        let records = &self.records;
        if count > records.len() {
            return false;
        }
        if count > 0 && records[count - 1].number() >= number {
            return false;
        }
        if count < records.len() && records[count].number() < number {
            return false;
        }
        true
    }

    fn count_below(&self, number: u64) -> usize {
        match self.place_of(number) {
            Ok(place) => place,
            Err(place) => place,
        }
    }

    // No search past the last record and at the first: lost packets mostly go in at the back, and the oldest leaves at the front.
    fn place_of(&self, number: u64) -> Result<usize, usize> {
        let records = &self.records;
        let count = records.len();
        if count > 0 && records[count - 1].number() < number {
            return Err(count);
        }
        if count > 0 && records[0].number() == number {
            return Ok(0);
        }
        self.search_for(number)
    }

    #[inline(never)]
    fn search_for(&self, number: u64) -> Result<usize, usize> {
        self.records
            .binary_search_by_key(&number, |record| record.number())
    }

    fn reserve_record(&mut self) -> Result<(), NoMemory> {
        self.records.reserve(1)?;
        self.spare.reserve(1)?;
        Ok(())
    }

    fn insert(&mut self, place: usize, number: u64, piece: Piece) {
        hold(&mut self.spare, piece);
        let pieces = mem::replace(&mut self.spare, Vec::new(self.alloc));
        let _ = self.records.insert(place, LostRecord::new(number, pieces));
    }
}
