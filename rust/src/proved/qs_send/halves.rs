// Made from crates/qs_send/src/halves.rt by rust/erase; not edited by hand.
//! The sending halves of the streams of one type, by index. One that is over takes 24 bytes, since it stays for the connection's life.
use crate::shim::Vec;

pub(crate) mod slot;

use crate::proved::qs_send::half::SendHalf;
use crate::proved::qs_send::view::SendView;
use crate::proved::qs_ranges::NoMemory;
use slot::SendSlot;
use crate::shim::alloc::Global;

/// Each half has a slot. One that is over stands in it; the others stand in a vector, and their slots name their places: a half that is
/// over fills its slot, so a box wouldn't fit beside it.
pub struct SendHalves {
    stream_type: u64,
    slots: Vec<SendSlot>,
    full: Vec<SendHalf>,
}

impl SendHalves {
    #[inline]
    pub fn new(alloc: Global, stream_type: u64) -> Self {
        debug_assert!(stream_type < 4);
        SendHalves {
            stream_type,
            slots: Vec::new(alloc),
            full: Vec::new(alloc),
        }
    }

    #[inline(always)]
    pub fn len(&self) -> usize {
        self.slots.len()
    }

    #[inline(always)]
    pub fn at(&self, index: usize) -> SendView<'_> {
        let slot = self.slots[index];
        match slot.written.get() {
            Some(written) => {
                let number = index as u64 * 4 + self.stream_type;
                SendView::of_over(number, written, slot)
            }
            None => SendView::of_full(&self.full[slot.rest as usize]),
        }
    }

    /// A half that isn't over, to be read.
    #[inline(always)]
    pub fn full(&self, index: usize) -> Option<&SendHalf> {
        let slot = self.slots[index];
        if slot.is_over() {
            return None;
        }
        Some(&self.full[slot.rest as usize])
    }

    /// A half that isn't over, to be changed.
    #[inline(always)]
    pub fn full_mut(&mut self, index: usize) -> Option<&mut SendHalf> {
        let none = self.full.len();
        let place = self.slots[index].place_or(none);
        self.full.get_mut(place)
    }

    #[inline]
    pub fn push(&mut self, half: SendHalf) -> Result<(), NoMemory> {
        let slot = SendSlot::full(self.full.len());
        if let Err(_refused) = self.full.push(half) {
            return Err(NoMemory);
        }
        if let Err(_refused) = self.slots.push(slot) {
            let _half = self.full.pop();
            return Err(NoMemory);
        }
        Ok(())
    }

    /// Takes the halves from a count on away: an opening that found no memory for the rest is undone.
    #[inline]
    pub fn truncate(&mut self, count: usize) {
        while self.slots.len() > count {
            let last = self.slots.len() - 1;
            put_over(&mut self.slots, &mut self.full, last, SendSlot::none());
            self.slots.truncate(last);
        }
    }

    /// Keeps a half in its slot if it is over. That takes no memory, and frees some.
    #[inline]
    pub fn settle(&mut self, index: usize) {
        let slot = self.slots[index];
        if slot.is_over() {
            return;
        }
        let half = &self.full[slot.rest as usize];
        let Some(over) = half.over(index as u64 * 4 + self.stream_type) else {
            return;
        };
        put_over(&mut self.slots, &mut self.full, index, over);
    }

    #[inline]
    pub fn allow(&mut self, index: usize, limit: u64) {
        debug_assert!(limit <= 0x3fff_ffff_ffff_ffff);
        let slot = &mut self.slots[index];
        if !slot.is_over() {
            self.full[slot.rest as usize].allow(limit);
            return;
        }
        let now = slot.rest / 2;
        slot.rest = now.max(limit) * 2 + slot.rest % 2;
    }

    #[inline]
    pub fn set_buffer(&mut self, index: usize, size: u32) {
        let slot = &mut self.slots[index];
        if !slot.is_over() {
            self.full[slot.rest as usize].set_buffer(size);
            return;
        }
        slot.buffer = size;
        slot.widest = slot.widest.max(size);
    }

    #[inline]
    pub fn note_blocked(&mut self, index: usize) {
        let slot = &mut self.slots[index];
        if !slot.is_over() {
            self.full[slot.rest as usize].note_blocked();
            return;
        }
        slot.rest = slot.rest / 2 * 2 + 1;
    }
}

// The last half moves to the place that gets free, so that the vector has no holes. Its slot has to name that, so nothing changes if the
// half's number doesn't lead to the slot.
fn put_over(slots: &mut Vec<SendSlot>, full: &mut Vec<SendHalf>, index: usize, over: SendSlot) {
    let slot = slots[index];
    if slot.is_over() {
        return;
    }
    let place = slot.rest as usize;
    let last = full.len() - 1;
    let owner = full[last].index() as usize;
    if owner >= slots.len() {
        return;
    }
    let mut moved = slots[owner];
    if moved.is_over() || moved.rest as usize != last {
        return;
    }
    moved.rest = slot.rest;
    slots[owner] = moved;
    slots[index] = over;
    full.swap_remove(place);
}
