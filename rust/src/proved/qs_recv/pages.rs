// Made from crates/qs_recv/src/pages.rt by rust/erase; not edited by hand.
//! Bytes that lie far past a ring, in pages of their own. A ring that reached to them would fill the hole before them: two bytes, one at
//! the front and one half a window on, would write half a window.
use crate::shim::Vec;

use crate::proved::qs_recv::ring::{Ring, is_at, write_at};
use crate::proved::qs_ranges::{NoMemory, reserve};
use crate::shim::alloc::Global;
use crate::shim::collections::BTreeMap;

// Small, since a peer may send one byte for each page; and large enough that few notes are needed. A list of pieces of any length would
// cost some hundred bytes for each byte that comes alone, and a table by offset would grow with the window. With fewer than 2,044 an idle
// ring of 4,096 and two pages would take more than four times what their bytes span.
pub(crate) const PAGE: u64 = 2048;

/// Each page by its number: the offsets that it has, divided by a page's size.
pub(crate) struct Pages {
    pages: BTreeMap<u64, Vec<u8>>,
}

impl Pages {
    #[inline]
    pub(crate) fn none(alloc: Global) -> Self {
        Pages {
            pages: BTreeMap::new(alloc),
        }
    }

    #[inline(always)]
    pub(crate) fn is_empty(&self) -> bool {
        self.pages.is_empty()
    }

    #[inline]
    pub(crate) fn count(&self) -> u64 {
        self.pages.len() as u64
    }

    /// Takes them before any byte is written, so that a refusal leaves what was stored as it was.
    #[inline]
    pub(crate) fn make(&mut self, alloc: Global, from: u64, to: u64) -> Result<(), NoMemory> {
        debug_assert!(to <= 0x3fff_ffff_ffff_ffff);
        let mut number = from / PAGE;
        while number * PAGE < to {
            if !self.pages.contains_key(&number) {
                let page = zeros(alloc)?;
                self.pages.insert(number, page)?;
            }
            number += 1;
        }
        Ok(())
    }

    #[inline]
    pub(crate) fn give_back(&mut self, from: u64, to: u64) {
        debug_assert!(to <= 0x3fff_ffff_ffff_ffff);
        let mut number = from / PAGE;
        while number * PAGE < to {
            if from <= number * PAGE {
                let _page = self.pages.remove(&number);
            }
            number += 1;
        }
    }

    #[inline]
    pub(crate) fn write(&mut self, at: u64, bytes: &[u8]) {
        let mut done = 0;
        while done < bytes.len() {
            let from = at + done as u64;
            let place = (from % PAGE) as usize;
            let count = (bytes.len() - done).min(PAGE as usize - place);
            match self.pages.get_mut(&(from / PAGE)) {
                Some(page) => write_at(page, place, &bytes[done..done + count]),
                None => {}
            }
            done += count;
        }
    }

    #[inline]
    pub(crate) fn are_at(&self, at: u64, bytes: &[u8]) -> bool {
        let mut done = 0;
        while done < bytes.len() {
            let from = at + done as u64;
            let place = (from % PAGE) as usize;
            let count = (bytes.len() - done).min(PAGE as usize - place);
            match self.pages.get(&(from / PAGE)) {
                Some(page) => {
                    if !is_at(page, place, &bytes[done..done + count]) {
                        return false;
                    }
                }
                None => {}
            }
            done += count;
        }
        true
    }

    /// Pages move into the ring up to there: what is next to be read always stands in the ring, so a read needs no look at the pages.
    #[inline]
    pub(crate) fn gap_past(&self, at: u64, end: u64) -> u64 {
        debug_assert!(end <= 0x3fff_ffff_ffff_ffff);
        debug_assert!(at <= 0x3fff_ffff_ffff_ffff);
        let mut number = at / PAGE + 1;
        while number * PAGE < end && self.pages.contains_key(&number) {
            number += 1;
        }
        (number * PAGE).min(end)
    }

    /// Each byte moves once, as the ring comes to reach its page.
    #[inline]
    pub(crate) fn move_into(&mut self, ring: &mut Ring, from: u64, to: u64) {
        debug_assert!(to <= 0x3fff_ffff_ffff_ffff);
        debug_assert!(from <= to);
        let mut number = from / PAGE + 1;
        while number * PAGE < to {
            match self.pages.remove(&number) {
                Some(page) => {
                    let at = number * PAGE;
                    let count = (to - at).min(PAGE) as usize;
                    ring.write(at, &page[..count]);
                }
                None => {}
            }
            number += 1;
        }
    }
}

fn zeros(alloc: Global) -> Result<Vec<u8>, NoMemory> {
    let mut page = Vec::new(alloc);
    let size = reserve(&mut page, PAGE as usize)?;
    page.resize(size, 0)?;
    Ok(page)
}
