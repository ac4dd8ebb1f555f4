// Made from crates/qs_c/src/cell.rt by rust/erase; not edited by hand.
//! A box as its address, or none.

use crate::proved::qs_c::loose::Loose;
use crate::proved::qs_c::thing::Thing;
use crate::shim::alloc::Global;

/// Room for a box's address, which C can lay out: a flag and a word. It owns what the box owned.
#[repr(C)]
pub struct Cell {
    pub(crate) at: *mut u8,
    alloc: Global,
}

impl Cell {
    pub(crate) fn empty(at: *mut u8, alloc: Global) -> Cell {
        Cell { at, alloc }
    }

    pub(crate) fn of(loose: Loose<Thing, Global>) -> Cell {
        let Loose { at, alloc } = loose;
        Cell {
            at: at as *mut u8,
            alloc,
        }
    }

    pub(crate) fn into_loose(self) -> Loose<Thing, Global> {
        let Cell { at, alloc } = self;
        Loose {
            at: at as *mut Thing,
            alloc,
        }
    }
}
