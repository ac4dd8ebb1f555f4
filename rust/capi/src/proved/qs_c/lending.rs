// Made from crates/qs_c/src/lending.rt by rust/erase; not edited by hand.
//! What a cell holds is lent, where it stands.

use crate::proved::qs_c::cell::Cell;
use crate::proved::qs_c::thing::Thing;

impl Cell {
    /// It is the cell's again once the borrow ends, so nothing is taken out that could be lost on the way.
    pub(crate) fn lend(&mut self) -> &mut Thing {
        unsafe { &mut *(self.at as *mut Thing) }
    }
}
