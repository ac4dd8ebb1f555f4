// Made from crates/qs_c/src/handle.rt by rust/erase; not edited by hand.
//! A handle that C holds. It may hold nothing: C can't be kept from passing one that was freed and cleared.
use crate::shim::Box;

use crate::proved::qs_c::cell::Cell;
use crate::proved::qs_c::loose::Loose;
use crate::proved::qs_c::thing::Thing;
use crate::shim::alloc::Global;
use crate::shim::mem::replace;
use crate::shim::ptr::null_mut;

#[repr(C)]
pub struct Handle {
    live: bool,
    pub(crate) cell: Cell,
}

impl Handle {
    pub(crate) fn take(&mut self, alloc: Global) -> Option<Box<Thing>> {
        if !self.live {
            return None;
        }
        let Handle { live: _, cell } = replace(self, Handle::none(alloc));
        Some(cell.into_loose().into_box())
    }

    pub(crate) fn put(&mut self, value: Box<Thing>) {
        *self = Handle {
            live: true,
            cell: Cell::of(Loose::of(value)),
        };
    }

    /// Lent as long as the handle is, which is why C may use what a look shows until the next call.
    pub(crate) fn held(&mut self) -> Option<&Thing> {
        if !self.live {
            return None;
        }
        Some(self.cell.lend())
    }

    fn none(alloc: Global) -> Handle {
        let at = null_mut();
        let cell = Cell::empty(at, alloc);
        Handle { live: false, cell }
    }
}
