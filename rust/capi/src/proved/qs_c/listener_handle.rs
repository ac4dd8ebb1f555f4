// Made from crates/qs_c/src/listener_handle.rt by rust/erase; not edited by hand.
//! A handle of what was heard, that C holds.
use crate::shim::Box;

use crate::proved::qs_c::listener::Listener;
use crate::proved::qs_c::listener_cell::ListenerCell;
use crate::proved::qs_c::loose::Loose;
use crate::shim::alloc::Global;
use crate::shim::mem::replace;
use crate::shim::ptr::null_mut;

#[repr(C)]
pub struct ListenerHandle {
    live: bool,
    pub(crate) cell: ListenerCell,
}

impl ListenerHandle {
    pub(crate) fn take(&mut self, alloc: Global) -> Option<Box<Listener>> {
        if !self.live {
            return None;
        }
        let ListenerHandle { live: _, cell } = replace(self, ListenerHandle::none(alloc));
        Some(cell.into_loose().into_box())
    }

    pub(crate) fn put(&mut self, value: Box<Listener>) {
        *self = ListenerHandle {
            live: true,
            cell: ListenerCell::of(Loose::of(value)),
        };
    }

    fn none(alloc: Global) -> ListenerHandle {
        let at = null_mut();
        let cell = ListenerCell::empty(at, alloc);
        ListenerHandle { live: false, cell }
    }
}
