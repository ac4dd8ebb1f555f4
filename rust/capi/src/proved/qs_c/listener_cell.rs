// Made from crates/qs_c/src/listener_cell.rt by rust/erase; not edited by hand.
//! A box of what was heard as its address, or none.

use crate::proved::qs_c::listener::Listener;
use crate::proved::qs_c::loose::Loose;
use crate::shim::alloc::Global;

/// As `Cell`, of what was reported.
#[repr(C)]
pub struct ListenerCell {
    at: *mut u8,
    alloc: Global,
}

impl ListenerCell {
    pub(crate) fn empty(at: *mut u8, alloc: Global) -> ListenerCell {
        ListenerCell { at, alloc }
    }

    pub(crate) fn of(loose: Loose<Listener, Global>) -> ListenerCell {
        let Loose { at, alloc } = loose;
        ListenerCell {
            at: at as *mut u8,
            alloc,
        }
    }

    pub(crate) fn into_loose(self) -> Loose<Listener, Global> {
        let ListenerCell { at, alloc } = self;
        Loose {
            at: at as *mut Listener,
            alloc,
        }
    }
}
