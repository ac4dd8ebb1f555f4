// Made from crates/qs_c/src/loose.rt by rust/erase; not edited by hand.
//! A box that is held by its address.
use crate::shim::Box;

use crate::shim::alloc::Allocator;

/// A box as the address of its value. It owns what the box owned, and is the one place where an address becomes a box again.
pub(crate) struct Loose<T, A: Allocator> {
    pub(crate) at: *mut T,
    pub(crate) alloc: A,
}

impl<T, A: Allocator> Loose<T, A> {
    pub(crate) fn of(boxed: Box<T, A>) -> Loose<T, A> {
        let (at, alloc) = Box::into_raw_with_allocator(boxed);
        Loose { at, alloc }
    }

    pub(crate) fn into_box(self) -> Box<T, A> {
        let Loose { at, alloc } = self;
        unsafe { Box::from_raw(alloc, at) }
    }
}
