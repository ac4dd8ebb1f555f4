//! `vec!`, with its allocator.

/// `vec![in alloc; item; count]`: so many times the same item.
macro_rules! vec_in {
    (in $alloc:expr; $item:expr; $count:expr) => {
        $crate::shim::Vec::from_elem($alloc, $item, $count)
    };
}

pub(crate) use vec_in;
