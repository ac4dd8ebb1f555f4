//! The calls of an iterator that take memory.

use super::Vec;
use super::alloc::{AllocError, Global};

pub trait IteratorCalls: Iterator + Sized {
    /// The items, in order.
    fn collected_in(self, alloc: Global) -> Result<Vec<Self::Item>, AllocError> {
        let mut items = Vec::with_capacity(alloc, self.size_hint().0)?;
        for item in self {
            items.push(item)?;
        }
        Ok(items)
    }
}

impl<I: Iterator> IteratorCalls for I {}
