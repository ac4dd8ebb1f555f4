//! A box that can fail to be made.

use super::alloc::{AllocError, Global};
use super::heap::{boxed::Box as HeapBox, vec::Vec as HeapVec};
use core::ops::{Deref, DerefMut};

/// A value in memory of its own, as a vector of one: in stable Rust only a vector's allocation can fail.
pub struct Box<T> {
    row: HeapBox<[T; 1]>,
}

impl<T> Box<T> {
    #[inline(always)]
    pub fn new(_alloc: Global, value: T) -> Result<Self, AllocError> {
        let mut row = HeapVec::new();
        if row.try_reserve_exact(1).is_err() {
            return Err(AllocError);
        }
        row.push(value);
        match HeapBox::try_from(row) {
            Ok(row) => Ok(Box { row }),
            Err(_) => Err(AllocError),
        }
    }

    #[inline]
    pub fn into_inner(this: Self) -> T {
        let [value] = *this.row;
        value
    }
}

impl<T> Deref for Box<T> {
    type Target = T;

    #[inline]
    fn deref(&self) -> &T {
        let [value] = &*self.row;
        value
    }
}

impl<T> DerefMut for Box<T> {
    #[inline]
    fn deref_mut(&mut self) -> &mut T {
        let [value] = &mut *self.row;
        value
    }
}
