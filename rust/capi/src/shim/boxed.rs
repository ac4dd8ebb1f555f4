//! A box that can fail to be made, and that C may hold by its address.

use super::alloc::{AllocError, Allocator, Global};
use super::heap::{boxed::Box as HeapBox, vec::Vec as HeapVec};
use core::ops::{Deref, DerefMut};

/// A value in memory of its own, as a vector of one: in stable Rust only a vector's allocation can fail.
pub struct Box<T, A: Allocator = Global> {
    row: HeapBox<[T; 1]>,
    alloc: A,
}

impl<T, A: Allocator> Box<T, A> {
    pub fn new(alloc: A, value: T) -> Result<Self, AllocError> {
        let mut row = HeapVec::new();
        if row.try_reserve_exact(1).is_err() {
            return Err(AllocError);
        }
        row.push(value);
        match HeapBox::try_from(row) {
            Ok(row) => Ok(Box { row, alloc }),
            Err(_) => Err(AllocError),
        }
    }

    pub fn into_raw_with_allocator(this: Self) -> (*mut T, A) {
        (HeapBox::into_raw(this.row).cast(), this.alloc)
    }

    /// # Safety
    ///
    /// The address comes from `into_raw_with_allocator`, and no other box has it.
    pub unsafe fn from_raw(alloc: A, at: *mut T) -> Self {
        // SAFETY: it is the address of such a row, which nothing else owns.
        let row = unsafe { HeapBox::from_raw(at.cast()) };
        Box { row, alloc }
    }
}

impl<T, A: Allocator> Deref for Box<T, A> {
    type Target = T;

    fn deref(&self) -> &T {
        let [value] = &*self.row;
        value
    }
}

impl<T, A: Allocator> DerefMut for Box<T, A> {
    fn deref_mut(&mut self) -> &mut T {
        let [value] = &mut *self.row;
        value
    }
}
