//! Vectors whose every growth can fail.

use super::alloc::{AllocError, AllocFailed, Global};
use super::heap::vec::{Drain, IntoIter, Vec as HeapVec};
use core::fmt;
use core::ops::{Deref, DerefMut, RangeBounds};

/// A vector. If memory is refused, it stays as it was.
pub struct Vec<T> {
    items: HeapVec<T>,
}

impl<T> Vec<T> {
    #[inline]
    pub const fn new(_alloc: Global) -> Self {
        Vec {
            items: HeapVec::new(),
        }
    }

    #[inline]
    pub fn with_capacity(alloc: Global, count: usize) -> Result<Self, AllocError> {
        let mut made = Vec::new(alloc);
        match made.items.try_reserve_exact(count) {
            Ok(()) => Ok(made),
            Err(_) => Err(AllocError),
        }
    }

    #[inline]
    pub fn from_array<const N: usize>(alloc: Global, items: [T; N]) -> Result<Self, AllocError> {
        let mut made = Vec::with_capacity(alloc, N)?;
        made.items.extend(items);
        Ok(made)
    }

    #[inline]
    pub fn reserve(&mut self, count: usize) -> Result<(), AllocError> {
        match self.items.try_reserve(count) {
            Ok(()) => Ok(()),
            Err(_) => Err(AllocError),
        }
    }

    /// The same without spare room, for buffers whose size is bounded by a contract.
    #[inline]
    pub fn reserve_exact(&mut self, count: usize) -> Result<(), AllocError> {
        match self.items.try_reserve_exact(count) {
            Ok(()) => Ok(()),
            Err(_) => Err(AllocError),
        }
    }

    #[inline]
    pub fn push(&mut self, value: T) -> Result<(), AllocFailed<T>> {
        match self.reserve(1) {
            Ok(()) => {
                self.items.push(value);
                Ok(())
            }
            Err(AllocError) => Err(AllocFailed { value }),
        }
    }

    #[inline]
    pub fn push_reserved(&mut self, value: T) {
        self.items.push(value);
    }

    #[inline]
    pub fn insert(&mut self, place: usize, value: T) -> Result<(), AllocFailed<T>> {
        match self.reserve(1) {
            Ok(()) => {
                self.items.insert(place, value);
                Ok(())
            }
            Err(AllocError) => Err(AllocFailed { value }),
        }
    }

    #[inline]
    pub fn pop(&mut self) -> Option<T> {
        self.items.pop()
    }

    #[inline]
    pub fn remove(&mut self, place: usize) -> T {
        self.items.remove(place)
    }

    #[inline]
    pub fn swap_remove(&mut self, place: usize) -> T {
        self.items.swap_remove(place)
    }

    #[inline]
    pub fn truncate(&mut self, count: usize) {
        self.items.truncate(count);
    }

    #[inline]
    pub fn clear(&mut self) {
        self.items.clear();
    }

    #[inline]
    pub fn drain<R: RangeBounds<usize>>(&mut self, range: R) -> Drain<'_, T> {
        self.items.drain(range)
    }

    /// Frees unused memory, except for so many items. If the smaller block is refused, the vector keeps what it has: a call that frees
    /// mustn't fail.
    #[inline]
    pub fn shrink_to(&mut self, count: usize) {
        let room = self.items.len().max(count);
        let mut fitting = HeapVec::new();
        if room < self.items.capacity() && fitting.try_reserve_exact(room).is_ok() {
            fitting.append(&mut self.items);
            self.items = fitting;
        }
    }

    #[inline]
    pub fn allocator(&self) -> &Global {
        &Global
    }

    #[inline]
    pub fn capacity(&self) -> usize {
        self.items.capacity()
    }

    #[inline]
    pub fn as_slice(&self) -> &[T] {
        &self.items
    }

    #[inline]
    pub fn as_mut_slice(&mut self) -> &mut [T] {
        &mut self.items
    }
}

impl<T: Copy> Vec<T> {
    #[inline]
    pub fn from_slice(alloc: Global, items: &[T]) -> Result<Self, AllocError> {
        let mut made = Vec::with_capacity(alloc, items.len())?;
        made.items.extend_from_slice(items);
        Ok(made)
    }

    #[inline]
    pub fn from_elem(alloc: Global, item: T, count: usize) -> Result<Self, AllocError> {
        let mut made = Vec::with_capacity(alloc, count)?;
        made.items.resize(count, item);
        Ok(made)
    }

    #[inline]
    pub fn extend_from_slice(&mut self, items: &[T]) -> Result<(), AllocError> {
        self.reserve(items.len())?;
        self.items.extend_from_slice(items);
        Ok(())
    }

    #[inline]
    pub fn resize(&mut self, count: usize, item: T) -> Result<(), AllocError> {
        self.reserve(count.saturating_sub(self.items.len()))?;
        self.items.resize(count, item);
        Ok(())
    }
}

impl<T> Deref for Vec<T> {
    type Target = [T];

    #[inline]
    fn deref(&self) -> &[T] {
        &self.items
    }
}

impl<T> DerefMut for Vec<T> {
    #[inline]
    fn deref_mut(&mut self) -> &mut [T] {
        &mut self.items
    }
}

impl<T: fmt::Debug> fmt::Debug for Vec<T> {
    #[inline]
    fn fmt(&self, f: &mut fmt::Formatter<'_>) -> fmt::Result {
        self.items.fmt(f)
    }
}

impl<T: PartialEq> PartialEq for Vec<T> {
    #[inline]
    fn eq(&self, other: &Self) -> bool {
        self.items == other.items
    }
}

impl<T: Eq> Eq for Vec<T> {}

impl<T> IntoIterator for Vec<T> {
    type Item = T;
    type IntoIter = IntoIter<T>;

    #[inline]
    fn into_iter(self) -> IntoIter<T> {
        self.items.into_iter()
    }
}

impl<'a, T> IntoIterator for &'a Vec<T> {
    type Item = &'a T;
    type IntoIter = core::slice::Iter<'a, T>;

    #[inline]
    fn into_iter(self) -> Self::IntoIter {
        self.items.iter()
    }
}

/// The calls of a slice that take memory, which Rust's own slice makes without an error.
pub trait SliceCalls<T> {
    fn copied_in(&self, alloc: Global) -> Result<Vec<T>, AllocError>;
}

impl<T: Copy> SliceCalls<T> for [T] {
    #[inline]
    fn copied_in(&self, alloc: Global) -> Result<Vec<T>, AllocError> {
        Vec::from_slice(alloc, self)
    }
}
