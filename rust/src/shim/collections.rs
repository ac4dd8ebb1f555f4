//! Queues and maps whose every growth can fail.

use super::alloc::{AllocError, AllocFailed, Global};
use super::heap::collections::VecDeque as HeapDeque;
use super::heap::collections::vec_deque::{Drain, Iter};
use core::ops::{Index, IndexMut, RangeBounds};

/// A queue open at the front and the back. If memory is refused, it stays as it was.
pub struct VecDeque<T> {
    items: HeapDeque<T>,
}

impl<T> VecDeque<T> {
    #[inline]
    pub const fn new(_alloc: Global) -> Self {
        VecDeque {
            items: HeapDeque::new(),
        }
    }

    #[inline]
    pub fn reserve(&mut self, count: usize) -> Result<(), AllocError> {
        match self.items.try_reserve(count) {
            Ok(()) => Ok(()),
            Err(_) => Err(AllocError),
        }
    }

    #[inline]
    pub fn push_back(&mut self, value: T) -> Result<(), AllocFailed<T>> {
        match self.reserve(1) {
            Ok(()) => {
                self.items.push_back(value);
                Ok(())
            }
            Err(AllocError) => Err(AllocFailed { value }),
        }
    }

    /// Puts an item behind the last, in room that was reserved. Without room the item is dropped, since a shim mustn't panic; that no
    /// caller gets there is proved.
    #[inline]
    pub fn push_back_reserved(&mut self, value: T) {
        debug_assert!(self.items.len() < self.items.capacity());
        if self.items.len() < self.items.capacity() {
            self.items.push_back(value);
        }
    }

    #[inline]
    pub fn capacity(&self) -> usize {
        self.items.capacity()
    }

    #[inline]
    pub fn clear(&mut self) {
        self.items.clear();
    }

    #[inline]
    pub fn insert(&mut self, place: usize, value: T) -> Result<(), AllocFailed<T>> {
        match self.reserve(1) {
            Ok(()) => {
                self.items.insert(place, value);
                Ok(())
            }
            Err(AllocError) => Err(AllocFailed { value }),
        }
    }

    #[inline]
    pub fn remove(&mut self, place: usize) -> Option<T> {
        self.items.remove(place)
    }

    #[inline]
    pub fn drain<R: RangeBounds<usize>>(&mut self, range: R) -> Drain<'_, T> {
        self.items.drain(range)
    }

    #[inline]
    pub fn pop_front(&mut self) -> Option<T> {
        self.items.pop_front()
    }

    #[inline]
    pub fn pop_back(&mut self) -> Option<T> {
        self.items.pop_back()
    }

    #[inline]
    pub fn front(&self) -> Option<&T> {
        self.items.front()
    }

    #[inline]
    pub fn back(&self) -> Option<&T> {
        self.items.back()
    }

    #[inline]
    pub fn get(&self, place: usize) -> Option<&T> {
        self.items.get(place)
    }

    #[inline]
    pub fn len(&self) -> usize {
        self.items.len()
    }

    #[inline]
    pub fn is_empty(&self) -> bool {
        self.items.is_empty()
    }

    #[inline]
    pub fn iter(&self) -> Iter<'_, T> {
        self.items.iter()
    }

    #[inline]
    pub fn partition_point<P: FnMut(&T) -> bool>(&self, is_before: P) -> usize {
        self.items.partition_point(is_before)
    }

    #[inline]
    pub fn retain<F: FnMut(&T) -> bool>(&mut self, keep: F) {
        self.items.retain(keep);
    }
}

impl<T> Index<usize> for VecDeque<T> {
    type Output = T;

    #[inline]
    fn index(&self, place: usize) -> &T {
        &self.items[place]
    }
}

impl<T> IndexMut<usize> for VecDeque<T> {
    #[inline]
    fn index_mut(&mut self, place: usize) -> &mut T {
        &mut self.items[place]
    }
}

/// A map, kept as a queue of its entries in the order of their keys: `alloc`'s tree has no insert that can fail. A queue, since a peer's
/// pages leave at the front and may come there, and a vector would move all behind them.
pub struct BTreeMap<K, V> {
    entries: VecDeque<(K, V)>,
}

impl<K: Ord, V> BTreeMap<K, V> {
    #[inline]
    pub const fn new(alloc: Global) -> Self {
        BTreeMap {
            entries: VecDeque::new(alloc),
        }
    }

    #[inline]
    pub fn get(&self, key: &K) -> Option<&V> {
        let place = self.place_of(key).ok()?;
        Some(&self.entries[place].1)
    }

    #[inline]
    pub fn get_mut(&mut self, key: &K) -> Option<&mut V> {
        let place = self.place_of(key).ok()?;
        Some(&mut self.entries[place].1)
    }

    #[inline]
    pub fn contains_key(&self, key: &K) -> bool {
        self.place_of(key).is_ok()
    }

    #[inline]
    pub fn len(&self) -> usize {
        self.entries.len()
    }

    #[inline]
    pub fn is_empty(&self) -> bool {
        self.entries.is_empty()
    }

    #[inline]
    pub fn remove(&mut self, key: &K) -> Option<V> {
        let place = self.place_of(key).ok()?;
        Some(self.entries.remove(place)?.1)
    }

    #[inline]
    pub fn insert(&mut self, key: K, value: V) -> Result<Option<V>, AllocFailed<(K, V)>> {
        match self.place_of(&key) {
            Ok(place) => {
                let old = core::mem::replace(&mut self.entries[place].1, value);
                Ok(Some(old))
            }
            Err(place) => {
                self.entries.insert(place, (key, value))?;
                Ok(None)
            }
        }
    }

    #[inline]
    fn place_of(&self, key: &K) -> Result<usize, usize> {
        self.entries
            .items
            .binary_search_by(|entry| entry.0.cmp(key))
    }
}
