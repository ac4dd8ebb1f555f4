//! An allocator that counts allocated bytes, and can refuse one allocation.

use std::alloc::{GlobalAlloc, Layout, System};
use std::sync::atomic::{AtomicU64, AtomicUsize, Ordering};

pub struct Watched;

const NEVER: u64 = u64::MAX;

static LIVE: AtomicUsize = AtomicUsize::new(0);
// How many allocations succeed before one is refused.
static LEFT: AtomicU64 = AtomicU64::new(NEVER);
static WAS_REFUSED: AtomicU64 = AtomicU64::new(0);

/// The allocated bytes.
pub fn live() -> usize {
    LIVE.load(Ordering::Relaxed)
}

/// Refuses one allocation, after this many more of those that `watch` sees.
pub fn refuse_after(granted: u64) {
    WAS_REFUSED.store(0, Ordering::Relaxed);
    LEFT.store(granted, Ordering::Relaxed);
}

/// Whether that allocation was asked for.
pub fn was_refused() -> bool {
    WAS_REFUSED.load(Ordering::Relaxed) > 0
}

/// Makes a call of an endpoint. Only allocations within it can be refused.
pub fn watch<T>(call: impl FnOnce() -> T) -> T {
    IS_WATCHED.store(1, Ordering::Relaxed);
    let answer = call();
    IS_WATCHED.store(0, Ordering::Relaxed);
    answer
}

static IS_WATCHED: AtomicU64 = AtomicU64::new(0);

fn is_refused() -> bool {
    if IS_WATCHED.load(Ordering::Relaxed) == 0 {
        return false;
    }
    let left = LEFT.load(Ordering::Relaxed);
    if left == NEVER {
        return false;
    }
    if left > 0 {
        LEFT.store(left - 1, Ordering::Relaxed);
        return false;
    }
    LEFT.store(NEVER, Ordering::Relaxed);
    WAS_REFUSED.store(1, Ordering::Relaxed);
    true
}

// SAFETY: each call goes to the system's allocator or is refused.
unsafe impl GlobalAlloc for Watched {
    unsafe fn alloc(&self, layout: Layout) -> *mut u8 {
        if is_refused() {
            return std::ptr::null_mut();
        }
        LIVE.fetch_add(layout.size(), Ordering::Relaxed);
        // SAFETY: the caller keeps to the rules of the same call.
        unsafe { System.alloc(layout) }
    }

    unsafe fn dealloc(&self, place: *mut u8, layout: Layout) {
        LIVE.fetch_sub(layout.size(), Ordering::Relaxed);
        // SAFETY: the caller keeps to the rules of the same call.
        unsafe { System.dealloc(place, layout) }
    }

    unsafe fn realloc(&self, place: *mut u8, layout: Layout, size: usize) -> *mut u8 {
        if is_refused() {
            return std::ptr::null_mut();
        }
        LIVE.fetch_sub(layout.size(), Ordering::Relaxed);
        LIVE.fetch_add(size, Ordering::Relaxed);
        // SAFETY: the caller keeps to the rules of the same call.
        unsafe { System.realloc(place, layout, size) }
    }
}
