//! An allocator that refuses a thread what it is told to, while a call runs.
#![allow(dead_code)]

use std::alloc::{GlobalAlloc, Layout, System};
use std::cell::Cell;

/// What was asked for while calls ran, and what they are refused.
#[derive(Clone, Copy, Default)]
pub struct Memory {
    /// How many allocations were asked for.
    pub asked: u64,
    /// How many of them are given until the next refusals, if there are some.
    pub until: u64,
    /// How many are refused then.
    pub refusals: u64,
    /// How many were refused so far.
    pub refused: u64,
}

thread_local! {
    /// Whether a call runs.
    static IS_CALLED: Cell<bool> = const { Cell::new(false) };
    static MEMORY: Cell<Memory> = const { Cell::new(Memory { asked: 0, until: 0, refusals: 0, refused: 0 }) };
}

/// From now on the allocation of this number alone is refused, counted from 0 while calls run.
pub fn refuse(number: u64) {
    MEMORY.set(Memory {
        until: number,
        refusals: 1,
        ..Memory::default()
    });
}

/// How many allocations were asked for since.
pub fn asked() -> u64 {
    MEMORY.get().asked
}

/// A call begins or ends.
pub fn watch(begins: bool) {
    IS_CALLED.set(begins);
}

pub fn watched<T>(call: impl FnOnce() -> T) -> T {
    watch(true);
    let answer = call();
    watch(false);
    answer
}

/// What is answered where the allocation of this number is refused, and whether it was asked for.
pub fn refused<T>(number: u64, call: impl FnOnce() -> T) -> (T, bool) {
    refuse(number);
    (watched(call), asked() > number)
}

/// Runs a call with the memory of its endpoint.
pub fn within<T>(memory: &mut Memory, call: impl FnOnce() -> T) -> T {
    MEMORY.set(*memory);
    let answer = watched(call);
    *memory = MEMORY.get();
    answer
}

fn is_refused() -> bool {
    if !IS_CALLED.get() {
        return false;
    }
    let mut memory = MEMORY.get();
    memory.asked += 1;
    let is_refused = memory.refusals > 0 && memory.until == 0;
    if is_refused {
        memory.refusals -= 1;
        memory.refused += 1;
    } else {
        memory.until = memory.until.saturating_sub(1);
    }
    MEMORY.set(memory);
    is_refused
}

struct Refusing;

// SAFETY: each call is passed on to the system's allocator, or refused.
unsafe impl GlobalAlloc for Refusing {
    unsafe fn alloc(&self, layout: Layout) -> *mut u8 {
        if is_refused() {
            return std::ptr::null_mut();
        }
        unsafe { System.alloc(layout) }
    }

    unsafe fn dealloc(&self, place: *mut u8, layout: Layout) {
        unsafe { System.dealloc(place, layout) }
    }

    unsafe fn realloc(&self, place: *mut u8, layout: Layout, size: usize) -> *mut u8 {
        if is_refused() {
            return std::ptr::null_mut();
        }
        unsafe { System.realloc(place, layout, size) }
    }
}

#[global_allocator]
static ALLOCATOR: Refusing = Refusing;
