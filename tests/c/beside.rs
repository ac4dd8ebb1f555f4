//! Another library of Rust in the same program, with std, an allocator of its own and a panic that it catches.
use std::alloc::{GlobalAlloc, Layout, System};
use std::sync::atomic::{AtomicUsize, Ordering};

struct Counted;

static BLOCKS: AtomicUsize = AtomicUsize::new(0);

#[global_allocator]
static ALLOCATOR: Counted = Counted;

unsafe impl GlobalAlloc for Counted {
    unsafe fn alloc(&self, layout: Layout) -> *mut u8 {
        BLOCKS.fetch_add(1, Ordering::Relaxed);
        unsafe { System.alloc(layout) }
    }

    unsafe fn dealloc(&self, at: *mut u8, layout: Layout) {
        unsafe { System.dealloc(at, layout) }
    }
}

/// How many blocks were taken: the same number before and after calls of another library.
#[unsafe(no_mangle)]
pub extern "C" fn other_blocks() -> usize {
    BLOCKS.load(Ordering::Relaxed)
}

#[unsafe(no_mangle)]
pub extern "C" fn other_sum(count: u64) -> u64 {
    let all: Vec<u64> = (0..count).collect();
    let caught = std::panic::catch_unwind(|| all[count as usize]);
    if caught.is_ok() { 0 } else { all.iter().sum() }
}
