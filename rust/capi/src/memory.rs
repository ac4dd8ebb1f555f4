//! Memory, which the C side provides, and what happens if Rust can't go on.

use core::alloc::{GlobalAlloc, Layout};
use core::panic::PanicInfo;
use core::ptr::null_mut;

/// An address if `is_some` is 1. The layout is that of an `Option` in the proved library, so that one C file serves both.
#[repr(C)]
struct Got {
    is_some: u64,
    at: *mut u8,
}

unsafe extern "C" {
    fn rattle_alloc(size: usize, align: usize) -> Got;
    fn rattle_realloc(at: *mut u8, was: usize, size: usize, align: usize) -> Got;
    fn rattle_dealloc(at: *mut u8, size: usize, align: usize);
    safe fn abort() -> !;
}

struct OfC;

#[global_allocator]
static MEMORY: OfC = OfC;

fn address(got: Got) -> *mut u8 {
    if got.is_some == 1 { got.at } else { null_mut() }
}

// SAFETY: these functions of c/src give memory of the size and alignment asked for.
unsafe impl GlobalAlloc for OfC {
    unsafe fn alloc(&self, layout: Layout) -> *mut u8 {
        address(unsafe { rattle_alloc(layout.size(), layout.align()) })
    }

    unsafe fn dealloc(&self, at: *mut u8, layout: Layout) {
        unsafe { rattle_dealloc(at, layout.size(), layout.align()) }
    }

    unsafe fn realloc(&self, at: *mut u8, layout: Layout, size: usize) -> *mut u8 {
        address(unsafe { rattle_realloc(at, layout.size(), size, layout.align()) })
    }
}

/// No call panics, which is proved of the source. So ending the program here loses nothing, and needs no unwinding.
#[panic_handler]
fn panicked(_why: &PanicInfo<'_>) -> ! {
    abort()
}
