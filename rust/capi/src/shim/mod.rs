//! What stands for the parts of Rattle's standard library that the proved source uses: that of the Rust library, and what the calls for C
//! need beside it.

extern crate alloc as heap;

#[path = "../../../src/shim/mod.rs"]
mod base;
mod boxed;

pub use base::*;
pub use boxed::Box;
pub use core::ptr;

pub mod alloc {
    pub use super::base::alloc::*;

    /// The proved source is generic over allocators; C's memory is global here, so one type is enough.
    pub trait Allocator {}

    impl Allocator for Global {}
}
