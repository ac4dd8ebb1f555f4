//! What stands for the parts of Rattle's standard library that the proved source uses and Rust's lacks, or has with another meaning: each
//! call that takes memory returns an error if it is refused. None aborts and none panics for want of memory.
//!
//! The types wrap those of `alloc` and lend slices of them, never the types themselves, so that no call that aborts slips in.

// The program and the tests include this module too, and use more of it than the library does.
#![allow(dead_code, unused_imports)]

extern crate alloc as heap;

pub mod alloc;
mod boxed;
pub mod byteorder;
pub mod collections;
mod vec;

pub use boxed::Box;
pub use core::{array, cmp, fmt, iter, mem, num, ops, str};
pub use vec::{SliceCalls, Vec};
