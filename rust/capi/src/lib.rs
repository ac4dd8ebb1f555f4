//! The calls `gvp_*`, over which `c/src` offers the library for C: those of `crates/qs_c`, **the proved source with its contracts
//! removed**. `c/src/proved.h` declares them.
//!
//! `unsafe` stands in this package alone, so that the Rust crate forbids it: where C's pointers are read ([`exports`]), where memory comes
//! from C ([`memory`]), where a box is made from its address (`shim::Box`), and where the proved source does that (`loose`) or lends what
//! lies there (`lending`). It has no std, so the archive needs no unwinder and no thread library.
#![no_std]
#![deny(missing_docs)]

#[cfg(not(target_pointer_width = "64"))]
compile_error!("gotsavena needs a target with pointers of 64 bits");

mod exports;
mod memory;
#[rustfmt::skip]
mod proved;
mod shim;
