//! What stands for the parts of Rattle's standard library and of its crates that the proved source of the program and of the tests uses,
//! beside those that the library has. Only Rust's own `std` takes memory that can't be refused here: for the words of the command line as
//! the program begins, and for the buffer of its standard output.

#[path = "../../../src/shim/mod.rs"]
mod base;

pub mod clap;
pub mod env;
pub mod fs;
pub mod hex;
pub mod io;
mod iterators;
pub mod net;
pub mod process;
pub mod rand_core;
pub mod rand_pcg;
mod runtime;
mod string;
#[cfg(test)]
pub mod test;
mod vectors;

pub use base::*;
pub use iterators::IteratorCalls;
pub use runtime::HostRuntime;
pub use std::time;
pub use string::String;
pub(crate) use string::format_in as format;
#[cfg(test)]
pub(crate) use test::{assert_eq_in as assert_eq, assert_in as assert, panic_in as panic};
pub(crate) use vectors::vec_in as vec;
