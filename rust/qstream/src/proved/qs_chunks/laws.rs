// Made from crates/qs_chunks/src/laws.rt by rust/erase; not edited by hand.
//! A law on assemblies, the contract of a function: two kinds show the same.
pub use crate::proved::qs_chunks::replay::{Shown, Step, replay};
