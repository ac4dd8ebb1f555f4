// Made from crates/qs_request/src/lib.rt by rust/erase; not edited by hand.
//! The command line of the program.

mod command_line;
mod usage;

pub use command_line::{Refusal, Request};
