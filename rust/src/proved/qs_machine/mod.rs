// Made from crates/qs_machine/src/lib.rt by rust/erase; not edited by hand.
//! The machine: one end of a connection as a value, the steps of its calls, and laws of them. There is no code here but sums of
//! streams and the laws, each the contract of a function.

mod tally;

pub use tally::Tally;
