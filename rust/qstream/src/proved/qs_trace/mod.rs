// Made from crates/qs_trace/src/lib.rt by rust/erase; not edited by hand.
//! What an end sees of a log, as a trace that the field's viewers open.

mod events;
mod frame_json;
mod item;
mod records;
mod words;

pub use events::{trace, vantage_name};
