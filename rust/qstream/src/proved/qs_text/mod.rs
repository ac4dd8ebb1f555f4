// Made from crates/qs_text/src/lib.rt by rust/erase; not edited by hand.
//! What the program prints of frames, events and answers.

mod events;
mod fields;
mod frame_text;
mod largest;
mod payload;
mod words;

pub use events::{push_log, script_text};
pub use payload::payload_text;
pub use words::{push_closing, side_name, yes_no};
