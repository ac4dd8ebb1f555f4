// Made from crates/qs_script/src/lib.rt by rust/erase; not edited by hand.
//! Scripts of events, read.

mod script;
mod settings;

pub use script::{Reason, ScriptFault, parse_script};
pub use settings::standard_settings;
