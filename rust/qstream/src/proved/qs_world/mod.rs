// Made from crates/qs_world/src/lib.rt by rust/erase; not edited by hand.
//! Two endpoints of a connection, and what happens between them.

mod copies;
mod drained;
mod draws;
mod playing;
mod random;
mod report;
mod reporting;
mod world;

pub use copies::copy_event;
pub use drained::play_drained;
pub use playing::{play, play_all};
pub use crate::proved::qs_calls::{Act, Answer, Event, Side};
pub use crate::proved::qs_conn::{
    Closing, LostFault, Made, MakeFault, OpenFault, Received, Settings, SetupFault, UseFault,
};
pub use crate::proved::qs_recv::Read;
pub use crate::proved::qs_script::{Reason, ScriptFault, parse_script, standard_settings};
pub use crate::proved::qs_wire::{Dir, StreamId};
pub use random::random_script;
pub use report::{EndTotals, LaneTotals, PlayFault, Report};
pub use world::{Drained, World};
