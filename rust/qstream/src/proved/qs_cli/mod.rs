// Made from crates/qs_cli/src/lib.rt by rust/erase; not edited by hand.
//! What the program does, over any writer: it shows the frames of a payload, plays scripts, over a wire too, and makes random ones.

mod carrying;
mod draining;
mod frames;
mod memory_wire;
mod report_text;
mod scripts;
mod status;
mod udp_wire;
mod wire;

pub use carrying::{report_carried, report_udp, run_udp, udp_events};
pub use draining::report_drained;
pub use frames::{payload_fault, run_frames};
pub use memory_wire::MemoryWire;
pub use crate::proved::qs_ranges::NoMemory;
pub use crate::proved::qs_text::script_text;
pub use report_text::play_text;
pub use scripts::{report_events, report_play, run_events, run_play, run_play_with, run_random};
pub use status::Status;
pub use udp_wire::UdpWire;
pub use wire::{Wire, WireError};
