// Made from crates/qs_wire/src/lib.rt by rust/erase; not edited by hand.
//! The numbers and frames of QUIC, version 1: read from a payload, and written.

mod acks;
mod bodies;
mod fault;
mod fields;
mod frame;
mod frame_type;
mod frames;
mod reading;
mod stream_id;
mod turns;
mod varint;
mod writing;

pub use acks::{AckRanges, put_ack, put_delayed_ack};
pub use fault::{FaultKind, Full, WireFault};
pub use frame::{EcnCounts, Frame, Placed};
pub use frames::Frames;
pub use stream_id::{Dir, Role, StreamId};
pub use turns::last_stream;
pub use varint::{read_varint, varint_len, write_varint};
pub use writing::{put, put_stream};
