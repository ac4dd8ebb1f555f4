//! The proved source with its ghosts erased, as the program has it, without the tests.

#![allow(dead_code, unused_imports)]
#![allow(clippy::all)]

#[path = "../../../src/proved/qs_calls/mod.rs"]
pub(crate) mod qs_calls;
#[path = "../../src/proved/qs_chunks/mod.rs"]
pub(crate) mod qs_chunks;
#[path = "../../src/proved/qs_cli/mod.rs"]
pub(crate) mod qs_cli;
#[path = "../../../src/proved/qs_conn/mod.rs"]
pub(crate) mod qs_conn;
#[path = "../../../src/proved/qs_machine/mod.rs"]
pub(crate) mod qs_machine;
#[path = "../../../src/proved/qs_ranges/mod.rs"]
pub(crate) mod qs_ranges;
#[path = "../../../src/proved/qs_recv/mod.rs"]
pub(crate) mod qs_recv;
#[path = "../../src/proved/qs_script/mod.rs"]
pub(crate) mod qs_script;
#[path = "../../../src/proved/qs_send/mod.rs"]
pub(crate) mod qs_send;
#[path = "../../../src/proved/qs_streams/mod.rs"]
pub(crate) mod qs_streams;
#[path = "../../src/proved/qs_text/mod.rs"]
pub(crate) mod qs_text;
#[path = "../../../src/proved/qs_wire/mod.rs"]
pub(crate) mod qs_wire;
#[path = "../../src/proved/qs_world/mod.rs"]
pub(crate) mod qs_world;
