//! The proved source with its ghosts erased, and the tests of `tests/units`, which aren't proved. The modules are made by `rust/erase`, a
//! module for each crate; this list is made by hand. The library's are the very files that it has.

// What only the library's users need is dead in the program, and imports of what it doesn't use are unused.
#![allow(dead_code, unused_imports)]
// Forms that clippy would have otherwise: the text stays as it was proved.
#![allow(
    clippy::implicit_saturating_add,
    clippy::collapsible_if,
    clippy::collapsible_match,
    clippy::len_zero,
    clippy::manual_map,
    clippy::manual_ok_err,
    clippy::manual_unwrap_or,
    clippy::manual_unwrap_or_default,
    clippy::match_like_matches_macro,
    clippy::needless_range_loop,
    clippy::question_mark,
    clippy::redundant_pattern_matching,
    clippy::single_match,
    clippy::type_complexity,
    clippy::write_with_newline
)]

#[path = "../../../src/proved/qs_calls/mod.rs"]
pub(crate) mod qs_calls;
#[path = "../../../src/proved/qs_conn/mod.rs"]
pub(crate) mod qs_conn;
#[path = "../../../src/proved/qs_machine/mod.rs"]
pub(crate) mod qs_machine;
#[path = "../../../src/proved/qs_ranges/mod.rs"]
pub(crate) mod qs_ranges;
#[path = "../../../src/proved/qs_recv/mod.rs"]
pub(crate) mod qs_recv;
#[path = "../../../src/proved/qs_send/mod.rs"]
pub(crate) mod qs_send;
#[path = "../../../src/proved/qs_streams/mod.rs"]
pub(crate) mod qs_streams;
#[path = "../../../src/proved/qs_wire/mod.rs"]
pub(crate) mod qs_wire;

#[cfg(test)]
mod qs_chunks;
pub(crate) mod qs_cli;
#[cfg(test)]
mod qs_ends;
pub(crate) mod qs_request;
pub(crate) mod qs_script;
#[cfg(test)]
mod qs_tests;
pub(crate) mod qs_text;
pub(crate) mod qs_tool;
pub(crate) mod qs_trace;
#[cfg(test)]
mod qs_units;
pub(crate) mod qs_world;
