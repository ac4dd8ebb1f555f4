//! The proved source with its ghosts erased. The modules are made by `rust/erase`, a module for each crate; this list is made by hand. All
//! but the calls for C are the very files that the library for Rust has.

// What only the program and the tests use is dead here, and imports of what isn't used are unused.
#![allow(dead_code, unused_imports)]
// Forms that clippy would have otherwise: the text stays as it was proved.
#![allow(
    clippy::collapsible_if,
    clippy::collapsible_match,
    clippy::len_zero,
    clippy::manual_map,
    clippy::manual_ok_err,
    clippy::manual_range_contains,
    clippy::manual_unwrap_or,
    clippy::manual_unwrap_or_default,
    clippy::needless_range_loop,
    clippy::question_mark,
    clippy::redundant_pattern_matching,
    clippy::single_match,
    clippy::type_complexity
)]

#[path = "../../../src/proved/qs_calls/mod.rs"]
pub(crate) mod qs_calls;
#[path = "../../../src/proved/qs_conn/mod.rs"]
pub(crate) mod qs_conn;
#[path = "../../../src/proved/qs_machine/mod.rs"]
pub(crate) mod qs_machine;
#[path = "../../../src/proved/qs_ranges/mod.rs"]
pub(crate) mod qs_ranges;
#[path = "../../../src/proved/qs_recv/mod.rs"]
pub(crate) mod qs_recv;
#[path = "../../../src/proved/qs_send/mod.rs"]
pub(crate) mod qs_send;
#[path = "../../../src/proved/qs_streams/mod.rs"]
pub(crate) mod qs_streams;
#[path = "../../../src/proved/qs_wire/mod.rs"]
pub(crate) mod qs_wire;

pub(crate) mod qs_c;
