//! The proved source with its ghosts erased. The modules are made by `rust/erase`, a module for each crate; this list is made by hand.

// What only the program and the tests use is dead in the library, and imports of what it doesn't use are unused.
#![allow(dead_code, unused_imports)]
// Forms that clippy would have otherwise: the text stays as it was proved.
#![allow(
    clippy::collapsible_if,
    clippy::collapsible_match,
    clippy::len_zero,
    clippy::manual_map,
    clippy::manual_ok_err,
    clippy::manual_unwrap_or,
    clippy::manual_unwrap_or_default,
    clippy::needless_range_loop,
    clippy::question_mark,
    clippy::redundant_pattern_matching,
    clippy::single_match,
    clippy::type_complexity
)]

pub(crate) mod qs_calls;
pub(crate) mod qs_conn;
pub(crate) mod qs_machine;
pub(crate) mod qs_ranges;
pub(crate) mod qs_recv;
pub(crate) mod qs_send;
pub(crate) mod qs_streams;
pub(crate) mod qs_wire;
