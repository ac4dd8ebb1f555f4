// Made from crates/qs_chunks/src/lib.rt by rust/erase; not edited by hand.
//! A second assembly of arrived bytes, in chunks; and a replay, by which two kinds of assembly are held against each other.

mod chunk;
mod chunk_assembly;
mod chunk_list;
pub mod laws;
mod replay;

pub use chunk_assembly::ChunkAssembly;
