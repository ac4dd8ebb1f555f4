//! A hostile peer against our endpoint: `gotsavena-attacks` lists the attacks, `gotsavena-attacks NAME SIZE` plays one. `bench/attacks`
//! plays them all, beside quinn-proto.

#[path = "../clock.rs"]
mod clock;
#[path = "../counting.rs"]
mod counting;
mod crowds;
#[path = "../faults.rs"]
mod faults;
// That heap can also refuse memory, which no attack uses.
#[allow(dead_code)]
#[path = "../memory/heap.rs"]
mod heap;
mod ours;
mod packets;
mod play;
mod streams;
mod table;

use clock::time;
use counting::{gotsavena_counted, look_from_here};
use faults::minor_faults;
use play::Attack;
use std::process::ExitCode;

#[global_allocator]
static ALLOCATOR: heap::Watched = heap::Watched;

fn main() -> ExitCode {
    let groups = [
        Attack::BY_BYTES,
        Attack::BY_ACKS,
        Attack::BY_ITEMS,
        Attack::BY_CROWDS,
        ours::ALONE,
    ];
    play::main(&groups, heap::live)
}
