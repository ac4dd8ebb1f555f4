// Made from crates/qs_tool/src/tests/writers.rt by rust/erase; not edited by hand.
//! Runs over a writer that has no room for all that they write.

use crate::shim::{HostRuntime, Vec, assert};
use crate::proved::qs_cli::{
    MemoryWire, Status, run_events, run_frames, run_play, run_random, run_udp, udp_events,
};
use crate::proved::qs_world::standard_settings;
use crate::shim::alloc::Global;
use crate::shim::io;

/// Runs that end well and runs that show a fault, counted from 0.
fn run<W: io::Write>(alloc: Global, number: usize, out: &mut W) -> Status {
    match number {
        0 => run_frames(alloc, "010b0003616263", out),
        1 => run_frames(alloc, "011f", out),
        2 => run_play(alloc, b"accept A\n", out),
        3 => run_play(alloc, b"jump A", out),
        4 => run_play(alloc, b"deliver A 0", out),
        5 => run_random(alloc, 1, 3, out),
        6 => run_events(alloc, standard_settings(), &[], out),
        _ => run_over_wire(alloc, number, out),
    }
}

fn run_over_wire<W: io::Write>(alloc: Global, number: usize, out: &mut W) -> Status {
    let mut wire = MemoryWire::new(alloc, &[], &[]);
    match number {
        7 => run_udp(alloc, b"accept A\n", &mut wire, out),
        8 => run_udp(alloc, b"jump A", &mut wire, out),
        9 => run_udp(alloc, b"deliver A 0", &mut wire, out),
        _ => udp_events(alloc, &[], &mut wire, out),
    }
}

/// How many bytes a run writes, where it doesn't fail.
fn bytes_written(alloc: Global, number: usize) -> usize {
    let mut out = Vec::new(alloc);
    match run(alloc, number, &mut out) {
        Status::Success | Status::FaultShown => out.len(),
        _ => 0,
    }
}

/// The run fails where the writer has room for so many bytes.
fn fails(alloc: Global, number: usize, room: usize) -> bool {
    let mut bytes = [0; 256];
    let Some(front) = bytes.get_mut(..room) else {
        return false;
    };
    let mut out = front;
    run(alloc, number, &mut out) == Status::Failed
}

// Whichever of its writes that is.
#[test]
fn a_writer_fails_in_the_midst() {
    let rt = HostRuntime::new();
    for number in 0..11 {
        let whole = bytes_written(rt.alloc(), number);
        assert!(rt; whole > 0, "{number}");
        for room in 0..whole {
            assert!(rt; fails(rt.alloc(), number, room), "{number} {room}");
        }
    }
}
