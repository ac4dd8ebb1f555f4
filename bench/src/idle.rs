//! The heap of one idle endpoint, in a process with many of them.

use gotsavena::{Endpoint, Role, Settings};

/// A row that measures bytes, not time.
pub struct Size {
    pub name: &'static str,
    pub unit: &'static str,
    /// Bytes for each unit.
    pub run: fn() -> f64,
}

/// glibc's `mallinfo2`: figures of the heap, in bytes.
#[repr(C)]
struct Mallinfo2 {
    before: [usize; 4],
    /// Large allocations, which are mapped apart from the heap.
    mapped: usize,
    between: [usize; 2],
    /// Allocated bytes.
    in_use: usize,
    after: [usize; 2],
}

unsafe extern "C" {
    fn mallinfo2() -> Mallinfo2;
}

fn held() -> usize {
    // SAFETY: the struct has the layout of glibc's since 2.33, ten numbers of the width of a pointer.
    let told = unsafe { mallinfo2() };
    told.mapped + told.in_use
}

// Endpoints that grant 100 streams of each direction, with windows of 1 MiB for the connection and 64 KiB for a stream.
fn idle(count: usize) -> f64 {
    let settings = Settings::small()
        .conn_window(1 << 20)
        .stream_windows(1 << 16)
        .send_buffer(1 << 16)
        .streams(100, 1 << 16);
    let mut ends: Vec<Box<Endpoint>> = Vec::with_capacity(count);
    let before = held();
    for _ in 0..count {
        let end = Endpoint::new(Role::Server, settings, settings.limits());
        ends.push(Box::new(end.expect("the settings are in range")));
    }
    let taken = held() - before;
    assert!(ends.iter().all(|end| end.stored() == 0));
    taken as f64 / count as f64
}

pub fn rows() -> Vec<Size> {
    let row = |name, run| Size {
        name,
        unit: "endpoint",
        run,
    };
    vec![
        row("idle-1", || idle(1)),
        row("idle-100", || idle(100)),
        row("idle-10000", || idle(10_000)),
        row("idle-1000000", || idle(1_000_000)),
    ]
}
