//! The minor page faults of the process.

#[repr(C)]
struct Usage {
    times: [i64; 4],
    before: [i64; 4],
    minor_faults: i64,
    others: [i64; 9],
}

unsafe extern "C" {
    fn getrusage(who: i32, usage: *mut Usage) -> i32;
}

const RUSAGE_SELF: i32 = 0;

/// Minor page faults of this process so far.
pub fn minor_faults() -> i64 {
    let mut usage = Usage {
        times: [0; 4],
        before: [0; 4],
        minor_faults: 0,
        others: [0; 9],
    };
    // SAFETY: the struct has the layout of a 64-bit rusage of Linux, and lives during the call.
    let status = unsafe { getrusage(RUSAGE_SELF, &mut usage) };
    assert_eq!(status, 0, "the process's use can be read");
    usage.minor_faults
}
