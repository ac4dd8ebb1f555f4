//! Processor time of this thread. Other work on the machine changes it only through caches and clock speed.

use std::time::Duration;

#[repr(C)]
struct Timespec {
    seconds: i64,
    nanoseconds: i64,
}

const CLOCK_THREAD_CPUTIME_ID: i32 = 3;

unsafe extern "C" {
    fn clock_gettime(clock: i32, time: *mut Timespec) -> i32;
}

fn now() -> Duration {
    let mut time = Timespec {
        seconds: 0,
        nanoseconds: 0,
    };
    // SAFETY: the struct has the layout of a 64-bit timespec of Linux, and lives during the call.
    let status = unsafe { clock_gettime(CLOCK_THREAD_CPUTIME_ID, &mut time) };
    assert_eq!(status, 0, "the thread's clock can be read");
    Duration::new(time.seconds as u64, time.nanoseconds as u32)
}

/// How long the work took.
pub fn time(work: impl FnOnce()) -> Duration {
    let before = now();
    work();
    now() - before
}
