// The same rows over quinn-proto's stream layer: `driver ROW` prints the nanoseconds of a unit, `driver` alone
// lists the rows. `build` puts this file as a private module's child into a scratch copy of the installed package, so that it reaches
// the parts that have no public name. Nothing of the peer's source stands here.

// The lints that the package allows its own files are allowed here too.
#![deny(warnings)]

use std::sync::OnceLock;
use std::sync::atomic::{AtomicBool, Ordering};
use std::time::Duration;

pub mod attacks;
mod counted;
mod ends;
mod growth;
mod parts;
mod requests;
mod scaling;

use ends::{Load, PLAIN};
use parts::{
    decode_mixed, decode_stream, even_then_odd, half_by_bytes, half_in_order, half_in_reverse,
    insert, send,
};
use requests::{Manner, request_after};
use scaling::{
    active, carried, hostile, idle, open, outstanding, raised, same_ack, threads, transfer,
};

const CHUNK: usize = 1200;

struct Run {
    time: Duration,
    units: u64,
}

#[repr(C)]
struct Timespec {
    seconds: i64,
    nanoseconds: i64,
}

extern "C" {
    fn clock_gettime(clock: i32, time: *mut Timespec) -> i32;
}

// The processor's time of this thread.
fn now() -> Duration {
    let mut time = Timespec {
        seconds: 0,
        nanoseconds: 0,
    };
    // SAFETY: the struct has the layout of a 64-bit timespec of Linux; 3 is CLOCK_THREAD_CPUTIME_ID.
    assert_eq!(unsafe { clock_gettime(3, &mut time) }, 0);
    Duration::new(time.seconds as u64, time.nanoseconds as u32)
}

fn time(work: impl FnOnce()) -> Duration {
    let before = now();
    work();
    now() - before
}

// The bytes: the one at an offset is the offset modulo 251. The first run warms up and compares each byte that is read.

const PERIOD: u64 = 251;

static IS_CHECKED: AtomicBool = AtomicBool::new(true);

fn pattern(len: usize) -> Vec<u8> {
    (0..len as u64 + PERIOD)
        .map(|i| (i % PERIOD) as u8)
        .collect()
}

// Where the bytes at an offset of a stream begin in the pattern.
fn place(offset: u64) -> usize {
    (offset % PERIOD) as usize
}

#[inline]
fn check(offset: u64, bytes: &[u8]) {
    if IS_CHECKED.load(Ordering::Relaxed) {
        compare(offset, bytes);
    }
}

#[cold]
#[inline(never)]
fn compare(offset: u64, bytes: &[u8]) {
    static WANTED: OnceLock<Vec<u8>> = OnceLock::new();
    let wanted = WANTED.get_or_init(|| pattern(1 << 16));
    for (k, some) in bytes.chunks(1 << 16).enumerate() {
        let from = place(offset + (k << 16) as u64);
        assert!(some == &wanted[from..from + some.len()], "the bytes differ");
    }
}

// A row's name, and the function that runs it once.
type Row<T> = (&'static str, fn() -> T);

const ROWS: &[Row<Run>] = &[
    ("decode-mixed", decode_mixed),
    ("decode-stream-1200", || decode_stream(1187)),
    ("decode-stream-32", || decode_stream(32)),
    ("half-in-order", half_in_order),
    ("half-in-reverse", half_in_reverse),
    ("half-bytes-in-order", || {
        half_by_bytes((0..1 << 16).collect())
    }),
    (
        "half-bytes-even-then-odd",
        || half_by_bytes(even_then_odd()),
    ),
    ("send-1-under-way", || send(1)),
    ("send-54-under-way", || send(54)),
    ("send-870-under-way", || send(870)),
    ("set-in-order", || insert(0..1_000_000, 1)),
    ("set-every-other-up", || {
        insert((0..1_000_000).map(|n| 2 * n), 1_000_000)
    }),
    ("set-every-other-down-65536", || {
        insert((0..65_536).rev().map(|n| 2 * n), 65_536)
    }),
    ("set-every-other-down-1000000", || {
        insert((0..1_000_000).rev().map(|n| 2 * n), 1_000_000)
    }),
    ("hostile-bytes-64k", hostile),
    ("loop", || transfer(PLAIN)),
    // Ours asks for events here too, so both are timed alike.
    ("loop-events", || transfer(PLAIN)),
    ("loop-ack-each-2", || transfer(Load { burst: 2, ..PLAIN })),
    ("loop-lost-each-100th", || {
        transfer(Load { lose: 100, ..PLAIN })
    }),
    ("loop-lost-each-10th", || {
        transfer(Load { lose: 10, ..PLAIN })
    }),
    ("loop-window-64k", || {
        transfer(Load {
            window: 64 << 10,
            ..PLAIN
        })
    }),
    ("loop-writes-1200", || {
        transfer(Load {
            write: 1200,
            total: 64 << 20,
            ..PLAIN
        })
    }),
    ("loop-writes-64", || {
        transfer(Load {
            write: 64,
            total: 4 << 20,
            ..PLAIN
        })
    }),
    ("loop-packets-16383", || {
        transfer(Load {
            room: 16_383,
            ..PLAIN
        })
    }),
    ("open-1", || open(1)),
    ("open-64", || open(64)),
    ("open-1000", || open(1000)),
    ("open-4096", || open(4096)),
    ("open-8192", || open(8192)),
    ("active-1", || active(1)),
    ("active-64", || active(64)),
    ("active-1000", || active(1000)),
    ("active-4096", || active(4096)),
    ("carried-1", || carried(1)),
    ("carried-64", || carried(64)),
    ("carried-1000", || carried(1000)),
    ("carried-4096", || carried(4096)),
    ("raised-1", || raised(1)),
    ("raised-64", || raised(64)),
    ("raised-1000", || raised(1000)),
    ("raised-4096", || raised(4096)),
    ("outstanding-10", || outstanding(10)),
    ("outstanding-100", || outstanding(100)),
    ("outstanding-1000", || outstanding(1_000)),
    ("outstanding-10000", || outstanding(10_000)),
    ("outstanding-100000", || outstanding(100_000)),
    ("threads-1", || threads(1)),
    ("threads-2", || threads(2)),
    ("threads-4", || threads(4)),
    ("same-ack-32-ranges-of-10000", || same_ack(10_000)),
    ("request", || request_after(0, Manner::Packets)),
    ("request-after-60000", || {
        request_after(60_000, Manner::Packets)
    }),
    ("request-events", || request_after(0, Manner::Events)),
    ("steps", || request_after(0, Manner::Steps)),
];

// The rows that measure bytes. A million endpoints would take 57 GB.
const SIZES: &[Row<f64>] = &[
    ("idle-1", || idle(1)),
    ("idle-100", || idle(100)),
    ("idle-10000", || idle(10_000)),
];

pub fn main() {
    let name = match std::env::args().nth(1) {
        Some(name) => name,
        None => {
            ROWS.iter().for_each(|row| println!("{}", row.0));
            return SIZES.iter().for_each(|row| println!("{}", row.0));
        }
    };
    if name == "--count" {
        return counted::count(std::env::args().nth(2));
    }
    if let Some(row) = SIZES.iter().find(|row| row.0 == name) {
        return println!("{:.2}", (row.1)());
    }
    match ROWS.iter().find(|row| row.0 == name) {
        Some(row) => {
            (row.1)();
            IS_CHECKED.store(false, Ordering::Relaxed);
            let run = (row.1)();
            println!("{:.2}", run.time.as_nanos() as f64 / run.units as f64);
        }
        None => {
            eprintln!("driver: there is no row {}", name);
            std::process::exit(2)
        }
    }
}
