// The works of bench/src/counted.rs that have a counterpart here, by their names.
use std::sync::atomic::Ordering;

use super::attacks::gotsavena_counted;
use super::ends::{Load, PLAIN, Pair};
use super::growth::{fills, lossy, outstanding, requests};
use super::parts::{IN_REVERSE, half_takes_in_order, half_takes_in_reverse, mixed, read_once};
use super::requests::{Manner, Requests};
use super::{IS_CHECKED, Row};

fn calls(mut call: impl FnMut(), count: u64) {
    for _ in 0..count {
        call();
    }
    gotsavena_counted(&mut || {
        for _ in 0..count {
            call();
        }
    });
}

fn decode() -> u64 {
    let (payload, frames) = mixed();
    let times = 500;
    gotsavena_counted(&mut || {
        for _ in 0..times {
            read_once(&payload);
        }
    });
    times * frames
}

pub fn turns_of(load: Load, before: u64, counted: u64) -> u64 {
    let mut pair = Pair::new(load);
    pair.play(before);
    let made = pair.made;
    gotsavena_counted(&mut || pair.play(counted));
    pair.made - made
}

fn small(active: u32) -> u64 {
    let load = Load {
        active,
        open: active,
        window: 16 << 10,
        write: 1200,
        ..PLAIN
    };
    turns_of(load, 200, 100)
}

fn request(manner: Manner) -> u64 {
    let mut requests = Requests::new(manner);
    calls(|| requests.play(), 1_000);
    1_000
}

const ALL: &[Row<u64>] = &[
    ("decode", decode),
    ("in-order", || {
        calls(half_takes_in_order(), 2_000);
        2_000
    }),
    ("reverse", || {
        calls(half_takes_in_reverse(), 40);
        40 * IN_REVERSE
    }),
    ("loop", || turns_of(PLAIN, 200, 200)),
    ("loop-events", || turns_of(PLAIN, 200, 200)),
    ("loop-1", || small(1)),
    ("loop-64", || small(64)),
    ("16383", || {
        let load = Load {
            room: 16_383,
            ..PLAIN
        };
        turns_of(load, 40, 40)
    }),
    ("lost-each-10th", || {
        turns_of(Load { lose: 10, ..PLAIN }, 200, 200)
    }),
    ("request", || request(Manner::Packets)),
    ("request-events", || request(Manner::Events)),
    ("steps", || request(Manner::Steps)),
    ("window-1m", || lossy(1 << 20, 500, 40)),
    ("window-64m", || lossy(64 << 20, 40_000, 1)),
    ("outstanding-10", || outstanding(10, 400)),
    ("outstanding-100000", || outstanding(100_000, 1)),
    ("requests-first", || requests(0)),
    ("requests-after-2-to-the-20", || requests((1 << 20) + 100)),
    ("fill-of-100", || fills(100)),
    ("fill-of-10000", || fills(10_000)),
];

// Does the named work and prints its units. Without a name it lists the works.
pub fn count(name: Option<String>) {
    IS_CHECKED.store(false, Ordering::Relaxed);
    match name {
        None => ALL.iter().for_each(|work| println!("{}", work.0)),
        Some(name) => match ALL.iter().find(|work| work.0 == name) {
            Some(work) => println!("{}", (work.1)()),
            None => {
                eprintln!("driver: there is no work {}", name);
                std::process::exit(2)
            }
        },
    }
}
