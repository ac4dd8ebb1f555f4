//! Small deterministic pieces of work. `bench/count` counts their instructions, `bench/calls` their function calls.

use crate::acts::{Act, played};
use crate::counting::gotsavena_counted;
use crate::ends::{Load, PLAIN, Pair, Way};
use crate::growth::{
    LONG_PAST, SHORT_PAST, events_after, fills, lossy, none_after, outstanding, requests,
};
use crate::parts::{IN_REVERSE, half_takes_in_order, half_takes_in_reverse, mixed, read_once};
use crate::requests::{Manner, Past, Requests};

/// A named piece of work.
pub struct Counted {
    pub name: &'static str,
    /// Does it once after a warm-up, and returns the number of units.
    pub run: fn() -> u64,
}

// Makes this many calls uncounted, then as many counted.
fn calls(mut call: impl FnMut(), count: u64) {
    for _ in 0..count {
        call();
    }
    gotsavena_counted(&mut || {
        for _ in 0..count {
            call();
        }
    });
}

fn decode() -> u64 {
    let (payload, frames) = mixed();
    let times = 500;
    gotsavena_counted(&mut || {
        for _ in 0..times {
            read_once(&payload);
        }
    });
    times * frames
}

fn in_order() -> u64 {
    calls(half_takes_in_order(), 2_000);
    2_000
}

fn reverse() -> u64 {
    calls(half_takes_in_reverse(), 40);
    40 * IN_REVERSE
}

/// Packets are sent, read and acknowledged. The first bursts warm up, the others are counted.
pub fn turns_of(load: Load, before: u64, counted: u64) -> u64 {
    let mut pair = Pair::new(load);
    pair.play(before);
    let made = pair.made;
    gotsavena_counted(&mut || pair.play(counted));
    pair.made - made
}

// The same with this many active streams.
fn small(active: u64, way: Way) -> u64 {
    let load = Load {
        way,
        active,
        open: active,
        window: 16 << 10,
        write: 1200,
        ..PLAIN
    };
    turns_of(load, 200, 100)
}

fn request(manner: Manner) -> u64 {
    let mut requests = Requests::new(manner, 1 << 16);
    calls(|| requests.play(), 1_000);
    1_000
}

/// The works that have limits, those of which `bench/count --growth` shows the growth, and the acts of `bench/calls`.
pub fn all() -> Vec<Counted> {
    let counted = |name, run| Counted { name, run };
    vec![
        counted("decode", decode),
        counted("in-order", in_order),
        counted("reverse", reverse),
        counted("loop", || turns_of(PLAIN, 200, 200)),
        counted("loop-events", || {
            let load = Load {
                polls: true,
                ..PLAIN
            };
            turns_of(load, 200, 200)
        }),
        counted("loop-1", || small(1, Way::Made)),
        counted("loop-64", || small(64, Way::Made)),
        counted("filled-1", || small(1, Way::Filled)),
        counted("taken-1", || small(1, Way::Taken)),
        counted("16383", || {
            let load = Load {
                room: 16_383,
                ..PLAIN
            };
            turns_of(load, 40, 40)
        }),
        counted("lost-each-10th", || {
            turns_of(Load { lose: 10, ..PLAIN }, 200, 200)
        }),
        counted("request", || request(Manner::Packets)),
        counted("request-events", || request(Manner::Events)),
        counted("steps", || request(Manner::Steps)),
        counted("window-1m", || lossy(1 << 20, 500, 40)),
        counted("window-64m", || lossy(64 << 20, 40_000, 1)),
        counted("outstanding-10", || outstanding(10, 400)),
        counted("outstanding-100000", || outstanding(100_000, 1)),
        counted("requests-first", || requests(0)),
        // Past the power of two, at which each table takes twice its room: all requests before share that, and not the 64 that are counted.
        counted("requests-after-2-to-the-20", || requests((1 << 20) + 100)),
        counted("none-short", || none_after(Past::Plain, SHORT_PAST)),
        counted("none-long", || none_after(Past::Plain, LONG_PAST)),
        counted("none-long-cancelled", || {
            none_after(Past::Cancelled, LONG_PAST)
        }),
        counted("none-long-one-open", || {
            none_after(Past::OneOpen, LONG_PAST)
        }),
        counted("events-short", || events_after(Past::Plain, SHORT_PAST)),
        counted("events-long", || events_after(Past::Plain, LONG_PAST)),
        counted("events-long-cancelled", || {
            events_after(Past::Cancelled, LONG_PAST)
        }),
        counted("events-long-one-open", || {
            events_after(Past::OneOpen, LONG_PAST)
        }),
        counted("fill-of-100", || fills(100)),
        counted("fill-of-10000", || fills(10_000)),
        counted("write", || played(Act::Write)),
        counted("make", || played(Act::Make)),
        counted("receive", || played(Act::Receive)),
        counted("read", || played(Act::Read)),
        counted("lose", || played(Act::Lose)),
        counted("ack-late", || played(Act::AckLate)),
    ]
}
