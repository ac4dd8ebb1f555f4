//! The whole loop: write, make packets, receive, read, acknowledge, and send back credit.

use crate::clock::time;
use crate::ends::{Load, PLAIN, Pair, Way};
use crate::{Row, Run};

pub fn transfer(load: Load) -> Run {
    let mut pair = Pair::new(load);
    let mut read = 0;
    let time = time(|| {
        while read < load.total {
            pair.write();
            pair.carry();
            read += pair.read();
            pair.answer();
        }
    });
    Run {
        time,
        units: pair.made,
    }
}

pub fn rows() -> Vec<Row> {
    let row = |name, run| Row {
        name,
        unit: "packet",
        run,
    };
    vec![
        row("loop", || transfer(PLAIN)),
        row("loop-events", || {
            transfer(Load {
                polls: true,
                ..PLAIN
            })
        }),
        row("filled", || {
            transfer(Load {
                way: Way::Filled,
                ..PLAIN
            })
        }),
        row("taken", || {
            transfer(Load {
                way: Way::Taken,
                ..PLAIN
            })
        }),
        row("loop-ack-each-2", || transfer(Load { burst: 2, ..PLAIN })),
        row("loop-lost-each-100th", || {
            transfer(Load { lose: 100, ..PLAIN })
        }),
        row("loop-lost-each-10th", || {
            transfer(Load { lose: 10, ..PLAIN })
        }),
        row("loop-window-64k", || {
            transfer(Load {
                window: 64 << 10,
                ..PLAIN
            })
        }),
        row("loop-writes-1200", || {
            transfer(Load {
                write: 1200,
                total: 64 << 20,
                ..PLAIN
            })
        }),
        row("loop-writes-64", || {
            transfer(Load {
                write: 64,
                total: 4 << 20,
                ..PLAIN
            })
        }),
        row("loop-packets-16383", || {
            transfer(Load {
                room: 16_383,
                ..PLAIN
            })
        }),
    ]
}
