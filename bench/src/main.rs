//! Times one row: `gotsavena-bench ROW` runs it once to warm up, with each byte compared, and once timed, and prints the nanoseconds of a
//! unit. `gotsavena-bench` alone lists the rows, each with its unit and its measure: `ns`, or `B` if the row measures memory. `bench/run`
//! alternates it with the peers' drivers. `gotsavena-bench --once ROW` runs it once, with each byte compared, and prints nothing.
//! `gotsavena-bench --count WORK` does a small piece of work once and prints its units, under a counter of instructions.

mod acts;
mod clock;
mod copies;
mod counted;
mod counting;
mod ends;
mod growth;
mod idle;
mod parts;
mod pattern;
mod requests;
mod scaling;
mod searches;
mod whole;

// The parts are private modules of the crate, so their source is compiled into this program too. That source is made, so rustfmt skips it.
#[path = "../../rust/src/proved/mod.rs"]
#[rustfmt::skip]
mod proved;
#[path = "../../rust/src/shim/mod.rs"]
mod shim;

use std::process::ExitCode;
use std::time::Duration;

/// The time of a run, and its number of units.
pub struct Run {
    pub time: Duration,
    pub units: u64,
}

/// A row of the table.
pub struct Row {
    pub name: &'static str,
    pub unit: &'static str,
    pub run: fn() -> Run,
}

fn main() -> ExitCode {
    let rows: Vec<Row> = [
        parts::rows(),
        whole::rows(),
        copies::rows(),
        scaling::rows(),
        requests::rows(),
        searches::rows(),
    ]
    .into_iter()
    .flatten()
    .collect();
    let Some(name) = std::env::args().nth(1) else {
        for row in rows {
            println!("{} {} ns", row.name, row.unit);
        }
        for row in idle::rows() {
            println!("{} {} B", row.name, row.unit);
        }
        return ExitCode::SUCCESS;
    };
    if name == "--count" {
        return count(std::env::args().nth(2));
    }
    let is_once = name == "--once";
    let name = if is_once {
        std::env::args().nth(2).unwrap_or_default()
    } else {
        name
    };
    if let Some(row) = idle::rows().iter().find(|row| row.name == name) {
        println!("{:.2}", (row.run)());
        return ExitCode::SUCCESS;
    }
    let Some(row) = rows.iter().find(|row| row.name == name) else {
        eprintln!("gotsavena-bench: there is no row {name}");
        return ExitCode::from(2);
    };
    (row.run)();
    if is_once {
        return ExitCode::SUCCESS;
    }
    pattern::check_no_more();
    let run = (row.run)();
    println!("{:.2}", run.time.as_nanos() as f64 / run.units as f64);
    ExitCode::SUCCESS
}

// Does the named work and prints its units.
fn count(name: Option<String>) -> ExitCode {
    let all = counted::all();
    let Some(work) = all.iter().find(|work| Some(work.name) == name.as_deref()) else {
        let names: Vec<_> = all.iter().map(|work| work.name).collect();
        eprintln!("gotsavena-bench: --count wants one of {}", names.join(", "));
        return ExitCode::from(2);
    };
    // So that comparing isn't counted.
    pattern::check_no_more();
    println!("{}", (work.run)());
    ExitCode::SUCCESS
}
