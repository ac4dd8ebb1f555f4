// Made from crates/qs_cli/src/draining.rt by rust/erase; not edited by hand.
//! Plays scripts, and then leads both ends to rest.

use crate::shim::{String, Vec};

use crate::proved::qs_cli::report_text::play_text;
use crate::proved::qs_cli::scripts::{show, show_missing, show_script_fault, written};
use crate::proved::qs_cli::status::Status;
use crate::proved::qs_world::{Drained, Event, PlayFault, Report, Settings, parse_script, play_drained};
use crate::shim::alloc::{AllocError, Global};
use crate::shim::io;

/// None that a run meets: where no call is refused both come to rest.
const MOST_DRAINED: u64 = u64::MAX;

/// Plays a script between two ends of these settings, and then plain rounds until both ends are at rest. It writes the report of it all,
/// as [`crate::proved::qs_cli::report_play`] does, and at last the line `at rest` or `not at rest`. It answers that report.
pub fn report_drained<W: io::Write>(
    alloc: Global,
    settings: Settings,
    script: &[u8],
    out: &mut W,
) -> Result<Report, Status> {
    match parse_script(alloc, script) {
        Ok(events) => drained_events(alloc, settings, events, out),
        Err(fault) => Err(show_script_fault(alloc, fault, out)),
    }
}

fn drained_events<W: io::Write>(
    alloc: Global,
    settings: Settings,
    events: Vec<Event>,
    out: &mut W,
) -> Result<Report, Status> {
    match play_drained(alloc, settings, settings, events, MOST_DRAINED) {
        Ok((report, drained)) => {
            let status = show_drained(alloc, &report, drained, out);
            written(report, status)
        }
        Err(PlayFault::NoSuchPacket { event }) => Err(show_missing(alloc, event, out)),
        Err(PlayFault::NoMemory) => Err(Status::NoMemory),
        Err(PlayFault::Setup(_)) => unreachable!(),
    }
}

/// Writes a report, and the line that tells whether both ends came to rest.
fn show_drained<W: io::Write>(
    alloc: Global,
    report: &Report,
    drained: Drained,
    out: &mut W,
) -> Status {
    match drained_text(alloc, report, drained) {
        Ok(text) => show(&text, Status::Success, out),
        Err(_) => Status::NoMemory,
    }
}

fn drained_text(alloc: Global, report: &Report, drained: Drained) -> Result<String, AllocError> {
    let mut text = play_text(alloc, report)?;
    text.push_str(rest_line(drained))?;
    Ok(text)
}

fn rest_line(drained: Drained) -> &'static str {
    match drained {
        Drained::AtRest => "at rest\n",
        Drained::UsedUp => "not at rest\n",
    }
}
