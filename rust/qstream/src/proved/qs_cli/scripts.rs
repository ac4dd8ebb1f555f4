// Made from crates/qs_cli/src/scripts.rt by rust/erase; not edited by hand.
//! Plays events and scripts, and makes scripts of random events.

use crate::shim::{String, Vec, format};

use crate::proved::qs_cli::report_text::play_text;
use crate::proved::qs_cli::status::Status;
use crate::proved::qs_text::script_text;
use crate::proved::qs_world::{
    Event, PlayFault, Reason, Report, ScriptFault, Settings, parse_script, play, play_all,
    random_script, standard_settings,
};
use crate::shim::alloc::{AllocError, Global};
use crate::shim::io;

/// Plays events between two ends of these settings, and writes the report: a line for each event with its answer, for each lane and for
/// each end. It answers the exit status. An event that delivers a packet which wasn't made is named in place of it all.
///
/// It is written once the text stands whole, so that `NoMemory` means that nothing was written. `Failed` if writing failed.
pub fn run_events<W: io::Write>(
    alloc: Global,
    settings: Settings,
    events: &[Event],
    out: &mut W,
) -> Status {
    let played = play(alloc, settings, settings, events);
    status_of(show_played(alloc, played, out))
}

/// As [`run_events`], of the events themselves, and it answers the report that it wrote.
pub fn report_events<W: io::Write>(
    alloc: Global,
    settings: Settings,
    events: Vec<Event>,
    out: &mut W,
) -> Result<Report, Status> {
    let played = play_all(alloc, settings, settings, events);
    show_played(alloc, played, out)
}

fn show_played<W: io::Write>(
    alloc: Global,
    played: Result<Report, PlayFault>,
    out: &mut W,
) -> Result<Report, Status> {
    match played {
        Ok(report) => {
            let status = show_report(alloc, &report, out);
            written(report, status)
        }
        Err(fault) => Err(show_play_fault(alloc, fault, out)),
    }
}

fn show_play_fault<W: io::Write>(alloc: Global, fault: PlayFault, out: &mut W) -> Status {
    match fault {
        PlayFault::NoSuchPacket { event } => show_missing(alloc, event, out),
        PlayFault::NoMemory => Status::NoMemory,
        PlayFault::Setup(_) => unreachable!(),
    }
}

fn show_report<W: io::Write>(alloc: Global, report: &Report, out: &mut W) -> Status {
    match play_text(alloc, report) {
        Ok(text) => show(&text, Status::Success, out),
        Err(_) => Status::NoMemory,
    }
}

/// The exit status of a run that answers the report that it wrote.
pub fn status_of(answer: Result<Report, Status>) -> Status {
    match answer {
        Ok(_) => Status::Success,
        Err(status) => status,
    }
}

/// A report that was written, or the status that tells why it wasn't.
pub fn written(report: Report, status: Status) -> Result<Report, Status> {
    match status {
        Status::Success => Ok(report),
        _ => Err(status),
    }
}

pub fn show_missing<W: io::Write>(alloc: Global, event: usize, out: &mut W) -> Status {
    match format!(in alloc; "fault: no such packet at event {event}\n") {
        Ok(text) => show(&text, Status::FaultShown, out),
        Err(_) => Status::NoMemory,
    }
}

pub fn show<W: io::Write>(text: &String, status: Status, out: &mut W) -> Status {
    match out.write_all(text.as_bytes()) {
        Ok(()) => status,
        Err(_) => Status::Failed,
    }
}

/// Plays a script between two ends of the standard settings, as [`run_play_with`] does.
pub fn run_play<W: io::Write>(alloc: Global, script: &[u8], out: &mut W) -> Status {
    run_play_with(alloc, standard_settings(), script, out)
}

/// Plays a script between two ends of these settings, and writes the report as [`run_events`] does. The fault of a script that can't be
/// read is named in place of it all.
pub fn run_play_with<W: io::Write>(
    alloc: Global,
    settings: Settings,
    script: &[u8],
    out: &mut W,
) -> Status {
    status_of(report_play(alloc, settings, script, out))
}

/// As [`run_play_with`], and it answers the report that it wrote.
pub fn report_play<W: io::Write>(
    alloc: Global,
    settings: Settings,
    script: &[u8],
    out: &mut W,
) -> Result<Report, Status> {
    match parse_script(alloc, script) {
        Ok(events) => report_events(alloc, settings, events, out),
        Err(fault) => Err(show_script_fault(alloc, fault, out)),
    }
}

/// Writes the line that names the fault of a script, unless it is want of memory.
pub fn show_script_fault<W: io::Write>(alloc: Global, fault: ScriptFault, out: &mut W) -> Status {
    if let Reason::NoMemory = fault.reason {
        return Status::NoMemory;
    }
    match script_fault_text(alloc, fault) {
        Ok(text) => show(&text, Status::FaultShown, out),
        Err(_) => Status::NoMemory,
    }
}

fn script_fault_text(alloc: Global, fault: ScriptFault) -> Result<String, AllocError> {
    let (line, reason) = (fault.line, fault.reason.number());
    let mut text = String::new(alloc);
    write!(text, "fault: line {line} reason {reason}\n")?;
    Ok(text)
}

/// Writes a script of so many random events, which the seed determines.
pub fn run_random<W: io::Write>(alloc: Global, seed: u64, n: usize, out: &mut W) -> Status {
    let events = match random_script(alloc, seed, n) {
        Ok(events) => events,
        Err(_) => return Status::NoMemory,
    };
    match script_text(alloc, &events) {
        Ok(text) => show(&text, Status::Success, out),
        Err(_) => Status::NoMemory,
    }
}
