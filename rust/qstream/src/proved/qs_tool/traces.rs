// Made from crates/qs_tool/src/traces.rt by rust/erase; not edited by hand.
//! Writes the traces of both ends of a run to files.

use crate::shim::{HostRuntime, format};
use crate::proved::qs_tool::telling::{reason, tell_made};
use crate::proved::qs_calls::{Answer, Event, Side};
use crate::proved::qs_cli::Status;
use crate::proved::qs_trace::{trace, vantage_name};
use crate::shim::fs;

/// Writes what each endpoint saw of a log, the client to NAME.client.sqlog and the server to NAME.server.sqlog: a sequence of qlog 0.4 has
/// one trace, and a trace one vantage point. `NoMemory` if memory was refused, and `Failed` if a file can't be written, which a line on
/// standard error names.
pub fn write_traces(rt: &HostRuntime, name: &str, log: &[(Event, Answer)]) -> Status {
    match write_trace(rt, name, Side::A, log) {
        Status::Success => write_trace(rt, name, Side::B, log),
        status => status,
    }
}

fn write_trace(rt: &HostRuntime, name: &str, side: Side, log: &[(Event, Answer)]) -> Status {
    let Ok(text) = trace(rt.alloc(), side, log) else {
        return Status::NoMemory;
    };
    let Ok(file) = format!(in rt.alloc(); "{name}.{}.sqlog", vantage_name(side)) else {
        return Status::NoMemory;
    };
    let file = file.as_str();
    match fs::write(rt, file, text.as_str()) {
        Ok(()) => Status::Success,
        Err(error) => {
            let why = reason(&error);
            let line = format!(in rt.alloc(); "qstream: can't write {file}: {why}");
            tell_made(rt, line, Status::Failed)
        }
    }
}
