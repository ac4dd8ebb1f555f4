// Made from crates/qs_tool/src/telling.rt by rust/erase; not edited by hand.
//! The lines on standard error before the last one, which tell why.

use crate::shim::{HostRuntime, String, format};

use crate::proved::qs_cli::Status;
use crate::proved::qs_world::parse_script;
use crate::shim::alloc::AllocError;
use crate::shim::io;

/// Tells a text, and answers the status that goes with it. If standard error can't be written, nothing else can be done.
pub fn tell(rt: &HostRuntime, text: &str, status: Status) -> Status {
    match rt.eprintln(text) {
        Ok(()) | Err(_) => status,
    }
}

/// The same of a text that memory may have been refused for.
pub fn tell_made(rt: &HostRuntime, text: Result<String, AllocError>, status: Status) -> Status {
    match text {
        Ok(text) => tell(rt, text.as_str(), status),
        Err(_) => status,
    }
}

/// Tells the fault of a script in words, if it has one.
pub fn tell_fault(rt: &HostRuntime, script: &[u8], status: Status) -> Status {
    match parse_script(rt.alloc(), script) {
        Ok(_) => status,
        Err(fault) => tell_made(rt, format!(in rt.alloc(); "qstream: {fault}"), status),
    }
}

/// What kept a file from being opened, read or written.
pub fn reason(error: &io::Error) -> &'static str {
    match error.kind() {
        io::ErrorKind::NotFound => "No such file or folder",
        io::ErrorKind::PermissionDenied => "permission denied",
        io::ErrorKind::IsADirectory => "it is a folder",
        io::ErrorKind::NotADirectory => "a part of its path is no folder",
        io::ErrorKind::StorageFull => "no room is left",
        io::ErrorKind::OutOfMemory => "memory was refused",
        _ => "it failed",
    }
}
