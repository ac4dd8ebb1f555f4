// Made from crates/qs_tool/src/input.rt by rust/erase; not edited by hand.
//! Reads a script whole.

use crate::shim::{HostRuntime, Vec, format};

use crate::proved::qs_tool::telling::{reason, tell_made};
use crate::proved::qs_cli::Status;
use crate::shim::alloc::Global;
use crate::shim::fs;
use crate::shim::io::Read;

/// More is no script, and would only fill memory.
const MAX_SCRIPT: usize = 16_777_216;

/// The bytes of the file of that name, or of standard input if that is `-`. `Failed` if they can't be read: a line says why, which begins
/// with the command.
pub fn read_file(rt: &HostRuntime, command: &str, name: &str) -> Result<Vec<u8>, Status> {
    let read = if name == "-" {
        read_whole(rt.alloc(), &mut rt.reader())
    } else {
        match fs::open(rt, name) {
            Ok(mut file) => read_whole(rt.alloc(), &mut file),
            Err(error) => Err(reason(&error)),
        }
    };
    match read {
        Ok(bytes) => Ok(bytes),
        Err(why) => {
            let line = format!(in rt.alloc(); "qstream: {command} {name}: {why}");
            Err(tell_made(rt, line, Status::Failed))
        }
    }
}

/// All bytes that a reader has left; or why not, if these are more than 16,777,216, reading failed or memory was refused.
pub fn read_whole<R: Read>(alloc: Global, reader: &mut R) -> Result<Vec<u8>, &'static str> {
    let mut bytes = Vec::new(alloc);
    match reader
        .by_ref()
        .take(MAX_SCRIPT as u64 + 1)
        .read_to_end(&mut bytes)
    {
        Ok(_) if bytes.len() <= MAX_SCRIPT => Ok(bytes),
        Ok(_) => Err("more than 16777216 bytes"),
        Err(error) => Err(reason(&error)),
    }
}
