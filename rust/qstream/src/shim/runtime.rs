//! What a program gets from its host.

use super::alloc::Global;
use super::io;
use std::io::Write;

/// The allocator, the streams and the sockets of this process.
#[derive(Clone, Copy, Debug)]
pub struct HostRuntime {
    alloc: Global,
}

impl HostRuntime {
    pub const fn new() -> Self {
        HostRuntime { alloc: Global }
    }

    pub const fn alloc(&self) -> Global {
        self.alloc
    }

    /// A reader of the standard input.
    pub const fn reader(&self) -> io::Reader {
        io::Reader
    }

    /// Writes a line to the standard error.
    pub fn eprintln(&self, line: &str) -> io::Result<()> {
        let mut err = std::io::stderr().lock();
        err.write_all(line.as_bytes())?;
        err.write_all(b"\n")
    }
}
