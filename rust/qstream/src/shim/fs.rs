//! Files.

use super::{HostRuntime, io};
use std::fs::File;

/// Opens a file to be read.
pub fn open(_rt: &HostRuntime, name: &str) -> io::Result<File> {
    File::open(name)
}

/// Makes a file of that name, or empties it where there is one, and writes the text.
pub fn write(_rt: &HostRuntime, name: &str, text: &str) -> io::Result<()> {
    std::fs::write(name, text)
}
