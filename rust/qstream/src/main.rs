//! The program `qstream`: shows the frames of a payload, plays scripts, and makes random ones. It is the proved source with its ghosts
//! erased, the library's too.
#![forbid(unsafe_code)]

#[cfg(not(target_pointer_width = "64"))]
compile_error!("qstream needs a target with pointers of 64 bits");

#[rustfmt::skip]
mod proved;
mod shim;

use std::process::ExitCode;

fn main() -> ExitCode {
    proved::qs_tool::main(shim::HostRuntime::new())
}
