//! How a process ends.

use super::HostRuntime;

pub use std::process::ExitCode;

/// The leave to end the process, as a test that fails does.
#[allow(dead_code, reason = "only tests have it")]
pub trait Abort {}

impl Abort for HostRuntime {}
