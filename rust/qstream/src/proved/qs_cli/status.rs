// Made from crates/qs_cli/src/status.rt by rust/erase; not edited by hand.
//! The exit status of the program.

/// How a run ended.
#[derive(Clone, Copy, Debug, PartialEq, Eq)]
pub enum Status {
    /// All went well.
    Success,
    /// A fault was found in what was given, and printed.
    FaultShown,
    /// The command line makes no sense, or its hex doesn't.
    BadUsage,
    /// Memory was refused. A run that answers so has written nothing.
    NoMemory,
    /// Reading or writing failed.
    Failed,
}

impl Status {
    /// The number that the process ends with, 0 to 3.
    pub fn code(self) -> u8 {
        match self {
            Status::Success => 0,
            Status::FaultShown => 1,
            Status::BadUsage => 2,
            Status::NoMemory | Status::Failed => 3,
        }
    }
}
