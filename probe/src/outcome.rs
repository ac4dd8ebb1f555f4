//! What came of a case, in a word and a line.

use crate::cases::Owed;
use crate::seen::Out;
use crate::verdicts::{Permit, Word};
use crate::wire::{code_name, name};
use serde::Serialize;
use std::fmt;

#[derive(Clone, Copy, Debug, PartialEq, Eq, PartialOrd, Ord, Serialize)]
#[serde(rename_all = "kebab-case")]
pub enum Class {
    /// As the mirror does.
    AsExpected,
    /// Otherwise, and RFC 9000 permits it.
    Permitted,
    /// It doesn't send what it need not.
    Choice,
    NotApplicable,
    /// It closes with another code than the one that is named, and not with a generic one (RFC 9000, section 11).
    Code,
    /// A SHOULD isn't met.
    Should,
    /// It doesn't grant again what was used, so that its peer waits for ever.
    Stalls,
    /// A MUST isn't met.
    Must,
    /// It neither acknowledges nor closes.
    Silent,
    /// Its process ended.
    Ended,
    /// There was no connection.
    NotRun,
}

#[derive(Clone, Debug, PartialEq, Eq)]
pub struct Outcome {
    pub class: Class,
    pub told: String,
}

/// A generic code may stand for any other (RFC 9000, section 11).
const GENERIC: [u64; 2] = [0x01, 0x0a];

impl Class {
    pub fn is_difference(self) -> bool {
        matches!(
            self,
            Class::Code
                | Class::Should
                | Class::Stalls
                | Class::Must
                | Class::Silent
                | Class::Ended
        )
    }
}

impl fmt::Display for Class {
    fn fmt(&self, f: &mut fmt::Formatter<'_>) -> fmt::Result {
        f.pad(match self {
            Class::AsExpected => "as expected",
            Class::Permitted => "permitted",
            Class::Choice => "choice",
            Class::NotApplicable => "not applicable",
            Class::Code => "code",
            Class::Should => "SHOULD",
            Class::Stalls => "stalls",
            Class::Must => "MUST",
            Class::Silent => "silent",
            Class::Ended => "ended",
            Class::NotRun => "not run",
        })
    }
}

impl Outcome {
    pub fn new(class: Class, told: impl Into<String>) -> Outcome {
        Outcome {
            class,
            told: told.into(),
        }
    }

    pub fn of(permit: &Permit, out: &Out) -> Outcome {
        let class = match (out, permit.word) {
            (Out::Silent, _) => Class::Silent,
            (Out::GoesOn, None) => Class::AsExpected,
            (Out::GoesOn, Some(Word::May)) => Class::Permitted,
            (Out::GoesOn, Some(Word::Should)) => Class::Should,
            (Out::GoesOn, Some(Word::Must)) => Class::Must,
            (Out::Closes { .. }, None) => Class::Must,
            (
                Out::Closes {
                    by_application,
                    code,
                    ..
                },
                Some(_),
            ) => of_code(permit, *by_application, *code),
        };
        Outcome::new(class, out.to_string())
    }

    pub fn owed(owed: Owed) -> Outcome {
        let (class, what) = match owed {
            Owed::Reset(..) => (Class::Must, "RESET_STREAM (3.5)"),
            Owed::Stream(_) => (Class::Stalls, "MAX_STREAM_DATA (4.2)"),
            Owed::Data => (Class::Stalls, "MAX_DATA (4.2)"),
            Owed::Streams(_) => (Class::Stalls, "MAX_STREAMS (4.6)"),
            Owed::Blocked => (Class::Should, "DATA_BLOCKED or STREAM_DATA_BLOCKED (4.1)"),
            Owed::PathResponse => (Class::Must, "PATH_RESPONSE (8.2.2)"),
            Owed::Again => (Class::Must, "what was lost (13.3)"),
            Owed::ResetAgain => (Class::Must, "RESET_STREAM that was lost (13.3)"),
        };
        Outcome::new(class, format!("never sends {what}"))
    }
}

fn of_code(permit: &Permit, by_application: bool, code: u64) -> Class {
    let first = permit.codes.first().copied();
    match by_application {
        true => Class::Code,
        false if first == Some(code) => Class::AsExpected,
        false if permit.codes.contains(&code) || GENERIC.contains(&code) => Class::Permitted,
        false => Class::Code,
    }
}

impl fmt::Display for Out {
    fn fmt(&self, f: &mut fmt::Formatter<'_>) -> fmt::Result {
        match self {
            Out::GoesOn => f.write_str("goes on"),
            Out::Silent => f.write_str("falls silent"),
            Out::Closes {
                by_application: true,
                code,
                ..
            } => write!(f, "its application closes with {code:#x}"),
            Out::Closes {
                code, frame_type, ..
            } => {
                write!(f, "closes with {code:#x} {}", code_name(*code))?;
                match frame_type {
                    0 => Ok(()),
                    kind => write!(f, " for {}", name(*kind)),
                }
            }
        }
    }
}
