use std::fmt;

#[derive(Clone, Debug, PartialEq, Eq)]
pub struct Fault {
    pub code: u64,
    /// The type of the frame that was at fault, 0 where none was.
    pub frame_type: u64,
    pub reason: String,
}

pub const INTERNAL_ERROR: u64 = 0x01;
pub const CONNECTION_REFUSED: u64 = 0x02;
pub const FRAME_ENCODING_ERROR: u64 = 0x07;
pub const TRANSPORT_PARAMETER_ERROR: u64 = 0x08;
pub const CONNECTION_ID_LIMIT_ERROR: u64 = 0x09;
pub const PROTOCOL_VIOLATION: u64 = 0x0a;
pub const APPLICATION_ERROR: u64 = 0x0c;
pub const CRYPTO_BUFFER_EXCEEDED: u64 = 0x0d;
pub const CRYPTO_ERROR: u64 = 0x100;

impl Fault {
    pub fn new(code: u64, frame_type: u64, reason: &str) -> Fault {
        Fault {
            code,
            frame_type,
            reason: reason.to_owned(),
        }
    }
}

#[derive(Clone, Debug, PartialEq, Eq)]
pub struct Close {
    pub code: u64,
    pub reason: String,
}

impl Close {
    pub fn new(code: u64, reason: &str) -> Close {
        Close {
            code,
            reason: reason.to_owned(),
        }
    }
}

#[derive(Clone, Debug, PartialEq, Eq)]
pub enum Outcome {
    Closed(Close),
    Failed(Fault),
    /// The peer closed it, with a code of QUIC's or of the application.
    PeerClosed {
        by_application: bool,
        code: u64,
        reason: String,
    },
    /// Nothing came for too long (RFC 9000, section 10.1).
    Idle,
    /// The peer lost what it knew of the connection (section 10.3).
    Reset,
    /// No program listens on the server's port.
    Refused,
    /// The peer speaks no version that is spoken here (section 6).
    NoVersion,
}

// A peer may close without a reason (section 19.19), and then no colon is printed.
fn because(f: &mut fmt::Formatter<'_>, reason: &str) -> fmt::Result {
    match reason {
        "" => Ok(()),
        reason => write!(f, ": {reason}"),
    }
}

impl fmt::Display for Fault {
    fn fmt(&self, f: &mut fmt::Formatter<'_>) -> fmt::Result {
        write!(f, "code {:#x}", self.code)?;
        if self.frame_type != 0 {
            write!(f, " for a frame of type {:#x}", self.frame_type)?;
        }
        because(f, &self.reason)
    }
}

impl fmt::Display for Outcome {
    fn fmt(&self, f: &mut fmt::Formatter<'_>) -> fmt::Result {
        match self {
            Outcome::Closed(close) => {
                write!(f, "closed with code {:#x}", close.code)?;
                because(f, &close.reason)
            }
            Outcome::Failed(fault) => write!(f, "failed with {fault}"),
            Outcome::PeerClosed {
                by_application,
                code,
                reason,
            } => {
                let whose = if *by_application {
                    "the application's"
                } else {
                    "QUIC's"
                };
                write!(f, "the peer closed with {whose} code {code:#x}")?;
                because(f, reason)
            }
            Outcome::Idle => f.write_str("nothing came for too long"),
            Outcome::Reset => f.write_str("the peer reset the connection"),
            Outcome::Refused => f.write_str("no program listens on that port"),
            Outcome::NoVersion => f.write_str("the peer does not speak QUIC version 1"),
        }
    }
}

impl std::error::Error for Fault {}
impl std::error::Error for Outcome {}

#[cfg(test)]
mod tests {
    use super::*;

    #[test]
    fn a_reason_stands_behind_each_colon() {
        for (reason, wanted) in [("", "code 0x7"), ("enough", "code 0x7: enough")] {
            let close = Close::new(7, reason);
            let peer = Outcome::PeerClosed {
                by_application: false,
                code: 7,
                reason: reason.to_owned(),
            };
            let failed = Outcome::Failed(Fault::new(7, 0, reason));
            for outcome in [Outcome::Closed(close), failed, peer] {
                assert!(outcome.to_string().ends_with(wanted), "{outcome}");
            }
        }
    }
}
