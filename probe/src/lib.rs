//! Probes the stream layer of any QUIC endpoint: what it does with frames is compared with what the proved layer says of them.

pub mod cases;
pub mod link;
pub mod mirror;
pub mod options;
pub mod outcome;
pub mod play;
pub mod random;
pub mod report;
pub mod run;
pub mod seen;
pub mod subject;
pub mod vectors;
pub mod verdicts;
pub mod wire;
