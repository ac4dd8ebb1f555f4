//! An example: a QUIC version 1 transport around the stream layer `gotsavena`, with DNS over QUIC, HTTP/3 and plain files over
//! its streams, answered to programs that others wrote.
//!
//! **Nothing here is proved.** What is proved is the stream layer's source; handshake, packet protection, loss detection,
//! congestion control and timers, which stand here, are outside of it. The example shows how the layer is embedded:
//! [`connection`] is the layer beneath it, [`doq`], [`h3`] and [`raw`] are applications above it, [`server`] and [`client`] are
//! the loops over sockets.
#![deny(unsafe_op_in_unsafe_fn)]

pub mod budget;
pub mod bytes;
pub mod certificate;
pub mod client;
pub mod congestion;
pub mod connection;
pub mod crypto;
pub mod dns;
pub mod doq;
pub mod fault;
pub mod files;
#[cfg(feature = "http3")]
pub mod h3;
pub mod ids;
pub mod log;
pub mod memory;
pub mod pacing;
pub mod packet;
pub mod parameters;
pub mod path_size;
pub mod priorities;
pub mod program;
pub mod protection;
pub mod qlog;
pub mod queue;
pub mod ranges;
pub mod raw;
pub mod recovery;
pub mod server;
pub mod socket;
pub mod stop;
pub mod streams;
pub mod timers;
pub mod tls;
pub mod windows;
pub mod zone;
