//! One endpoint of a connection.

use crate::proved::qs_conn as conn;
use core::fmt;
use hearing::Hearing;

/// The least room for a packet's payload, in bytes: an ACK and the longest control frame fit.
pub const MIN_ROOM: usize = 128;

/// The most room for a packet's payload, in bytes: with it each length in a frame fits a number of two bytes.
pub const MAX_ROOM: usize = 16_383;

/// The most bytes of a payload that is received: no UDP datagram has more.
pub const MAX_PAYLOAD: usize = 65_535;

/// One endpoint of a connection: its streams, its flow control, and what its packets carry (RFC 9000, sections 2 to 4 and 13).
///
/// It receives payloads and makes packets. The application opens, accepts, writes, finishes, resets, reads and stops streams; the transport
/// says which packets were lost. It has no clock, socket or thread, so that any stack can drive it.
///
/// ```
/// use gotsavena::{Dir, Endpoint, Read, Received, Role, Settings};
///
/// let settings = Settings::default();
/// let mut client = Endpoint::new(Role::Client, settings, settings.limits())?;
/// let mut server = Endpoint::new(Role::Server, settings, settings.limits())?;
///
/// let stream = client.open(Dir::Bidi)?;
/// assert_eq!(client.write(stream, b"hello")?, 5);
/// client.finish(stream)?;
///
/// let mut payload = [0; 1200];
/// let made = client.make_packet(&mut payload)?.expect("bytes are due");
/// assert_eq!(server.receive(made.number, &payload[..made.len])?, Received::Done);
///
/// assert_eq!(server.accept(), Some(stream));
/// let mut bytes = [0; 16];
/// assert_eq!(server.read(stream, &mut bytes)?, Read::Bytes(5));
/// assert_eq!(&bytes[..5], b"hello");
/// assert_eq!(server.read(stream, &mut bytes)?, Read::End);
/// # Ok::<(), Box<dyn std::error::Error>>(())
/// ```
///
/// In the examples of the calls `client` and `server` are such endpoints, and `deliver` passes each packet that the first one makes to the
/// second.
pub struct Endpoint {
    inner: conn::Endpoint,
    // Beside the endpoint, and not in it: what is proved of an endpoint doesn't change by what its application has heard of.
    hearing: Hearing,
}

impl fmt::Debug for Endpoint {
    fn fmt(&self, f: &mut fmt::Formatter<'_>) -> fmt::Result {
        f.debug_struct("Endpoint")
            .field("granted", &self.granted())
            .field("spent", &self.spent())
            .field("stored", &self.stored())
            .field("closing", &self.closing())
            .finish_non_exhaustive()
    }
}

// In this order, which the documentation shows.
mod setup;

mod packets;

mod frames;

mod streams;

mod events;

mod credit;

mod closing;

mod hearing;
