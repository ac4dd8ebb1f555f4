use crate::answers::{Consumed, Read, RecvReport, SendReport};
use crate::endpoint::Endpoint;
use crate::faults::UseFault;
use crate::ids::StreamId;

/// The sending half of a stream of an endpoint (RFC 9000, section 3.1).
///
/// With the feature `std` it is a [`Write`](std::io::Write). A full buffer is `WouldBlock`; other errors are a kind alone, which takes no
/// memory: `BrokenPipe` if the stream was finished or reset, `NotConnected` if the endpoint is closed. [`try_write`](SendStream::try_write)
/// returns the [`UseFault`]. Use `write`, which says how many bytes were accepted; `write_all` doesn't if the buffer gets full.
///
/// ```
/// # #[cfg(feature = "std")] {
/// use gotsavena::{Dir, Endpoint, Role, Settings};
/// use std::io::{ErrorKind, Write};
///
/// let settings = Settings::default().send_buffer(4);
/// let mut client = Endpoint::new(Role::Client, settings, settings.limits())?;
/// let stream = client.open(Dir::Uni)?;
///
/// let mut sender = client.send_stream(stream);
/// assert_eq!(sender.write(b"hello")?, 4);
/// assert_eq!(sender.write(b"o").unwrap_err().kind(), ErrorKind::WouldBlock);
/// sender.finish()?;
/// # }
/// # Ok::<(), Box<dyn std::error::Error>>(())
/// ```
#[derive(Debug)]
pub struct SendStream<'a> {
    end: &'a mut Endpoint,
    stream: StreamId,
}

/// The receiving half of a stream of an endpoint (RFC 9000, section 3.2).
///
/// With the feature `std` it is a [`Read`](std::io::Read): `WouldBlock` if nothing is there, 0 at the end, and `ConnectionReset` if the
/// peer reset the stream. An error is a kind alone, which takes no memory: [`report`](RecvStream::report) has the peer's code, and
/// [`try_read`](RecvStream::try_read) returns the [`UseFault`]. `read_to_end` keeps the bytes that came before `WouldBlock`;
/// `read_to_string` loses them if they end amid a character.
///
/// ```
/// # #[cfg(feature = "std")] {
/// use gotsavena::{Dir, Endpoint, Received, Role, Settings};
/// use std::io::{ErrorKind, Read};
///
/// let settings = Settings::default();
/// let mut client = Endpoint::new(Role::Client, settings, settings.limits())?;
/// let mut server = Endpoint::new(Role::Server, settings, settings.limits())?;
/// let stream = client.open(Dir::Uni)?;
/// client.write(stream, b"hello")?;
/// client.finish(stream)?;
/// let mut payload = [0; 1200];
/// let made = client.make_packet(&mut payload)?.expect("bytes are due");
/// assert_eq!(server.receive(made.number, &payload[..made.len])?, Received::Done);
///
/// let mut bytes = Vec::new();
/// server.recv_stream(stream).read_to_end(&mut bytes)?;
/// assert_eq!(bytes, b"hello");
/// # }
/// # Ok::<(), Box<dyn std::error::Error>>(())
/// ```
#[derive(Debug)]
pub struct RecvStream<'a> {
    end: &'a mut Endpoint,
    stream: StreamId,
}

impl<'a> SendStream<'a> {
    pub(crate) fn new(end: &'a mut Endpoint, stream: StreamId) -> SendStream<'a> {
        SendStream { end, stream }
    }

    /// The stream's number.
    #[must_use]
    pub fn id(&self) -> StreamId {
        self.stream
    }

    /// Accepts the front of the bytes for sending, as [`Endpoint::write`] does. Unlike `write` of std it returns 0 for a full buffer.
    ///
    /// # Errors
    ///
    /// Those of that call.
    pub fn try_write(&mut self, bytes: &[u8]) -> Result<usize, UseFault> {
        self.end.write(self.stream, bytes)
    }

    /// Ends the stream after the bytes written so far, as [`Endpoint::finish`] does.
    ///
    /// # Errors
    ///
    /// Those of that call.
    pub fn finish(&mut self) -> Result<(), UseFault> {
        self.end.finish(self.stream)
    }

    /// Resets the sending half, as [`Endpoint::reset`] does.
    ///
    /// # Errors
    ///
    /// Those of that call.
    pub fn reset(&mut self, code: u64) -> Result<(), UseFault> {
        self.end.reset(self.stream, code)
    }

    /// The half's state; `None` if there is none.
    #[must_use]
    pub fn report(&self) -> Option<SendReport> {
        self.end.report(self.stream)?.send
    }
}

impl<'a> RecvStream<'a> {
    pub(crate) fn new(end: &'a mut Endpoint, stream: StreamId) -> RecvStream<'a> {
        RecvStream { end, stream }
    }

    /// The stream's number.
    #[must_use]
    pub fn id(&self) -> StreamId {
        self.stream
    }

    /// Reads the next bytes, as [`Endpoint::read`] does. Unlike `read` of std it tells the end, a reset and nothing apart.
    ///
    /// # Errors
    ///
    /// Those of that call.
    pub fn try_read(&mut self, into: &mut [u8]) -> Result<Read, UseFault> {
        self.end.read(self.stream, into)
    }

    /// Consumes the next bytes, at most so many, without a copy, as [`Endpoint::consume`] does.
    ///
    /// # Errors
    ///
    /// Those of that call.
    pub fn consume(&mut self, most: usize) -> Result<Consumed, UseFault> {
        self.end.consume(self.stream, most)
    }

    /// Discards the stream's bytes, as [`Endpoint::stop`] does.
    ///
    /// # Errors
    ///
    /// Those of that call.
    pub fn stop(&mut self, code: u64) -> Result<(), UseFault> {
        self.end.stop(self.stream, code)
    }

    /// The half's state; `None` if there is none.
    #[must_use]
    pub fn report(&self) -> Option<RecvReport> {
        self.end.report(self.stream)?.recv
    }
}

#[cfg(feature = "std")]
mod io {
    use super::{Read, RecvStream, SendStream, UseFault};
    use std::io::{self, ErrorKind};

    // A kind alone takes no memory; an error with the fault inside would.
    impl From<UseFault> for io::Error {
        fn from(fault: UseFault) -> io::Error {
            let kind = match fault {
                UseFault::NoSuchStream => ErrorKind::NotFound,
                UseFault::WrongDirection | UseFault::Invalid => ErrorKind::InvalidInput,
                UseFault::Finished | UseFault::WasReset => ErrorKind::BrokenPipe,
                UseFault::Closed => ErrorKind::NotConnected,
                UseFault::NoMemory => ErrorKind::OutOfMemory,
            };
            kind.into()
        }
    }

    impl io::Write for SendStream<'_> {
        fn write(&mut self, bytes: &[u8]) -> io::Result<usize> {
            match self.try_write(bytes)? {
                0 if !bytes.is_empty() => Err(ErrorKind::WouldBlock.into()),
                count => Ok(count),
            }
        }

        fn flush(&mut self) -> io::Result<()> {
            Ok(())
        }
    }

    impl io::Read for RecvStream<'_> {
        fn read(&mut self, into: &mut [u8]) -> io::Result<usize> {
            match self.try_read(into)? {
                Read::Bytes(count) => Ok(count),
                Read::End => Ok(0),
                Read::Reset(_) => Err(ErrorKind::ConnectionReset.into()),
                Read::Wait if into.is_empty() => Ok(0),
                Read::Wait => Err(ErrorKind::WouldBlock.into()),
            }
        }
    }
}
