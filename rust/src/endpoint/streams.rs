//! Streams: opened, written, read, asked.

use super::Endpoint;
use crate::answers::{Consumed, Peek, Read, StreamReport};
use crate::faults::{OpenFault, SetFault, UseFault};
use crate::frame::MAX_VARINT;
use crate::ids::{Dir, StreamId};
use crate::streams::{RecvStream, SendStream};

/// # Streams
impl Endpoint {
    /// Opens the next stream of that direction and returns its number (RFC 9000, sections 2.1 and 4.6). Nothing is sent for it: the peer
    /// learns of it by its first byte, its FIN or its reset.
    ///
    /// ```
    /// # use gotsavena::{Dir, Endpoint, Role, Settings};
    /// # let settings = Settings::default();
    /// # let mut client = Endpoint::new(Role::Client, settings, settings.limits())?;
    /// # let mut payload = [0; 1200];
    /// let first = client.open(Dir::Bidi)?;
    /// let second = client.open(Dir::Bidi)?;
    /// assert_eq!((first.value(), second.value()), (0, 4));
    /// # Ok::<(), Box<dyn std::error::Error>>(())
    /// ```
    ///
    /// # Errors
    ///
    /// `Closed`; `Blocked` with the peer's count if so many were opened; `NoMemory`, and then nothing changed.
    pub fn open(&mut self, dir: Dir) -> Result<StreamId, OpenFault> {
        let opened = self.inner.open(dir.inner()).map_err(OpenFault::of);
        if matches!(opened, Err(OpenFault::Blocked(_))) {
            // The endpoint keeps the count that blocked it, for STREAMS_BLOCKED, and not that somebody waits.
            self.hearing.wants(dir);
        }
        opened.map(StreamId::of)
    }

    /// Returns each stream that the peer opened, once: bidirectional ones first, lower numbers first. `None` if there is none, or the
    /// connection is closed. A stream may be used before it is accepted, so an application may go by
    /// [`Event::Opened`](crate::Event::Opened) instead.
    ///
    /// ```
    /// # use gotsavena::{Dir, Endpoint, Received, Role, Settings};
    /// # let settings = Settings::default();
    /// # let mut client = Endpoint::new(Role::Client, settings, settings.limits())?;
    /// # let mut server = Endpoint::new(Role::Server, settings, settings.limits())?;
    /// # let mut payload = [0; 1200];
    /// # let deliver = |from: &mut Endpoint, to: &mut Endpoint| -> Result<(), Box<dyn std::error::Error>> {
    /// #     let mut payload = [0; 1200];
    /// #     while let Some(made) = from.make_packet(&mut payload)? {
    /// #         assert_eq!(to.receive(made.number, &payload[..made.len])?, Received::Done);
    /// #     }
    /// #     Ok(())
    /// # };
    /// let stream = client.open(Dir::Uni)?;
    /// client.write(stream, b"hello")?;
    /// deliver(&mut client, &mut server)?;
    /// assert_eq!(server.accept(), Some(stream));
    /// assert_eq!(server.accept(), None);
    /// # Ok::<(), Box<dyn std::error::Error>>(())
    /// ```
    pub fn accept(&mut self) -> Option<StreamId> {
        self.inner.accept().map(StreamId::of)
    }

    /// As [`accept`](Endpoint::accept), of one direction, for an application that handles the two apart. What one of the two calls returned
    /// the other doesn't. `None` if there is none, or the connection is closed (RFC 9000, section 2.1).
    ///
    /// ```
    /// # use gotsavena::{Dir, Endpoint, Received, Role, Settings};
    /// # let settings = Settings::default();
    /// # let mut client = Endpoint::new(Role::Client, settings, settings.limits())?;
    /// # let mut server = Endpoint::new(Role::Server, settings, settings.limits())?;
    /// # let mut payload = [0; 1200];
    /// # let deliver = |from: &mut Endpoint, to: &mut Endpoint| -> Result<(), Box<dyn std::error::Error>> {
    /// #     let mut payload = [0; 1200];
    /// #     while let Some(made) = from.make_packet(&mut payload)? {
    /// #         assert_eq!(to.receive(made.number, &payload[..made.len])?, Received::Done);
    /// #     }
    /// #     Ok(())
    /// # };
    /// let stream = client.open(Dir::Uni)?;
    /// client.write(stream, b"hello")?;
    /// deliver(&mut client, &mut server)?;
    /// assert_eq!(server.accept_of(Dir::Bidi), None);
    /// assert_eq!(server.accept_of(Dir::Uni), Some(stream));
    /// # Ok::<(), Box<dyn std::error::Error>>(())
    /// ```
    pub fn accept_of(&mut self, dir: Dir) -> Option<StreamId> {
        self.inner.accept_of(dir.inner()).map(StreamId::of)
    }

    /// Accepts the front of the bytes for sending, as many as the stream's buffer has room for, and returns how many: 0 if the buffer is
    /// full. Bytes beyond the peer's limits are accepted too, and wait. With [`within_credit`](crate::Tuning::within_credit) no more is
    /// accepted than may be sent at once under both limits (RFC 9000, section 4.1), so nothing waits and no blocked frame is sent: that the
    /// write was cut short is the sign. With [`send_window`](crate::Tuning::send_window) no more than that leaves beside what all streams
    /// keep ([`kept_sum`](Endpoint::kept_sum)).
    ///
    /// ```
    /// # use gotsavena::{Dir, Endpoint, Role, Settings};
    /// # let settings = Settings::default().send_buffer(8);
    /// # let mut client = Endpoint::new(Role::Client, settings, settings.limits())?;
    /// // Its buffer has room for 8 bytes.
    /// let stream = client.open(Dir::Uni)?;
    /// assert_eq!(client.write(stream, b"hello")?, 5);
    /// assert_eq!(client.write(stream, b", world")?, 3);
    /// # Ok::<(), Box<dyn std::error::Error>>(())
    /// ```
    ///
    /// # Errors
    ///
    /// `Closed`; `NoSuchStream` or `WrongDirection` if the stream has no sending half here; `WasReset`; `Finished`; `NoMemory`, also if it
    /// still has to be noted for [`next_event`](Endpoint::next_event) that the last write was cut short. Then nothing changed.
    #[inline]
    pub fn write(&mut self, stream: StreamId, bytes: &[u8]) -> Result<usize, UseFault> {
        // A write that couldn't be noted holds the next one up, lest its `Writable` never comes. Any other error has priority over the want
        // of memory.
        let is_noted = self.hearing.catch_up(&self.inner).is_ok();
        let offered = if is_noted { bytes } else { &[] };
        match self.inner.write(stream.inner(), offered) {
            Ok(count) => {
                if count < bytes.len() {
                    if !is_noted {
                        return Err(UseFault::NoMemory);
                    }
                    self.hearing.was_cut_short(&self.inner, stream);
                }
                Ok(count)
            }
            Err(fault) => Err(UseFault::of(fault)),
        }
    }

    /// Sets how many unacknowledged bytes the stream's sending half keeps at most, in the range of
    /// [`Settings::send_buffer`](crate::Settings::send_buffer). Streams that open later begin with the setting. Nothing that was accepted
    /// is given up, since it is promised to the reader: if more is kept, [`write`](Endpoint::write) accepts nothing until enough is
    /// acknowledged (RFC 9000, section 2.2, leaves the buffer open). On a stream that was finished or reset it changes the number alone. It
    /// takes no memory, and frees none in which bytes stand.
    ///
    /// # Errors
    ///
    /// `Closed`; `OutOfRange`; `NoSuchStream` or `WrongDirection` if the stream has no sending half here. Then nothing changed.
    ///
    /// ```
    /// # use gotsavena::{Dir, Endpoint, Role, Settings};
    /// # let settings = Settings::small().send_buffer(4);
    /// # let mut end = Endpoint::new(Role::Client, settings, settings.limits())?;
    /// let stream = end.open(Dir::Bidi)?;
    /// assert_eq!(end.write(stream, b"abcdef"), Ok(4));
    /// end.set_send_buffer(stream, 6)?;
    /// assert_eq!(end.write(stream, b"ef"), Ok(2));
    /// # Ok::<(), Box<dyn std::error::Error>>(())
    /// ```
    pub fn set_send_buffer(&mut self, stream: StreamId, size: usize) -> Result<(), SetFault> {
        self.inner
            .set_send_buffer(stream.inner(), size)
            .map_err(SetFault::of)
    }

    /// Ends the stream after the bytes written so far: a FIN goes out with the last of them, or alone.
    ///
    /// ```
    /// # use gotsavena::{Dir, Endpoint, Role, Settings, UseFault};
    /// # let settings = Settings::default();
    /// # let mut client = Endpoint::new(Role::Client, settings, settings.limits())?;
    /// # let mut payload = [0; 1200];
    /// let stream = client.open(Dir::Uni)?;
    /// client.write(stream, b"hello")?;
    /// client.finish(stream)?;
    /// assert_eq!(client.write(stream, b"more"), Err(UseFault::Finished));
    /// # Ok::<(), Box<dyn std::error::Error>>(())
    /// ```
    ///
    /// # Errors
    ///
    /// As of [`Endpoint::write`], but never for want of memory.
    #[inline]
    pub fn finish(&mut self, stream: StreamId) -> Result<(), UseFault> {
        self.inner.finish(stream.inner()).map_err(UseFault::of)
    }

    /// Resets the stream's sending half with the application's code, below 2^62 (RFC 9000, sections 3.1 and 20.2). Bytes that weren't sent
    /// are given up, and none is sent again.
    ///
    /// ```
    /// # use gotsavena::{Dir, Endpoint, Read, Received, Role, Settings};
    /// # let settings = Settings::default();
    /// # let mut client = Endpoint::new(Role::Client, settings, settings.limits())?;
    /// # let mut server = Endpoint::new(Role::Server, settings, settings.limits())?;
    /// # let mut payload = [0; 1200];
    /// # let deliver = |from: &mut Endpoint, to: &mut Endpoint| -> Result<(), Box<dyn std::error::Error>> {
    /// #     let mut payload = [0; 1200];
    /// #     while let Some(made) = from.make_packet(&mut payload)? {
    /// #         assert_eq!(to.receive(made.number, &payload[..made.len])?, Received::Done);
    /// #     }
    /// #     Ok(())
    /// # };
    /// let stream = client.open(Dir::Uni)?;
    /// client.write(stream, b"hello")?;
    /// client.reset(stream, 7)?;
    /// deliver(&mut client, &mut server)?;
    /// assert_eq!(server.read(stream, &mut payload)?, Read::Reset(7));
    /// # Ok::<(), Box<dyn std::error::Error>>(())
    /// ```
    ///
    /// # Errors
    ///
    /// As of [`Endpoint::write`]; `Finished` only once everything was acknowledged, since until then a reset still means something;
    /// `Invalid` for a code of 2^62 or more.
    pub fn reset(&mut self, stream: StreamId, code: u64) -> Result<(), UseFault> {
        if code > MAX_VARINT {
            return Err(UseFault::Invalid);
        }
        self.inner.reset(stream.inner(), code).map_err(UseFault::of)
    }

    /// Reads the next bytes into the slice's front, or says how the stream stands (RFC 9000, section 2.2).
    ///
    /// Read every stream of the peer to `End` or `Reset`, stopped ones too: only then may the peer open another in its place (section 4.6).
    /// If both sides send, the sending half here has to be over as well: finished or reset, or stopped by the peer, and that acknowledged.
    ///
    /// ```
    /// # use gotsavena::{Dir, Endpoint, Read, Received, Role, Settings};
    /// # let settings = Settings::default();
    /// # let mut client = Endpoint::new(Role::Client, settings, settings.limits())?;
    /// # let mut server = Endpoint::new(Role::Server, settings, settings.limits())?;
    /// # let mut payload = [0; 1200];
    /// # let deliver = |from: &mut Endpoint, to: &mut Endpoint| -> Result<(), Box<dyn std::error::Error>> {
    /// #     let mut payload = [0; 1200];
    /// #     while let Some(made) = from.make_packet(&mut payload)? {
    /// #         assert_eq!(to.receive(made.number, &payload[..made.len])?, Received::Done);
    /// #     }
    /// #     Ok(())
    /// # };
    /// let stream = client.open(Dir::Uni)?;
    /// client.write(stream, b"hello")?;
    /// client.finish(stream)?;
    /// deliver(&mut client, &mut server)?;
    /// let mut bytes = [0; 16];
    /// assert_eq!(server.read(stream, &mut bytes)?, Read::Bytes(5));
    /// assert_eq!(server.read(stream, &mut bytes)?, Read::End);
    /// # Ok::<(), Box<dyn std::error::Error>>(())
    /// ```
    ///
    /// # Errors
    ///
    /// `Closed`, unless [`reads_when_closed`](crate::Tuning::reads_when_closed) was chosen; `NoSuchStream` or `WrongDirection` if the
    /// stream has no receiving half here. Then nothing changed.
    #[inline]
    pub fn read(&mut self, stream: StreamId, into: &mut [u8]) -> Result<Read, UseFault> {
        let read = self.inner.read(stream.inner(), into);
        self.hearing.was_read(&self.inner, stream);
        read.map(Read::of).map_err(UseFault::of)
    }

    /// Shows what [`Endpoint::read`] would return, and changes nothing: the next bytes stay where they are, in one piece of memory or two,
    /// until [`Endpoint::consume`] takes them (RFC 9000, section 2.2). So a parser can look without a copy.
    ///
    /// It shows all bytes up to the next gap. Consume what you used, and look again at the next `Readable`. It takes no memory.
    ///
    /// ```
    /// use gotsavena::{Dir, Endpoint, Peek, Received, Role, Settings};
    ///
    /// let settings = Settings::default();
    /// let mut client = Endpoint::new(Role::Client, settings, settings.limits())?;
    /// let mut server = Endpoint::new(Role::Server, settings, settings.limits())?;
    /// let stream = client.open(Dir::Uni)?;
    /// client.write(stream, b"abc")?;
    /// client.finish(stream)?;
    /// let mut payload = [0; 1200];
    /// let made = client.make_packet(&mut payload)?.expect("bytes are due");
    /// assert_eq!(server.receive(made.number, &payload[..made.len])?, Received::Done);
    ///
    /// let Peek::Bytes(front, back) = server.peek(stream)? else {
    ///     panic!("bytes came");
    /// };
    /// assert_eq!([front, back].concat(), b"abc");
    /// let count = front.len() + back.len();
    /// assert!(server.consume(stream, count)?.at_end);
    /// assert_eq!(server.peek(stream)?, Peek::End);
    /// # Ok::<(), Box<dyn std::error::Error>>(())
    /// ```
    ///
    /// # Errors
    ///
    /// Those of [`Endpoint::read`].
    pub fn peek(&self, stream: StreamId) -> Result<Peek<'_>, UseFault> {
        self.inner
            .peek(stream.inner())
            .map(Peek::of)
            .map_err(UseFault::of)
    }

    /// Consumes the next bytes, at most so many, as [`Endpoint::read`] into a slice of that length does, but copies none: after a `peek`,
    /// or to skip. If that reaches the final size, `at_end` is true and the end counts as read, so that no further call is needed (RFC
    /// 9000, sections 2.2, 3.2 and 4.5).
    ///
    /// ```
    /// use gotsavena::{Dir, Endpoint, Read, Received, Role, Settings};
    ///
    /// let settings = Settings::default();
    /// let mut client = Endpoint::new(Role::Client, settings, settings.limits())?;
    /// let mut server = Endpoint::new(Role::Server, settings, settings.limits())?;
    /// let stream = client.open(Dir::Uni)?;
    /// client.write(stream, b"header, and a body")?;
    /// client.finish(stream)?;
    /// let mut payload = [0; 1200];
    /// let made = client.make_packet(&mut payload)?.expect("bytes are due");
    /// assert_eq!(server.receive(made.number, &payload[..made.len])?, Received::Done);
    ///
    /// assert_eq!(server.consume(stream, 8)?.read, Read::Bytes(8));
    /// let mut bytes = [0; 3];
    /// assert_eq!(server.read(stream, &mut bytes)?, Read::Bytes(3));
    /// assert_eq!(&bytes, b"and");
    /// let rest = server.consume(stream, 100)?;
    /// assert_eq!(rest.read, Read::Bytes(7));
    /// assert!(rest.at_end);
    /// # Ok::<(), Box<dyn std::error::Error>>(())
    /// ```
    ///
    /// # Errors
    ///
    /// Those of [`Endpoint::read`].
    pub fn consume(&mut self, stream: StreamId, most: usize) -> Result<Consumed, UseFault> {
        let consumed = self.inner.consume(stream.inner(), most);
        self.hearing.was_read(&self.inner, stream);
        consumed.map(Consumed::of).map_err(UseFault::of)
    }

    /// Discards the stream's bytes, those stored and those still to come, and asks the peer to stop sending, with the application's code,
    /// below 2^62 (RFC 9000, sections 3.5 and 20.2). The first code stays. From then on [`Endpoint::read`] returns `Wait`, and `End` or
    /// `Reset` once all the bytes or the reset arrived: read on until then, so that the stream is over.
    ///
    /// ```
    /// # use gotsavena::{Dir, Endpoint, Received, Role, Settings};
    /// # let settings = Settings::default();
    /// # let mut client = Endpoint::new(Role::Client, settings, settings.limits())?;
    /// # let mut server = Endpoint::new(Role::Server, settings, settings.limits())?;
    /// # let mut payload = [0; 1200];
    /// # let deliver = |from: &mut Endpoint, to: &mut Endpoint| -> Result<(), Box<dyn std::error::Error>> {
    /// #     let mut payload = [0; 1200];
    /// #     while let Some(made) = from.make_packet(&mut payload)? {
    /// #         assert_eq!(to.receive(made.number, &payload[..made.len])?, Received::Done);
    /// #     }
    /// #     Ok(())
    /// # };
    /// let stream = client.open(Dir::Uni)?;
    /// client.write(stream, b"hello")?;
    /// deliver(&mut client, &mut server)?;
    /// server.stop(stream, 7)?;
    /// deliver(&mut server, &mut client)?;
    /// assert_eq!(client.stopped_with(stream), Some(7));
    /// # Ok::<(), Box<dyn std::error::Error>>(())
    /// ```
    ///
    /// # Errors
    ///
    /// As of [`Endpoint::read`]; `Invalid` for a code of 2^62 or more.
    pub fn stop(&mut self, stream: StreamId, code: u64) -> Result<(), UseFault> {
        if code > MAX_VARINT {
            return Err(UseFault::Invalid);
        }
        let stopped = self.inner.stop(stream.inner(), code);
        // What came before is discarded, so whatever comes next is a new event.
        self.hearing.was_read(&self.inner, stream);
        stopped.map_err(UseFault::of)
    }

    /// As [`Endpoint::stop`], for an application that never wants to hear of the stream again: it counts as read to its end as soon as its
    /// last byte or a reset arrives (RFC 9000, sections 3.2, 3.5 and 4.6). So the peer gets another stream without another read here. A
    /// bidirectional stream is over once its sending half is, too. The first code stays, below 2^62.
    ///
    /// [`Endpoint::next_readable`] passes it over from now on. [`Endpoint::read`] returns what it does after a stop, and
    /// [`Endpoint::next_ended`] finds the stream once it is over.
    ///
    /// ```
    /// # use gotsavena::{Dir, Endpoint, Received, Role, Settings};
    /// # let settings = Settings::small().uni_window(1000);
    /// # let end = |role| Endpoint::new(role, settings, settings.limits());
    /// # let (mut client, mut server) = (end(Role::Client)?, end(Role::Server)?);
    /// # let carry = |from: &mut Endpoint, to: &mut Endpoint| -> Result<(), Box<dyn std::error::Error>> {
    /// #     let mut payload = [0; 1200];
    /// #     if let Some(made) = from.make_packet(&mut payload)? {
    /// #         assert_eq!(to.receive(made.number, &payload[..made.len])?, Received::Done);
    /// #     }
    /// #     Ok(())
    /// # };
    /// let stream = client.open(Dir::Uni)?;
    /// client.write(stream, b"a request")?;
    /// carry(&mut client, &mut server)?;
    /// server.stop_and_discard(stream, 7)?;
    /// // The client is asked to stop, and resets its stream; nobody reads that.
    /// carry(&mut server, &mut client)?;
    /// carry(&mut client, &mut server)?;
    /// assert_eq!(server.next_ended(stream), Some(stream));
    /// # Ok::<(), Box<dyn std::error::Error>>(())
    /// ```
    ///
    /// # Errors
    ///
    /// Those of [`Endpoint::stop`].
    pub fn stop_and_discard(&mut self, stream: StreamId, code: u64) -> Result<(), UseFault> {
        if code > MAX_VARINT {
            return Err(UseFault::Invalid);
        }
        self.inner
            .stop_and_discard(stream.inner(), code)
            .map_err(UseFault::of)
    }

    /// The lowest stream at or above `from` at which a read of one byte returns something new: bytes, or the end or a reset that wasn't read
    /// yet (RFC 9000, sections 2.2 and 3.2), of a stopped stream too, since it isn't over before that. `None` if there is none, and of a
    /// closed endpoint, unless [`reads_when_closed`](crate::Tuning::reads_when_closed) was chosen.
    ///
    /// A loop over all of them goes on from the number after each; it costs a look at one word for 64 streams:
    ///
    /// ```
    /// use gotsavena::{Dir, Endpoint, Read, Received, Role, Settings, StreamId};
    ///
    /// let settings = Settings::default();
    /// let mut client = Endpoint::new(Role::Client, settings, settings.limits())?;
    /// let mut server = Endpoint::new(Role::Server, settings, settings.limits())?;
    /// let stream = client.open(Dir::Uni)?;
    /// client.write(stream, b"hello")?;
    /// assert_eq!(client.next_sendable(stream), Some(stream));
    ///
    /// let mut payload = [0; 1200];
    /// let made = client.make_packet(&mut payload)?.expect("bytes are due");
    /// assert_eq!(server.receive(made.number, &payload[..made.len])?, Received::Done);
    ///
    /// let mut bytes = [0; 16];
    /// let mut from = StreamId::new(0);
    /// while let Some(stream) = from.and_then(|from| server.next_readable(from)) {
    ///     while let Read::Bytes(count) = server.read(stream, &mut bytes)? {
    ///         assert_eq!(&bytes[..count], b"hello");
    ///     }
    ///     from = stream.next();
    /// }
    /// assert_eq!(server.next_readable(stream), None);
    /// # Ok::<(), Box<dyn std::error::Error>>(())
    /// ```
    #[must_use]
    pub fn next_readable(&self, from: StreamId) -> Option<StreamId> {
        self.inner.next_readable(from.inner()).map(StreamId::of)
    }

    /// The lowest stream at or above `from` that wasn't finished, reset or stopped by the peer, and whose own buffer has room (RFC 9000,
    /// sections 2.2 and 2.4): a write of one byte is accepted, if there is memory for it. `None` if there is none, and of a closed
    /// endpoint. What holds all streams alike isn't looked at, since that would cost a look at each: with
    /// [`within_credit`](crate::Tuning::within_credit) or [`send_window`](crate::Tuning::send_window) ask [`room`](Endpoint::room) whether
    /// such a stream takes a byte.
    ///
    /// ```
    /// # use gotsavena::{Dir, Endpoint, Role, Settings};
    /// # let settings = Settings::default();
    /// # let mut client = Endpoint::new(Role::Client, settings, settings.limits())?;
    /// # let mut payload = [0; 1200];
    /// let stream = client.open(Dir::Uni)?;
    /// assert_eq!(client.next_writable(stream), Some(stream));
    /// client.finish(stream)?;
    /// assert_eq!(client.next_writable(stream), None);
    /// # Ok::<(), Box<dyn std::error::Error>>(())
    /// ```
    #[must_use]
    pub fn next_writable(&self, from: StreamId) -> Option<StreamId> {
        self.inner.next_writable(from.inner()).map(StreamId::of)
    }

    /// The lowest stream at or above `from` with pending data or a pending FIN that the stream's own limit permits, whatever the
    /// connection's limit says (RFC 9000, sections 4.1 and 13.3): that one holds all alike. `None` if there is none, and of a closed
    /// endpoint.
    ///
    /// ```
    /// # use gotsavena::{Dir, Endpoint, Role, Settings};
    /// # let settings = Settings::default();
    /// # let mut client = Endpoint::new(Role::Client, settings, settings.limits())?;
    /// # let mut payload = [0; 1200];
    /// let stream = client.open(Dir::Uni)?;
    /// assert_eq!(client.next_sendable(stream), None);
    /// client.write(stream, b"hello")?;
    /// assert_eq!(client.next_sendable(stream), Some(stream));
    /// # Ok::<(), Box<dyn std::error::Error>>(())
    /// ```
    #[must_use]
    pub fn next_sendable(&self, from: StreamId) -> Option<StreamId> {
        self.inner.next_sendable(from.inner()).map(StreamId::of)
    }

    /// The lowest stream at or above `from` that is over: each half that it has here is. Its end or reset was read, and all that was sent
    /// was acknowledged, or the reset (RFC 9000, section 3). `None` if there is none.
    ///
    /// ```
    /// # use gotsavena::{Dir, Endpoint, Received, Role, Settings};
    /// # let settings = Settings::default();
    /// # let mut client = Endpoint::new(Role::Client, settings, settings.limits())?;
    /// # let mut server = Endpoint::new(Role::Server, settings, settings.limits())?;
    /// # let mut payload = [0; 1200];
    /// # let deliver = |from: &mut Endpoint, to: &mut Endpoint| -> Result<(), Box<dyn std::error::Error>> {
    /// #     let mut payload = [0; 1200];
    /// #     while let Some(made) = from.make_packet(&mut payload)? {
    /// #         assert_eq!(to.receive(made.number, &payload[..made.len])?, Received::Done);
    /// #     }
    /// #     Ok(())
    /// # };
    /// let stream = client.open(Dir::Uni)?;
    /// client.finish(stream)?;
    /// deliver(&mut client, &mut server)?;
    /// assert_eq!(client.next_ended(stream), None);
    /// deliver(&mut server, &mut client)?; // an ACK
    /// assert_eq!(client.next_ended(stream), Some(stream));
    /// # Ok::<(), Box<dyn std::error::Error>>(())
    /// ```
    #[must_use]
    pub fn next_ended(&self, from: StreamId) -> Option<StreamId> {
        self.inner.next_ended(from.inner()).map(StreamId::of)
    }

    /// The states of a stream's halves at this endpoint; `None` if it was never opened (RFC 9000, section 3).
    ///
    /// ```
    /// # use gotsavena::{Dir, Endpoint, Role, SendState, Settings};
    /// # let settings = Settings::default();
    /// # let mut client = Endpoint::new(Role::Client, settings, settings.limits())?;
    /// # let mut payload = [0; 1200];
    /// let stream = client.open(Dir::Uni)?;
    /// client.write(stream, b"hello")?;
    /// let send = client.report(stream).and_then(|report| report.send).expect("it sends");
    /// assert_eq!((send.state, send.written), (SendState::Ready, 5));
    /// # Ok::<(), Box<dyn std::error::Error>>(())
    /// ```
    #[must_use]
    pub fn report(&self, stream: StreamId) -> Option<StreamReport> {
        self.inner.lane_report(stream.inner()).map(StreamReport::of)
    }

    /// How many bytes [`write`](Endpoint::write) accepts of a stream now, however many are offered: 0 if it would be refused, or if the
    /// stream has no sending half here (RFC 9000, sections 2.2 and 2.4). The peer's limits don't count, since bytes beyond them wait,
    /// unless [`within_credit`](crate::Tuning::within_credit) was chosen (section 4.1). With [`send_window`](crate::Tuning::send_window)
    /// what other streams keep counts too.
    ///
    /// ```
    /// use gotsavena::{Dir, Endpoint, Role, Settings};
    ///
    /// let settings = Settings::default().send_buffer(100);
    /// let mut end = Endpoint::new(Role::Client, settings, settings.limits()).expect("in range");
    /// let stream = end.open(Dir::Uni).expect("granted");
    /// assert_eq!(end.room(stream), 100);
    /// assert_eq!(end.write(stream, b"abc"), Ok(3));
    /// assert_eq!((end.room(stream), end.unsent(stream)), (97, 3));
    /// end.finish(stream).expect("open");
    /// assert_eq!(end.room(stream), 0);
    /// ```
    #[must_use]
    pub fn room(&self, stream: StreamId) -> u64 {
        self.inner.room(stream.inner())
    }

    /// How many bytes of a stream weren't sent yet: 0 after a reset, since none will be (RFC 9000, sections 2.2 and 3.1), and if the stream
    /// has no sending half here.
    ///
    /// ```
    /// # use gotsavena::{Dir, Endpoint, Role, Settings};
    /// # let settings = Settings::default();
    /// # let mut client = Endpoint::new(Role::Client, settings, settings.limits())?;
    /// # let mut payload = [0; 1200];
    /// let stream = client.open(Dir::Uni)?;
    /// client.write(stream, b"hello")?;
    /// assert_eq!(client.unsent(stream), 5);
    /// client.make_packet(&mut payload)?;
    /// assert_eq!(client.unsent(stream), 0);
    /// # Ok::<(), Box<dyn std::error::Error>>(())
    /// ```
    #[must_use]
    pub fn unsent(&self, stream: StreamId) -> u64 {
        self.inner.unsent(stream.inner())
    }

    /// The lowest offset of a stream that isn't acknowledged, in bytes from its start: all below it are (RFC 9000, section 13.3). If it is
    /// the count written, all bytes are. Late ACKs move it even after a reset. `None` if the stream has no sending half here.
    ///
    /// ```
    /// # use gotsavena::{Dir, Endpoint, Received, Role, Settings};
    /// # let settings = Settings::default();
    /// # let mut client = Endpoint::new(Role::Client, settings, settings.limits())?;
    /// # let mut server = Endpoint::new(Role::Server, settings, settings.limits())?;
    /// # let mut payload = [0; 1200];
    /// # let deliver = |from: &mut Endpoint, to: &mut Endpoint| -> Result<(), Box<dyn std::error::Error>> {
    /// #     let mut payload = [0; 1200];
    /// #     while let Some(made) = from.make_packet(&mut payload)? {
    /// #         assert_eq!(to.receive(made.number, &payload[..made.len])?, Received::Done);
    /// #     }
    /// #     Ok(())
    /// # };
    /// let stream = client.open(Dir::Uni)?;
    /// client.write(stream, b"hello")?;
    /// deliver(&mut client, &mut server)?;
    /// assert_eq!(client.acked_below(stream), Some(0));
    /// deliver(&mut server, &mut client)?; // an ACK
    /// assert_eq!(client.acked_below(stream), Some(5));
    /// # Ok::<(), Box<dyn std::error::Error>>(())
    /// ```
    #[must_use]
    pub fn acked_below(&self, stream: StreamId) -> Option<u64> {
        self.inner.acked_below(stream.inner())
    }

    /// Whether unsent bytes of the stream wait for credit alone: its limit is reached, or the connection's is (RFC 9000, section 4.1). Lost
    /// bytes need no credit, since they were counted when first sent. At a closed endpoint nothing waits.
    ///
    /// ```
    /// # use gotsavena::{Dir, Endpoint, Role, Settings};
    /// # let settings = Settings::default();
    /// # let mut payload = [0; 1200];
    /// // The peer allows 4 bytes of each stream.
    /// let limits = settings.stream_windows(4).limits();
    /// let mut client = Endpoint::new(Role::Client, settings, limits)?;
    /// let stream = client.open(Dir::Uni)?;
    /// client.write(stream, b"hello")?;
    /// client.make_packet(&mut payload)?;
    /// assert!(client.is_blocked(stream));
    /// # Ok::<(), Box<dyn std::error::Error>>(())
    /// ```
    #[must_use]
    pub fn is_blocked(&self, stream: StreamId) -> bool {
        self.inner.is_blocked(stream.inner())
    }

    /// The code of the peer's first STOP_SENDING that came while the sending half could be reset; `None` if there was none. It stays,
    /// whatever becomes of the half, so that an application that comes late still learns why (RFC 9000, section 3.5).
    ///
    /// ```
    /// # use gotsavena::{Dir, Endpoint, Received, Role, Settings};
    /// # let settings = Settings::default();
    /// # let mut client = Endpoint::new(Role::Client, settings, settings.limits())?;
    /// # let mut server = Endpoint::new(Role::Server, settings, settings.limits())?;
    /// # let mut payload = [0; 1200];
    /// # let deliver = |from: &mut Endpoint, to: &mut Endpoint| -> Result<(), Box<dyn std::error::Error>> {
    /// #     let mut payload = [0; 1200];
    /// #     while let Some(made) = from.make_packet(&mut payload)? {
    /// #         assert_eq!(to.receive(made.number, &payload[..made.len])?, Received::Done);
    /// #     }
    /// #     Ok(())
    /// # };
    /// let stream = client.open(Dir::Uni)?;
    /// client.write(stream, b"hello")?;
    /// deliver(&mut client, &mut server)?;
    /// assert_eq!(client.stopped_with(stream), None);
    /// server.stop(stream, 7)?;
    /// deliver(&mut server, &mut client)?;
    /// assert_eq!(client.stopped_with(stream), Some(7));
    /// # Ok::<(), Box<dyn std::error::Error>>(())
    /// ```
    #[must_use]
    pub fn stopped_with(&self, stream: StreamId) -> Option<u64> {
        self.inner.stopped_with(stream.inner())
    }

    /// The sending half of a stream, to write to. Whether the stream has one is checked as it is used, so that this needs no error.
    ///
    /// ```
    /// # use gotsavena::{Dir, Endpoint, Role, Settings};
    /// # let settings = Settings::default();
    /// # let mut client = Endpoint::new(Role::Client, settings, settings.limits())?;
    /// # let mut payload = [0; 1200];
    /// let stream = client.open(Dir::Uni)?;
    /// let mut sender = client.send_stream(stream);
    /// assert_eq!(sender.try_write(b"hello")?, 5);
    /// sender.finish()?;
    /// # Ok::<(), Box<dyn std::error::Error>>(())
    /// ```
    pub fn send_stream(&mut self, stream: StreamId) -> SendStream<'_> {
        SendStream::new(self, stream)
    }

    /// The receiving half of a stream, to read from. Whether the stream has one is checked as it is used.
    ///
    /// ```
    /// # use gotsavena::{Dir, Endpoint, Read, Received, Role, Settings};
    /// # let settings = Settings::default();
    /// # let mut client = Endpoint::new(Role::Client, settings, settings.limits())?;
    /// # let mut server = Endpoint::new(Role::Server, settings, settings.limits())?;
    /// # let mut payload = [0; 1200];
    /// # let deliver = |from: &mut Endpoint, to: &mut Endpoint| -> Result<(), Box<dyn std::error::Error>> {
    /// #     let mut payload = [0; 1200];
    /// #     while let Some(made) = from.make_packet(&mut payload)? {
    /// #         assert_eq!(to.receive(made.number, &payload[..made.len])?, Received::Done);
    /// #     }
    /// #     Ok(())
    /// # };
    /// let stream = client.open(Dir::Uni)?;
    /// client.write(stream, b"hello")?;
    /// deliver(&mut client, &mut server)?;
    /// let mut receiver = server.recv_stream(stream);
    /// assert_eq!(receiver.try_read(&mut payload)?, Read::Bytes(5));
    /// # Ok::<(), Box<dyn std::error::Error>>(())
    /// ```
    pub fn recv_stream(&mut self, stream: StreamId) -> RecvStream<'_> {
        RecvStream::new(self, stream)
    }
}
