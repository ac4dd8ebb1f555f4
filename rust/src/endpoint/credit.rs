//! Flow control: limits and windows, and what they permit.

use super::Endpoint;
use crate::answers::Held;
use crate::faults::{RaiseFault, SetFault};
use crate::ids::{Dir, StreamId};
use crate::settings::PeerLimits;

/// # Flow control
impl Endpoint {
    /// Raises the peer's limits to those of the handshake. A client that sends 0-RTT begins with the limits it remembered (RFC 9000,
    /// section 7.4.1). Each limit becomes the greater of the two, for open streams too, and streams that open later begin with it; none
    /// falls. A server that lowered a limit broke that section, which the caller has to check: only it has both.
    ///
    /// ```
    /// # use gotsavena::{Dir, Endpoint, PeerLimits, Role, Settings};
    /// # let settings = Settings::default();
    /// let remembered = PeerLimits::default().streams_uni(1);
    /// let mut client = Endpoint::new(Role::Client, settings, remembered)?;
    /// assert_eq!(client.open_left(Dir::Uni), 1);
    /// client.raise_limits(settings.limits())?; // of the handshake
    /// assert_eq!(client.open_left(Dir::Uni), 100);
    /// # Ok::<(), Box<dyn std::error::Error>>(())
    /// ```
    ///
    /// # Errors
    ///
    /// `Closed`; `Refused` for limits that [`new`](Endpoint::new) would refuse.
    pub fn raise_limits(&mut self, limits: PeerLimits) -> Result<(), RaiseFault> {
        self.inner
            .raise_limits(&limits.inner())
            .map_err(RaiseFault::of)
    }

    /// Sets the connection's window, in bytes: how much may be received on all streams beyond what was consumed (RFC 9000, section 4.1). A
    /// greater window raises the limit at once, even by less than a step of [`Tuning::credit_step`](crate::Tuning::credit_step): whoever
    /// asks for it has a reason. The next packet carries the new limit. Under a smaller window the limit stays until enough is consumed,
    /// since no limit may fall. The first limits that the peer was given ([`Settings`](crate::Settings)) stay what they were.
    ///
    /// ```
    /// use gotsavena::{Endpoint, Role, SetFault, Settings};
    ///
    /// let own = Settings::small().conn_window(1000);
    /// let mut end = Endpoint::new(Role::Server, own, Settings::small().limits())?;
    /// assert_eq!(end.set_conn_window(1001), Ok(()));
    /// assert_eq!(end.granted(), 1001);
    /// assert_eq!(end.set_conn_window(10), Ok(()));
    /// assert_eq!(end.granted(), 1001);
    /// assert_eq!(end.set_conn_window(0), Err(SetFault::OutOfRange));
    /// # Ok::<(), gotsavena::SetupFault>(())
    /// ```
    ///
    /// # Errors
    ///
    /// `Closed`; `OutOfRange` if the window is 0 or above 2^40.
    pub fn set_conn_window(&mut self, window: u64) -> Result<(), SetFault> {
        self.inner.set_conn_window(window).map_err(SetFault::of)
    }

    /// Sets how many streams of a direction the peer may have open (RFC 9000, section 4.6). A greater number permits more at once, beside
    /// those that ended, up to the lifetime's count, and the next packet says so. Streams that ended count one by one there, also if counts
    /// move by steps ([`count_step`](crate::Tuning::count_step)). Under a smaller number, even 0, the count stays until enough streams
    /// ended, since no count may fall. The first limits and the lifetime's count stay.
    ///
    /// ```
    /// use gotsavena::{Dir, Endpoint, Role, SetFault, Settings};
    ///
    /// let own = Settings::small().bidi_streams(1, 100);
    /// let mut end = Endpoint::new(Role::Server, own, Settings::small().limits())?;
    /// assert_eq!(end.set_grant(Dir::Bidi, 10), Ok(()));
    /// assert_eq!(end.granted_streams(Dir::Bidi), 10);
    /// assert_eq!(end.set_grant(Dir::Bidi, 0), Ok(()));
    /// assert_eq!(end.granted_streams(Dir::Bidi), 10);
    /// assert_eq!(end.set_grant(Dir::Bidi, (1 << 17) + 1), Err(SetFault::OutOfRange));
    /// # Ok::<(), gotsavena::SetupFault>(())
    /// ```
    ///
    /// # Errors
    ///
    /// `Closed`; `OutOfRange` above 2^17.
    pub fn set_grant(&mut self, dir: Dir, streams: u64) -> Result<(), SetFault> {
        self.inner
            .set_grant(dir.inner(), streams)
            .map_err(SetFault::of)
    }

    /// Sets the window of one stream's receiving half, 1 to 2^30 bytes (RFC 9000, section 4.1): how much may arrive beyond what was
    /// consumed. A greater window raises the limit at once, even by less than a step, and the next packet carries it. Under a smaller one
    /// it stays until enough is consumed, since no limit may fall. No limit moves once the stream's length is known, since nobody needs it.
    /// Streams that open later begin with the window of the settings, which is what the peer counts with. It neither takes nor frees
    /// memory.
    ///
    /// # Errors
    ///
    /// `Closed`; `OutOfRange`; `NoSuchStream` or `WrongDirection` if the stream has no receiving half here. Then nothing changed.
    ///
    /// ```
    /// # use gotsavena::{Dir, Endpoint, Role, Settings};
    /// # let settings = Settings::small().bidi_local_window(1000);
    /// # let mut end = Endpoint::new(Role::Client, settings, settings.limits())?;
    /// let stream = end.open(Dir::Bidi)?;
    /// let limit = |end: &Endpoint| end.report(stream).unwrap().recv.unwrap().limit;
    /// end.set_stream_window(stream, 1001)?;
    /// assert_eq!(limit(&end), 1001);
    /// end.set_stream_window(stream, 10)?;
    /// assert_eq!(limit(&end), 1001);
    /// # Ok::<(), Box<dyn std::error::Error>>(())
    /// ```
    pub fn set_stream_window(&mut self, stream: StreamId, window: u64) -> Result<(), SetFault> {
        self.inner
            .set_stream_window(stream.inner(), window)
            .map_err(SetFault::of)
    }

    /// The limit in bytes on the whole connection that the peer was granted (RFC 9000, section 4.1).
    ///
    /// ```
    /// # use gotsavena::{Endpoint, Role, Settings};
    /// # let settings = Settings::default();
    /// # let mut client = Endpoint::new(Role::Client, settings, settings.limits())?;
    /// # let mut server = Endpoint::new(Role::Server, settings, settings.limits())?;
    /// # let mut payload = [0; 1200];
    /// assert_eq!(server.granted(), settings.limits().max_data);
    /// # Ok::<(), Box<dyn std::error::Error>>(())
    /// ```
    #[must_use]
    pub fn granted(&self) -> u64 {
        self.inner.granted()
    }

    /// How many bytes of that limit the peer used: the sum of the highest offsets of all streams (RFC 9000, section 4.1). Gaps count, so
    /// that a peer gains nothing by leaving some.
    ///
    /// ```
    /// # use gotsavena::{Dir, Endpoint, Received, Role, Settings};
    /// # let settings = Settings::default();
    /// # let mut client = Endpoint::new(Role::Client, settings, settings.limits())?;
    /// # let mut server = Endpoint::new(Role::Server, settings, settings.limits())?;
    /// # let mut payload = [0; 1200];
    /// # let deliver = |from: &mut Endpoint, to: &mut Endpoint| -> Result<(), Box<dyn std::error::Error>> {
    /// #     let mut payload = [0; 1200];
    /// #     while let Some(made) = from.make_packet(&mut payload)? {
    /// #         assert_eq!(to.receive(made.number, &payload[..made.len])?, Received::Done);
    /// #     }
    /// #     Ok(())
    /// # };
    /// let stream = client.open(Dir::Uni)?;
    /// client.write(stream, b"hello")?;
    /// deliver(&mut client, &mut server)?;
    /// assert_eq!(server.spent(), 5);
    /// # Ok::<(), Box<dyn std::error::Error>>(())
    /// ```
    #[must_use]
    pub fn spent(&self) -> u64 {
        self.inner.spent()
    }

    /// How many bytes wait to be read. It is at most what was granted beyond what was consumed, which is at most the connection's window
    /// (RFC 9000, section 4.1).
    ///
    /// ```
    /// # use gotsavena::{Dir, Endpoint, Read, Received, Role, Settings};
    /// # let settings = Settings::default();
    /// # let mut client = Endpoint::new(Role::Client, settings, settings.limits())?;
    /// # let mut server = Endpoint::new(Role::Server, settings, settings.limits())?;
    /// # let mut payload = [0; 1200];
    /// # let deliver = |from: &mut Endpoint, to: &mut Endpoint| -> Result<(), Box<dyn std::error::Error>> {
    /// #     let mut payload = [0; 1200];
    /// #     while let Some(made) = from.make_packet(&mut payload)? {
    /// #         assert_eq!(to.receive(made.number, &payload[..made.len])?, Received::Done);
    /// #     }
    /// #     Ok(())
    /// # };
    /// let stream = client.open(Dir::Uni)?;
    /// client.write(stream, b"hello")?;
    /// deliver(&mut client, &mut server)?;
    /// assert_eq!(server.stored(), 5);
    /// assert_eq!(server.read(stream, &mut [0; 3])?, Read::Bytes(3));
    /// assert_eq!(server.stored(), 2);
    /// # Ok::<(), Box<dyn std::error::Error>>(())
    /// ```
    #[must_use]
    pub fn stored(&self) -> u64 {
        self.inner.stored()
    }

    /// How many bytes of a stream count as consumed, which its limit follows: those that were read; after a stop all up to the highest
    /// offset received, gaps too; after the peer's reset its final size (RFC 9000, sections 3.5 and 4.2). `None` if the stream has no
    /// receiving half here. Constant time.
    ///
    /// Compare it from time to time to see how fast a window is used up, and so whether a greater one would help.
    ///
    /// ```
    /// use gotsavena::{Dir, Endpoint, Read, Received, Role, Settings};
    ///
    /// let settings = Settings::default();
    /// let mut client = Endpoint::new(Role::Client, settings, settings.limits())?;
    /// let mut server = Endpoint::new(Role::Server, settings, settings.limits())?;
    /// let stream = client.open(Dir::Uni)?;
    /// client.write(stream, b"hello")?;
    /// let mut payload = [0; 1200];
    /// let made = client.make_packet(&mut payload)?.expect("bytes are due");
    /// assert_eq!(server.receive(made.number, &payload[..made.len])?, Received::Done);
    ///
    /// assert_eq!((server.taken(stream), server.taken_sum()), (Some(0), 0));
    /// assert_eq!(server.read(stream, &mut [0; 3])?, Read::Bytes(3));
    /// assert_eq!((server.taken(stream), server.taken_sum()), (Some(3), 3));
    /// # Ok::<(), Box<dyn std::error::Error>>(())
    /// ```
    #[must_use]
    pub fn taken(&self, stream: StreamId) -> Option<u64> {
        self.inner.taken(stream.inner())
    }

    /// How many bytes of all streams count as consumed: the sum of [`taken`](Endpoint::taken) over all, which the connection's limit
    /// follows (RFC 9000, section 4.2). Constant time.
    ///
    /// ```
    /// # use gotsavena::{Dir, Endpoint, Received, Role, Settings};
    /// # let settings = Settings::default();
    /// # let mut client = Endpoint::new(Role::Client, settings, settings.limits())?;
    /// # let mut server = Endpoint::new(Role::Server, settings, settings.limits())?;
    /// # let mut payload = [0; 1200];
    /// # let deliver = |from: &mut Endpoint, to: &mut Endpoint| -> Result<(), Box<dyn std::error::Error>> {
    /// #     let mut payload = [0; 1200];
    /// #     while let Some(made) = from.make_packet(&mut payload)? {
    /// #         assert_eq!(to.receive(made.number, &payload[..made.len])?, Received::Done);
    /// #     }
    /// #     Ok(())
    /// # };
    /// let stream = client.open(Dir::Uni)?;
    /// client.write(stream, b"hello")?;
    /// deliver(&mut client, &mut server)?;
    /// server.consume(stream, 3)?;
    /// assert_eq!(server.taken_sum(), 3);
    /// # Ok::<(), Box<dyn std::error::Error>>(())
    /// ```
    #[must_use]
    pub fn taken_sum(&self) -> u64 {
        self.inner.taken_sum()
    }

    /// Into how many runs the received offsets fall, on all streams whose end wasn't read and that weren't reset: one for each with some,
    /// and one more for each gap (RFC 9000, section 2.2). Constant time.
    ///
    /// Watch it: each run beyond two of a stream takes 16 to 32 bytes while the gap is there, and no setting bounds that for streams that
    /// were stopped, since their peer gets its credit back. The transport closes a connection whose number gets too great. An honest peer
    /// stays below the sum of 16,384, of two for each receiving half that may be open (the streams that the peer may open at a time, and
    /// own bidirectional ones), and of a thousandth of the connection's window.
    ///
    /// ```
    /// use gotsavena::{Endpoint, Frame, Role, Settings, StreamId, Taken};
    /// let settings = Settings::default();
    /// let mut server = Endpoint::new(Role::Server, settings, settings.limits())?;
    /// let stream = StreamId::new(0).expect("below 2^62");
    /// for offset in [0, 2, 4] {
    ///     let frame = Frame::Stream { stream, offset, fin: false, bytes: b"x" };
    ///     assert_eq!(server.take_frame(&frame)?, Taken::Took);
    /// }
    /// assert_eq!(server.noted(), 3);
    /// # Ok::<(), Box<dyn std::error::Error>>(())
    /// ```
    #[must_use]
    pub fn noted(&self) -> u64 {
        self.inner.noted()
    }

    /// How much memory the buffers of streams take. It walks over all streams that were opened, so ask from time to time and not for each
    /// packet.
    ///
    /// Receive buffers take at least what is [`stored`](Self::stored). A peer can't make them take more than four times the widest window
    /// that the connection had, and 4,096 bytes for each receiving half that wasn't read to its end, reset or stopped. A sending buffer
    /// takes at most twice the most that was set for it ([`send_buffer`](crate::Settings::send_buffer),
    /// [`set_send_buffer`](Endpoint::set_send_buffer)). Once all of it is acknowledged it takes at most 4,096 bytes, and none once the FIN
    /// is too, or after a reset.
    ///
    /// ```
    /// use gotsavena::{Dir, Endpoint, Role, Settings};
    ///
    /// let settings = Settings::default();
    /// let mut end = Endpoint::new(Role::Client, settings, settings.limits())?;
    /// assert_eq!((end.held().receiving, end.held().sending), (0, 0));
    ///
    /// let stream = end.open(Dir::Bidi)?;
    /// end.write(stream, b"hello")?;
    /// assert!(end.held().sending >= 5);
    /// # Ok::<(), Box<dyn std::error::Error>>(())
    /// ```
    #[must_use]
    pub fn held(&self) -> Held {
        Held::of(self.inner.held())
    }

    /// How many streams of a direction the peer may open so far: the first count, and one more for each of its streams that ended, up to
    /// the lifetime's count, and never fewer than before (RFC 9000, section 4.6). If counts move by steps
    /// ([`count_step`](crate::Tuning::count_step)), only whole steps count.
    ///
    /// ```
    /// # use gotsavena::{Dir, Endpoint, Read, Received, Role, Settings};
    /// # let settings = Settings::default();
    /// # let mut client = Endpoint::new(Role::Client, settings, settings.limits())?;
    /// # let mut server = Endpoint::new(Role::Server, settings, settings.limits())?;
    /// # let mut payload = [0; 1200];
    /// # let deliver = |from: &mut Endpoint, to: &mut Endpoint| -> Result<(), Box<dyn std::error::Error>> {
    /// #     let mut payload = [0; 1200];
    /// #     while let Some(made) = from.make_packet(&mut payload)? {
    /// #         assert_eq!(to.receive(made.number, &payload[..made.len])?, Received::Done);
    /// #     }
    /// #     Ok(())
    /// # };
    /// assert_eq!(server.granted_streams(Dir::Uni), 100);
    /// let stream = client.open(Dir::Uni)?;
    /// client.finish(stream)?;
    /// deliver(&mut client, &mut server)?;
    /// assert_eq!(server.read(stream, &mut payload)?, Read::End);
    /// assert_eq!(server.granted_streams(Dir::Uni), 101);
    /// # Ok::<(), Box<dyn std::error::Error>>(())
    /// ```
    #[must_use]
    pub fn granted_streams(&self, dir: Dir) -> u64 {
        self.inner.granted_streams(dir.inner())
    }

    /// How many streams of a direction the peer may still open in the life of this connection. The count is bounded because a few bytes of
    /// each ended stream are kept; at 0 a new connection is needed (RFC 9000, section 4.6).
    ///
    /// ```
    /// # use gotsavena::{Dir, Endpoint, Received, Role, Settings};
    /// # let settings = Settings::default();
    /// # let mut client = Endpoint::new(Role::Client, settings, settings.limits())?;
    /// # let mut server = Endpoint::new(Role::Server, settings, settings.limits())?;
    /// # let mut payload = [0; 1200];
    /// # let deliver = |from: &mut Endpoint, to: &mut Endpoint| -> Result<(), Box<dyn std::error::Error>> {
    /// #     let mut payload = [0; 1200];
    /// #     while let Some(made) = from.make_packet(&mut payload)? {
    /// #         assert_eq!(to.receive(made.number, &payload[..made.len])?, Received::Done);
    /// #     }
    /// #     Ok(())
    /// # };
    /// assert_eq!(server.streams_left(Dir::Uni), 1 << 21);
    /// let stream = client.open(Dir::Uni)?;
    /// client.write(stream, b"hello")?;
    /// deliver(&mut client, &mut server)?;
    /// assert_eq!(server.streams_left(Dir::Uni), (1 << 21) - 1);
    /// # Ok::<(), Box<dyn std::error::Error>>(())
    /// ```
    #[must_use]
    pub fn streams_left(&self, dir: Dir) -> u64 {
        self.inner.streams_left(dir.inner())
    }

    /// How many streams of a direction [`open`](Endpoint::open) may open by the peer's latest count (RFC 9000, section 4.6). What the peer
    /// permits later can't be known here.
    ///
    /// ```
    /// # use gotsavena::{Dir, Endpoint, Role, Settings};
    /// # let settings = Settings::default();
    /// # let mut client = Endpoint::new(Role::Client, settings, settings.limits())?;
    /// # let mut payload = [0; 1200];
    /// assert_eq!(client.open_left(Dir::Uni), 100);
    /// client.open(Dir::Uni)?;
    /// assert_eq!(client.open_left(Dir::Uni), 99);
    /// # Ok::<(), Box<dyn std::error::Error>>(())
    /// ```
    #[must_use]
    pub fn open_left(&self, dir: Dir) -> u64 {
        self.inner.open_left(dir.inner())
    }

    /// How many new bytes the peer's limit on the connection permits (RFC 9000, section 4.1). Lost bytes need no credit, since they were
    /// counted when first sent. Written bytes use it up only as they are sent: see [`unsent`](Endpoint::unsent).
    ///
    /// ```
    /// # use gotsavena::{Dir, Endpoint, Role, Settings};
    /// # let settings = Settings::default();
    /// # let mut client = Endpoint::new(Role::Client, settings, settings.limits())?;
    /// # let mut payload = [0; 1200];
    /// let before = client.credit_left();
    /// let stream = client.open(Dir::Uni)?;
    /// client.write(stream, b"hello")?;
    /// client.make_packet(&mut payload)?;
    /// assert_eq!(client.credit_left(), before - 5);
    /// # Ok::<(), Box<dyn std::error::Error>>(())
    /// ```
    #[must_use]
    pub fn credit_left(&self) -> u64 {
        self.inner.credit_left()
    }

    /// How many bytes written to all streams weren't sent yet: the sum of [`unsent`](Endpoint::unsent) over all (RFC 9000, sections 2.2 and
    /// 3.1). Beyond the greatest u64 it stays at that. Constant time.
    ///
    /// ```
    /// use gotsavena::{Dir, Endpoint, Role, Settings};
    ///
    /// let settings = Settings::default();
    /// let mut end = Endpoint::new(Role::Client, settings, settings.limits()).expect("in range");
    /// let (one, other) = (end.open(Dir::Uni).expect("granted"), end.open(Dir::Bidi).expect("granted"));
    /// assert_eq!((end.write(one, b"abc"), end.write(other, b"de")), (Ok(3), Ok(2)));
    /// assert_eq!(end.unsent_sum(), 5);
    /// end.reset(one, 7).expect("open");
    /// assert_eq!(end.unsent_sum(), 2);
    /// ```
    #[must_use]
    pub fn unsent_sum(&self) -> u64 {
        self.inner.unsent_sum()
    }

    /// How many bytes of all streams are kept until they are acknowledged (RFC 9000, section 13.3): of each stream all from its lowest
    /// unacknowledged offset on, since the buffer frees only at its front, and none after a reset. Beyond the greatest u64 it stays at
    /// that. Constant time. With [`send_window`](crate::Tuning::send_window) a write accepts no more than the window leaves beside this
    /// sum.
    ///
    /// ```
    /// use gotsavena::{Dir, Endpoint, Role, Settings};
    ///
    /// let settings = Settings::default();
    /// let mut end = Endpoint::new(Role::Client, settings, settings.limits()).expect("in range");
    /// let (one, other) = (end.open(Dir::Uni).expect("granted"), end.open(Dir::Bidi).expect("granted"));
    /// assert_eq!((end.write(one, b"abc"), end.write(other, b"de")), (Ok(3), Ok(2)));
    /// assert_eq!(end.kept_sum(), 5);
    /// let mut payload = [0; 1200];
    /// end.make_packet(&mut payload).expect("open").expect("due");
    /// // What was sent is kept still, until it is acknowledged.
    /// assert_eq!((end.unsent_sum(), end.kept_sum()), (0, 5));
    /// end.reset(one, 7).expect("open");
    /// assert_eq!(end.kept_sum(), 2);
    /// ```
    #[must_use]
    pub fn kept_sum(&self) -> u64 {
        self.inner.kept_sum()
    }
}
