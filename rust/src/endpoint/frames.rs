//! Frames and tokens: for a stack with packets of its own.

use super::Endpoint;
use crate::answers::{Taken, Token};
use crate::faults::{MakeFault, TakeFault, TokenFault};
use crate::filling::{Fill, Filled};
use crate::frame::Frame;
use crate::proved::qs_wire as wire;
use crate::shim::Vec;
use crate::shim::alloc::Global;
use core::{array, slice};

// So many frames are passed on from the stack: more than a packet of 1,200 bytes mostly holds, so the usual packet takes no memory.
const FEW_FRAMES: usize = 16;

/// # Frames and tokens
///
/// For a stack that has packet numbers and ACKs of its own: it passes frames in, and has pending frames written.
impl Endpoint {
    /// Processes one frame without its packet, for a stack that has packet numbers and ACKs of its own (RFC 9000, section 13.1). A frame of
    /// streams or flow control takes effect as in a payload, and then limits move. Any other changes nothing: for an ACK call
    /// [`Endpoint::acked`] for its packets.
    ///
    /// `Took` and `Unchanged` say whether anything changed. A frame that came before, brings no new byte or raises no limit doesn't. Count
    /// those against a peer that only makes work, except blocked frames, which an honest peer sends: of these only a STREAM_DATA_BLOCKED
    /// that opens a stream changes anything ([`Taken::Unchanged`]). Acknowledge a packet only once each of its frames was taken: what you acknowledge is never sent again.
    ///
    /// ```
    /// use gotsavena::{Dir, Endpoint, Read, Role, Settings, Taken, frames};
    ///
    /// let settings = Settings::default();
    /// let mut client = Endpoint::new(Role::Client, settings, settings.limits())?;
    /// let mut server = Endpoint::new(Role::Server, settings, settings.limits())?;
    /// let stream = client.open(Dir::Uni)?;
    /// client.write(stream, b"hello")?;
    /// let mut payload = [0; 1200];
    /// let made = client.make_packet(&mut payload)?.expect("bytes are due");
    ///
    /// for placed in frames(&payload[..made.len]) {
    ///     let frame = placed?.frame;
    ///     assert_eq!(server.take_frame(&frame)?, Taken::Took);
    ///     assert_eq!(server.take_frame(&frame)?, Taken::Unchanged);
    /// }
    /// let mut bytes = [0; 16];
    /// assert_eq!(server.read(stream, &mut bytes)?, Read::Bytes(5));
    /// # Ok::<(), Box<dyn std::error::Error>>(())
    /// ```
    ///
    /// # Errors
    ///
    /// `Closing` if the frame breaks a rule (sections 4, 19 and 20.1), or has values that can't be spelled (FRAME_ENCODING_ERROR). The
    /// endpoint is closed from now on, and [`Endpoint::close_payload`] writes the close. It names the type of the frame's canonical text
    /// and place 0, since there is no payload to point into. `NoMemory`: nothing changed, and the frame may come again. A closed endpoint
    /// says so before it asks for memory: `Closing`, or `PeerClosed` with the peer's code.
    #[inline]
    pub fn take_frame(&mut self, frame: &Frame<'_>) -> Result<Taken, TakeFault> {
        if let Frame::Stream {
            stream,
            offset,
            fin,
            bytes,
        } = *frame
        {
            let taken = self
                .inner
                .take_stream_frame(stream.inner(), offset, bytes, fin);
            return taken.map(Taken::of).map_err(TakeFault::of);
        }
        self.take_heard(slice::from_ref(&frame.inner()))
    }

    /// Processes the frames of one packet, each as [`take_frame`](Endpoint::take_frame) does, but limits move once, as the call ends: so it
    /// is what [`receive`](Endpoint::receive) does with them (RFC 9000, sections 4.1 and 12.4). Other frames are passed over. Up to 16
    /// frames of streams and flow control take no memory on the way, and any number of others.
    ///
    /// Returns [`Taken::Took`] if one of them changed something, else [`Taken::Unchanged`] if one was taken, and [`Taken::NotOurs`] if none
    /// was.
    ///
    /// ```
    /// use gotsavena::{Dir, Endpoint, Role, Settings, Taken, frames};
    ///
    /// let settings = Settings::default();
    /// let mut client = Endpoint::new(Role::Client, settings, settings.limits())?;
    /// let mut server = Endpoint::new(Role::Server, settings, settings.limits())?;
    /// let stream = client.open(Dir::Uni)?;
    /// client.write(stream, b"hello")?;
    /// let mut payload = [0; 1200];
    /// let made = client.make_packet(&mut payload)?.expect("bytes are due");
    ///
    /// let read: Result<Vec<_>, _> = frames(&payload[..made.len])
    ///     .map(|placed| placed.map(|placed| placed.frame))
    ///     .collect();
    /// assert_eq!(server.take_frames(&read?)?, Taken::Took);
    /// assert_eq!(server.stored(), 5);
    /// # Ok::<(), Box<dyn std::error::Error>>(())
    /// ```
    ///
    /// # Errors
    ///
    /// As of [`take_frame`](Endpoint::take_frame), by the first frame that is refused: those before it took effect. After `NoMemory` some
    /// first frames took effect, or none, and the same frames may come again.
    pub fn take_frames(&mut self, frames: &[Frame<'_>]) -> Result<Taken, TakeFault> {
        if frames.len() <= FEW_FRAMES {
            let few: [_; FEW_FRAMES] =
                array::from_fn(|place| frames.get(place).unwrap_or(&Frame::Ping).inner());
            return self.take_heard(&few[..frames.len()]);
        }
        // Before memory is asked for, so that a closed endpoint never returns `NoMemory`; and frames of other kinds need none.
        self.ask_open()?;
        let ours = || frames.iter().filter(|frame| frame.is_of_end());
        let Ok(mut all) = Vec::with_capacity(Global, ours().count()) else {
            return Err(TakeFault::NoMemory);
        };
        for frame in ours() {
            all.push_reserved(frame.inner());
        }
        self.take_heard(&all)
    }

    // Blocked frames are noted after they took effect, so the room for the notes is taken before. A note whose mark finds no memory waits
    // there, and is left out only if the stream's length becomes known before it is marked.
    fn take_heard(&mut self, frames: &[wire::Frame<'_>]) -> Result<Taken, TakeFault> {
        let blocked = || frames.iter().filter(|frame| says_blocked(frame));
        if !self.hearing.is_heard() || blocked().next().is_none() {
            return self.take_given(frames);
        }
        self.ask_open()?;
        if self.hearing.expect(&self.inner, blocked().count()).is_err() {
            return Err(TakeFault::NoMemory);
        }
        let taken = self.take_given(frames)?;
        blocked().for_each(|frame| self.hearing.was_told(&self.inner, frame));
        Ok(taken)
    }

    fn take_given(&mut self, frames: &[wire::Frame<'_>]) -> Result<Taken, TakeFault> {
        let taken = self.inner.take_frames(frames);
        taken.map(Taken::of).map_err(TakeFault::of)
    }

    // A PING changes nothing, and a closed endpoint answers it with the very fault that is wanted.
    pub(super) fn ask_open(&mut self) -> Result<(), TakeFault> {
        match self.inner.take_frame(&wire::Frame::Ping) {
            Ok(_passed) => Ok(()),
            Err(fault) => Err(TakeFault::of(fault)),
        }
    }

    /// Writes pending frames that are asked for into a slice, for a packet of a stack that has packets of its own: never an ACK, which the
    /// stack writes. Control frames come first, then data of streams in turn (RFC 9000, sections 2.3, 4, 12.4 and 13.3). `None` if nothing
    /// that is asked for may go within the cap ([`Fill::at_most`](crate::Fill::at_most)), or if the room is too small; with
    /// [`MIN_FILL`](crate::MIN_FILL) bytes it is never too small. The slice may have any length, and only what is filled changes. That is a
    /// whole payload: under its token's number a peer's [`receive`](Endpoint::receive) accepts it too.
    ///
    /// What went in has a token. It stands for the packet number, which the stack needn't share, when the packet is acknowledged or lost.
    ///
    /// ```
    /// use gotsavena::{Dir, Endpoint, Fill, Frame, Role, Settings, frames};
    ///
    /// let settings = Settings::default();
    /// let mut client = Endpoint::new(Role::Client, settings, settings.limits())?;
    /// let low = client.open(Dir::Uni)?;
    /// let high = client.open(Dir::Uni)?;
    /// client.write(low, b"low")?;
    /// client.write(high, b"high")?;
    ///
    /// let mut room = [0; 100];
    /// let filled = client.fill(&mut room, &Fill::data().only(high))?.expect("bytes are due");
    /// assert_eq!((filled.last_stream, filled.more), (Some(high), false));
    /// let placed = frames(&room[..filled.len]).next().expect("one frame")?;
    /// assert!(matches!(placed.frame, Frame::Stream { stream, bytes: b"high", .. } if stream == high));
    /// // The bytes of `low` are due still.
    /// let filled = client.fill(&mut room, &Fill::all().from(high))?.expect("bytes are due");
    /// assert_eq!(filled.last_stream, Some(low));
    /// assert!(client.fill(&mut room, &Fill::all())?.is_none());
    /// # Ok::<(), Box<dyn std::error::Error>>(())
    /// ```
    ///
    /// # Errors
    ///
    /// `Closed`; `Exhausted` if the last number was used (section 12.3); `NoMemory`, only if something that is asked for may go. Then
    /// nothing changed.
    pub fn fill(&mut self, out: &mut [u8], want: &Fill) -> Result<Option<Filled>, MakeFault> {
        match self.inner.fill(out, want.inner()) {
            Ok(filled) => Ok(filled.map(Filled::of)),
            Err(fault) => Err(MakeFault::of(fault)),
        }
    }

    /// The token of a packet that [`make_packet`](Endpoint::make_packet) made, by the number of [`Made`](crate::Made), for a stack that
    /// reports all packets by token.
    ///
    /// ```
    /// # use gotsavena::{Dir, Endpoint, Role, Settings};
    /// # let settings = Settings::default();
    /// # let mut client = Endpoint::new(Role::Client, settings, settings.limits())?;
    /// # let mut payload = [0; 1200];
    /// let stream = client.open(Dir::Uni)?;
    /// client.write(stream, b"hello")?;
    /// let made = client.make_packet(&mut payload)?.expect("bytes are pending");
    /// client.lost(client.token_of(made.number))?;
    /// assert!(client.make_packet(&mut payload)?.is_some(), "the bytes are retransmitted");
    /// # Ok::<(), Box<dyn std::error::Error>>(())
    /// ```
    #[must_use]
    pub fn token_of(&self, number: u64) -> Token {
        Token::of(self.inner.token_of(number))
    }

    /// The peer acknowledged the packet of a token, in time or after it was lost: what an ACK of that packet alone does (RFC 9000, section
    /// 13.3). Call it instead of passing ACK frames in, and only if the peer did acknowledge the packet: the bytes are freed. For a packet
    /// that is done it changes nothing. For joined tokens ([`Token::and`]) it is an ACK of all of them, at a cost for each number.
    ///
    /// ```
    /// use gotsavena::{Dir, Endpoint, Role, Settings, TokenFault};
    ///
    /// let settings = Settings::default();
    /// let mut client = Endpoint::new(Role::Client, settings, settings.limits())?;
    /// let stream = client.open(Dir::Uni)?;
    /// client.write(stream, b"hello")?;
    /// let made = client.make_packet(&mut [0; 1200])?.expect("bytes are due");
    /// let token = client.token_of(made.number);
    /// client.lost(token)?;
    /// client.acked(token)?;
    /// assert!(client.make_packet(&mut [0; 1200])?.is_none(), "a late acknowledgement counts");
    /// assert_eq!(client.acked(client.token_of(7)), Err(TokenFault::NotGiven));
    /// # Ok::<(), Box<dyn std::error::Error>>(())
    /// ```
    ///
    /// # Errors
    ///
    /// `Closed`; `NotGiven` if not all of its packets were made yet, or the token is of another epoch; `NoMemory`: some of what they
    /// carried may be acknowledged already, and the call may be made again.
    pub fn acked(&mut self, token: Token) -> Result<(), TokenFault> {
        self.inner.acked(token.inner()).map_err(TokenFault::of)
    }

    /// The packet of a token is lost, as by [`Endpoint::declare_lost`]: what it carried is pending again as far as it is still needed, and
    /// a late `acked` still counts (RFC 9000, section 13.3). For a packet that is done it changes nothing, so a stack needn't remember
    /// which are. Of joined tokens each is lost.
    ///
    /// ```
    /// # use gotsavena::{Dir, Endpoint, Fill, Role, Settings};
    /// # let settings = Settings::default();
    /// # let mut client = Endpoint::new(Role::Client, settings, settings.limits())?;
    /// # let mut payload = [0; 1200];
    /// let stream = client.open(Dir::Uni)?;
    /// client.write(stream, b"hello")?;
    /// let filled = client.fill(&mut payload, &Fill::all())?.expect("bytes are pending");
    /// client.lost(filled.token)?;
    /// let again = client.fill(&mut payload, &Fill::all())?.expect("they are retransmitted");
    /// client.acked(again.token)?;
    /// # Ok::<(), Box<dyn std::error::Error>>(())
    /// ```
    ///
    /// # Errors
    ///
    /// `Closed`; `NotGiven` if not all of its packets were made yet, or the token is of another epoch; `NoMemory`: some of what they
    /// carried may be pending again already, and the call may be made again.
    pub fn lost(&mut self, token: Token) -> Result<(), TokenFault> {
        self.inner.lost(token.inner()).map_err(TokenFault::of)
    }
}

pub(super) fn says_blocked(frame: &wire::Frame<'_>) -> bool {
    matches!(
        frame,
        wire::Frame::DataBlocked { .. }
            | wire::Frame::StreamDataBlocked { .. }
            | wire::Frame::StreamsBlocked { .. }
    )
}
