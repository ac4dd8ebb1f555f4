//! Packets: payloads are received and made.

use super::frames::says_blocked;
use super::{Endpoint, MAX_PAYLOAD, MAX_ROOM, MIN_ROOM};
use crate::answers::{Closing, Made, Received};
use crate::faults::{LostFault, MakeFault, ReceiveFault};
use crate::frame::MAX_VARINT;
use crate::ids::StreamId;
use crate::proved::{qs_conn as conn, qs_wire as wire};

/// # Packets
///
/// Payloads are received and made. A stack that has packet numbers and ACKs of its own uses frames and tokens instead.
impl Endpoint {
    /// Processes the payload of a packet: its frames take effect one after the other (RFC 9000, sections 12.3, 12.4 and 13.1). `number` is
    /// the packet's number, below 2^62; `payload` is all of its frames, at most 65,535 bytes ([`MAX_PAYLOAD`]). Only pass what packet
    /// protection accepted: a number counts once, so a forged packet would block the true one.
    ///
    /// Packets may arrive in any order, more than once, and after they were declared lost. A closed endpoint returns again what it returned
    /// as it closed.
    ///
    /// ```
    /// # use gotsavena::{Dir, Endpoint, Received, Role, Settings};
    /// # let settings = Settings::default();
    /// # let mut client = Endpoint::new(Role::Client, settings, settings.limits())?;
    /// # let mut server = Endpoint::new(Role::Server, settings, settings.limits())?;
    /// # let mut payload = [0; 1200];
    /// let stream = client.open(Dir::Uni)?;
    /// client.write(stream, b"hello")?;
    /// let made = client.make_packet(&mut payload)?.expect("bytes are pending");
    /// assert_eq!(server.receive(made.number, &payload[..made.len])?, Received::Done);
    /// assert_eq!(server.receive(made.number, &payload[..made.len])?, Received::Duplicate);
    /// # Ok::<(), Box<dyn std::error::Error>>(())
    /// ```
    ///
    /// # Errors
    ///
    /// `Closing` if the bytes are no frames (section 12.4) or a frame breaks a rule (sections 4, 13.1, 19 and 20.1). The frames before it
    /// took effect. The endpoint is closed from now on, and [`Endpoint::close_payload`] writes the close for the peer (section 10.2).
    /// `Invalid` if the number or the payload's length isn't as said; then nothing changed.
    pub fn receive(&mut self, number: u64, payload: &[u8]) -> Result<Received, ReceiveFault> {
        if number > MAX_VARINT || payload.len() > MAX_PAYLOAD {
            return Err(ReceiveFault::Invalid);
        }
        self.hearing_through(payload, |end| answer_of(end.receive(number, payload)))
    }

    /// As [`Endpoint::receive`], and `told` is called for each packet that the payload newly acknowledges, once: one that was outstanding,
    /// that an ACK of the payload names, and that isn't outstanding any more (RFC 9000, section 13.3). They come in the order of the ACKs,
    /// of each ACK the highest number first, as congestion control wants them (RFC 9002, section 7). The payload is read once.
    ///
    /// After [`Received::NoMemory`] none was named that is still outstanding: the same payload may come again, and names the others.
    ///
    /// # Errors
    ///
    /// As of [`Endpoint::receive`]. Every packet that was named counts as acknowledged even so.
    ///
    /// # Example
    ///
    /// ```
    /// use gotsavena::{Dir, Endpoint, Received, Role, Settings};
    ///
    /// let settings = Settings::default();
    /// let mut client = Endpoint::new(Role::Client, settings, settings.limits())?;
    /// let mut server = Endpoint::new(Role::Server, settings, settings.limits())?;
    /// let stream = client.open(Dir::Bidi)?;
    /// client.write(stream, b"hello")?;
    ///
    /// let mut payload = [0; 1200];
    /// let made = client.make_packet(&mut payload)?.expect("bytes are due");
    /// assert_eq!(server.receive(made.number, &payload[..made.len])?, Received::Done);
    /// let ack = server.make_packet(&mut payload)?.expect("an ACK is due");
    ///
    /// let mut acked = Vec::new();
    /// let received = client.receive_with_acks(ack.number, &payload[..ack.len], |number| acked.push(number))?;
    /// assert_eq!((received, acked), (Received::Done, vec![made.number]));
    /// # Ok::<(), Box<dyn std::error::Error>>(())
    /// ```
    pub fn receive_with_acks(
        &mut self,
        number: u64,
        payload: &[u8],
        mut told: impl FnMut(u64),
    ) -> Result<Received, ReceiveFault> {
        if number > MAX_VARINT || payload.len() > MAX_PAYLOAD {
            return Err(ReceiveFault::Invalid);
        }
        let mut telling = Telling(&mut told);
        self.hearing_through(payload, |end| {
            answer_of(end.receive_with_acks(number, payload, &mut telling))
        })
    }

    // If it was chosen, the payload is looked through twice: before, so that there is room for each note, and after, since only what took
    // effect is noted.
    #[inline]
    fn hearing_through(
        &mut self,
        payload: &[u8],
        receive: impl FnOnce(&mut conn::Endpoint) -> Result<Received, ReceiveFault>,
    ) -> Result<Received, ReceiveFault> {
        let mut count = 0;
        if self.hearing.is_looking() && self.ask_open().is_ok() {
            each_blocked(payload, |_frame| count += 1);
            if self.hearing.expect(&self.inner, count).is_err() {
                return Ok(Received::NoMemory);
            }
        }
        let answer = receive(&mut self.inner);
        if count > 0 && answer == Ok(Received::Done) {
            each_blocked(payload, |frame| self.hearing.was_told(&self.inner, frame));
        }
        answer
    }

    /// Makes the next packet: writes its payload at the slice's front. `None` if nothing pending may go under the limits. What is pending
    /// goes in as far as there is room: an ACK, control frames, data of streams (RFC 9000, sections 4, 13.2 and 13.3).
    ///
    /// The number is used up, so send the packet or declare it lost: otherwise what it carries counts as in flight for good. A packet with
    /// an ACK alone asks for no ACK and needn't be declared lost. `out` has 128 to 16,383 bytes ([`MIN_ROOM`], [`MAX_ROOM`]).
    ///
    /// ```
    /// # use gotsavena::{Dir, Endpoint, Received, Role, Settings};
    /// # let settings = Settings::default();
    /// # let mut client = Endpoint::new(Role::Client, settings, settings.limits())?;
    /// # let mut server = Endpoint::new(Role::Server, settings, settings.limits())?;
    /// # let mut payload = [0; 1200];
    /// assert_eq!(client.make_packet(&mut payload)?, None);
    /// let stream = client.open(Dir::Uni)?;
    /// client.write(stream, b"hello")?;
    /// let made = client.make_packet(&mut payload)?.expect("bytes are pending");
    /// assert_eq!((made.number, made.is_ack_eliciting), (0, true));
    /// // The network.
    /// assert_eq!(server.receive(made.number, &payload[..made.len])?, Received::Done);
    /// # Ok::<(), Box<dyn std::error::Error>>(())
    /// ```
    ///
    /// # Errors
    ///
    /// `Invalid` if the room isn't as said; `Closed`; `Exhausted` if the last packet number was used (section 12.3); `NoMemory`. Then
    /// nothing changed.
    #[inline]
    pub fn make_packet(&mut self, out: &mut [u8]) -> Result<Option<Made>, MakeFault> {
        if out.len() < MIN_ROOM || out.len() > MAX_ROOM {
            return Err(MakeFault::Invalid);
        }
        match self.inner.make_packet(out) {
            Ok(made) => Ok(made.map(Made::of)),
            Err(fault) => Err(MakeFault::of(fault)),
        }
    }

    /// As [`Endpoint::make_packet`], with two choices. Data goes in from stream `first` on, lower streams first, and then from those below
    /// it: which stream goes first is for the application to say (RFC 9000, section 2.3). And an ACK carries this delay, below 2^62, in
    /// units of the ack_delay_exponent that the peer was given (sections 18.2 and 19.3).
    ///
    /// For round-robin, move `first` past the [`last_stream`](crate::last_stream) of which a packet carried data.
    ///
    /// ```
    /// use gotsavena::{Dir, Endpoint, Role, Settings, last_stream};
    ///
    /// let settings = Settings::default();
    /// let mut client = Endpoint::new(Role::Client, settings, settings.limits())?;
    /// let low = client.open(Dir::Uni)?;
    /// let high = client.open(Dir::Uni)?;
    /// client.write(low, b"low")?;
    /// client.write(high, b"high")?;
    ///
    /// let mut payload = [0; 1200];
    /// let made = client.make_packet_from(high, 0, &mut payload)?.expect("bytes are due");
    /// // The bytes of `high` stand before those of `low`.
    /// assert_eq!(last_stream(&payload[..made.len]), Some(low));
    /// # Ok::<(), Box<dyn std::error::Error>>(())
    /// ```
    ///
    /// # Errors
    ///
    /// As of [`Endpoint::make_packet`], and `Invalid` for a delay of 2^62 or more.
    pub fn make_packet_from(
        &mut self,
        first: StreamId,
        delay: u64,
        out: &mut [u8],
    ) -> Result<Option<Made>, MakeFault> {
        if out.len() < MIN_ROOM || out.len() > MAX_ROOM || delay > MAX_VARINT {
            return Err(MakeFault::Invalid);
        }
        match self.inner.make_packet_from(first.inner(), delay, out) {
            Ok(made) => Ok(made.map(Made::of)),
            Err(fault) => Err(MakeFault::of(fault)),
        }
    }

    /// Makes the next packet with an ACK alone; `None` if none is pending. It names the highest numbers received, as many ranges as there
    /// is room for, and carries this delay, below 2^62, in units of the ack_delay_exponent that the peer was given (RFC 9000, sections 13.2
    /// and 19.3). Such a packet isn't in flight, so it may go when the congestion window is full (RFC 9002, sections 2 and 7), and it can't
    /// be declared lost. What else is pending stays so. It takes no memory.
    ///
    /// ```
    /// # use gotsavena::{Dir, Endpoint, Received, Role, Settings};
    /// # let settings = Settings::default();
    /// # let mut client = Endpoint::new(Role::Client, settings, settings.limits())?;
    /// # let mut server = Endpoint::new(Role::Server, settings, settings.limits())?;
    /// # let mut payload = [0; 1200];
    /// # let deliver = |from: &mut Endpoint, to: &mut Endpoint| -> Result<(), Box<dyn std::error::Error>> {
    /// #     let mut payload = [0; 1200];
    /// #     while let Some(made) = from.make_packet(&mut payload)? {
    /// #         assert_eq!(to.receive(made.number, &payload[..made.len])?, Received::Done);
    /// #     }
    /// #     Ok(())
    /// # };
    /// let stream = client.open(Dir::Uni)?;
    /// client.write(stream, b"hello")?;
    /// deliver(&mut client, &mut server)?;
    /// let ack = server.make_ack(0, &mut payload)?.expect("an ACK is pending");
    /// assert!(!ack.is_ack_eliciting);
    /// assert_eq!(client.receive(ack.number, &payload[..ack.len])?, Received::Done);
    /// assert_eq!(client.next_outstanding(0), None);
    /// # Ok::<(), Box<dyn std::error::Error>>(())
    /// ```
    ///
    /// # Errors
    ///
    /// `Invalid` if the room isn't of 128 to 16,383 bytes, or the delay is 2^62 or more; `Closed`; `Exhausted` if the last packet number
    /// was used (section 12.3). Then nothing changed.
    pub fn make_ack(&mut self, delay: u64, out: &mut [u8]) -> Result<Option<Made>, MakeFault> {
        if out.len() < MIN_ROOM || out.len() > MAX_ROOM || delay > MAX_VARINT {
            return Err(MakeFault::Invalid);
        }
        match self.inner.make_ack(delay, out) {
            Ok(made) => Ok(made.map(Made::of)),
            Err(fault) => Err(MakeFault::of(fault)),
        }
    }

    /// Whether an ACK is pending: from the first packet received that asks for one, until one was made (RFC 9000, section 13.2). When to
    /// send it is for the transport, which has the clock.
    ///
    /// ```
    /// # use gotsavena::{Dir, Endpoint, Received, Role, Settings};
    /// # let settings = Settings::default();
    /// # let mut client = Endpoint::new(Role::Client, settings, settings.limits())?;
    /// # let mut server = Endpoint::new(Role::Server, settings, settings.limits())?;
    /// # let mut payload = [0; 1200];
    /// # let deliver = |from: &mut Endpoint, to: &mut Endpoint| -> Result<(), Box<dyn std::error::Error>> {
    /// #     let mut payload = [0; 1200];
    /// #     while let Some(made) = from.make_packet(&mut payload)? {
    /// #         assert_eq!(to.receive(made.number, &payload[..made.len])?, Received::Done);
    /// #     }
    /// #     Ok(())
    /// # };
    /// let stream = client.open(Dir::Uni)?;
    /// client.write(stream, b"hello")?;
    /// deliver(&mut client, &mut server)?;
    /// assert!(server.ack_is_due());
    /// server.make_packet(&mut payload)?;
    /// assert!(!server.ack_is_due());
    /// # Ok::<(), Box<dyn std::error::Error>>(())
    /// ```
    #[must_use]
    pub fn ack_is_due(&self) -> bool {
        self.inner.ack_is_due()
    }

    /// Whether a packet would carry more than an ACK: a control frame is pending, or data or a FIN that no limit holds back (RFC 9000,
    /// sections 4.1 and 13.3). Ask it to spare the call of `make_packet` and its buffer. A closed endpoint sends nothing.
    ///
    /// ```
    /// # use gotsavena::{Dir, Endpoint, Role, Settings};
    /// # let settings = Settings::default();
    /// # let mut client = Endpoint::new(Role::Client, settings, settings.limits())?;
    /// # let mut payload = [0; 1200];
    /// assert!(!client.is_sendable());
    /// let stream = client.open(Dir::Uni)?;
    /// client.write(stream, b"hello")?;
    /// assert!(client.is_sendable());
    /// # Ok::<(), Box<dyn std::error::Error>>(())
    /// ```
    #[must_use]
    pub fn is_sendable(&self) -> bool {
        self.inner.is_sendable()
    }

    /// Uses up the next packet number, for a packet that the transport writes itself, and returns it (RFC 9000, section 12.3). Numbers have
    /// one home, so that none is used twice. Here it is a packet without content: an ACK may name it, and it can't be declared lost. A
    /// closed endpoint gives numbers too, for the packets with its CONNECTION_CLOSE.
    ///
    /// ```
    /// # use gotsavena::{Endpoint, Received, Role, Settings};
    /// # let settings = Settings::default();
    /// # let mut client = Endpoint::new(Role::Client, settings, settings.limits())?;
    /// # let mut server = Endpoint::new(Role::Server, settings, settings.limits())?;
    /// # let mut payload = [0; 1200];
    /// // A PING of the transport.
    /// let number = client.claim_number()?;
    /// assert_eq!(server.receive(number, &[0x01])?, Received::Done);
    /// # Ok::<(), Box<dyn std::error::Error>>(())
    /// ```
    ///
    /// # Errors
    ///
    /// `Exhausted` if the last packet number was used. Then nothing changed.
    pub fn claim_number(&mut self) -> Result<u64, MakeFault> {
        self.inner.claim_number().map_err(MakeFault::of)
    }

    /// The number that the next packet will have: one more than the last that was used, 0 at first (RFC 9000, section 12.3).
    ///
    /// ```
    /// # use gotsavena::{Endpoint, Role, Settings};
    /// # let settings = Settings::default();
    /// # let mut client = Endpoint::new(Role::Client, settings, settings.limits())?;
    /// # let mut payload = [0; 1200];
    /// assert_eq!(client.next_number(), 0);
    /// client.claim_number()?;
    /// assert_eq!(client.next_number(), 1);
    /// # Ok::<(), Box<dyn std::error::Error>>(())
    /// ```
    #[must_use]
    pub fn next_number(&self) -> u64 {
        self.inner.next_number()
    }

    /// Declares the packet of this number lost: what it carried is pending again as far as it is still needed (RFC 9000, section 13.3). A
    /// late ACK still counts for the 256 packets that were declared lost last, so a wrong guess costs little.
    ///
    /// ```
    /// # use gotsavena::{Dir, Endpoint, Role, Settings};
    /// # let settings = Settings::default();
    /// # let mut client = Endpoint::new(Role::Client, settings, settings.limits())?;
    /// # let mut payload = [0; 1200];
    /// let stream = client.open(Dir::Uni)?;
    /// client.write(stream, b"hello")?;
    /// let lost = client.make_packet(&mut payload)?.expect("bytes are pending");
    /// client.declare_lost(lost.number)?;
    /// let made = client.make_packet(&mut payload)?.expect("they are retransmitted");
    /// assert_eq!(made.number, lost.number + 1);
    /// # Ok::<(), Box<dyn std::error::Error>>(())
    /// ```
    ///
    /// # Errors
    ///
    /// `Closed`; `NotOutstanding` if no such packet is outstanding; `NoMemory`: some first pieces of the packet may be pending again
    /// already, and the call may be made again.
    pub fn declare_lost(&mut self, number: u64) -> Result<(), LostFault> {
        self.inner.declare_lost(number).map_err(LostFault::of)
    }

    /// The lowest number at or above `from` of an outstanding packet: it was made, asks for an ACK, and is neither acknowledged nor
    /// declared lost (RFC 9000, section 13.3). It looks at each number from the lowest outstanding one on, so walk upwards instead of
    /// asking for each.
    ///
    /// ```
    /// # use gotsavena::{Dir, Endpoint, Role, Settings};
    /// # let settings = Settings::default();
    /// # let mut client = Endpoint::new(Role::Client, settings, settings.limits())?;
    /// # let mut payload = [0; 1200];
    /// let stream = client.open(Dir::Uni)?;
    /// client.write(stream, b"hello")?;
    /// let made = client.make_packet(&mut payload)?.expect("bytes are pending");
    /// assert_eq!(client.next_outstanding(0), Some(made.number));
    /// client.declare_lost(made.number)?;
    /// assert_eq!(client.next_outstanding(0), None);
    /// # Ok::<(), Box<dyn std::error::Error>>(())
    /// ```
    #[must_use]
    pub fn next_outstanding(&self, from: u64) -> Option<u64> {
        self.inner.next_outstanding(from)
    }
}

// One type for all closures, so that the crate has one copy of the code that receives a payload.
struct Telling<'a>(&'a mut dyn FnMut(u64));

impl conn::Told for Telling<'_> {
    fn tell(&mut self, number: u64) {
        (self.0)(number);
    }
}

// Up to the first fault, where `receive` ends, too.
#[cold]
fn each_blocked(payload: &[u8], mut act: impl FnMut(&wire::Frame<'_>)) {
    let mut frames = wire::Frames::new(payload);
    while let Ok(Some(placed)) = frames.next() {
        if says_blocked(&placed.frame) {
            act(&placed.frame);
        }
    }
}

fn answer_of(taken: Result<conn::Received, conn::Closing>) -> Result<Received, ReceiveFault> {
    match taken {
        Ok(received) => Ok(Received::of(received)),
        Err(closing) => Err(ReceiveFault::Closing(Closing::of(closing))),
    }
}
