//! What the calls of an endpoint return.

use crate::proved::{qs_calls as calls, qs_conn as conn, qs_recv as recv, qs_send as send};
use core::error::Error;
use core::fmt;

/// Why this endpoint closed the connection: the peer broke a rule (RFC 9000, sections 10.2 and 20.1).
///
/// [`Endpoint::close_payload`](crate::Endpoint::close_payload) writes it as the CONNECTION_CLOSE for the peer.
#[derive(Clone, Copy, Debug, PartialEq, Eq)]
#[non_exhaustive]
pub struct Closing {
    /// The transport error code of section 20.1.
    pub code: u64,
    /// The type of the frame that offended, 0 if none was read: section 19.19 has a field for it, so that a peer's log can name the fault.
    pub frame_type: u64,
    /// Where the frame's first byte stands in its payload, counted in bytes from 0. It isn't sent: it is for this side's log.
    pub place: usize,
}

/// A side of the connection, seen from this endpoint.
#[derive(Clone, Copy, Debug, PartialEq, Eq)]
pub enum Closer {
    /// This endpoint.
    Us,
    /// The other one.
    Peer,
}

/// Who closed in the sense of section 20 of RFC 9000. The codes of the two kinds are numbered apart, so a code alone means nothing.
#[derive(Clone, Copy, Debug, PartialEq, Eq)]
pub enum CloseKind {
    /// The transport: a CONNECTION_CLOSE of type 0x1c, or an idle timeout (RFC 9000, sections 10.1 and 19.19).
    Transport,
    /// The application: a CONNECTION_CLOSE of type 0x1d (RFC 9000, section 19.19).
    Application,
}

/// A close that [`Endpoint::note_closed`](crate::Endpoint::note_closed) noted: one that never came through this endpoint.
#[derive(Clone, Copy, Debug, PartialEq, Eq)]
#[non_exhaustive]
pub struct NotedClose {
    /// The side that closed.
    pub by: Closer,
    /// The kind, without which the code can't be read.
    pub kind: CloseKind,
    /// The error code. An idle timeout has none, so it counts as 0.
    pub code: u64,
}

/// What came of a payload that didn't make this endpoint close.
#[derive(Clone, Copy, Debug, PartialEq, Eq)]
#[non_exhaustive]
#[must_use = "it says whether the payload took effect, and whether the peer closed"]
pub enum Received {
    /// All frames took effect, and the packet number is kept. A stack that writes ACKs itself may name only these numbers: what it
    /// acknowledges the peer never sends again.
    Done,
    /// The packet number was processed before, so nothing changed. After `NoMemory` a number doesn't count as processed: its payload may
    /// come again and is then new.
    Duplicate,
    /// The packet number is below those whose history is kept (RFC 9000, section 13.2.3). It may be a repeat, so it was dropped. Nothing
    /// changed.
    BelowFloor,
    /// The peer closed the connection, now or before, with this code. The frames before its CONNECTION_CLOSE took effect, but `read`
    /// returns `Closed`: all streams end with the connection, unless [`Tuning::reads_when_closed`](crate::Tuning::reads_when_closed) was
    /// chosen.
    PeerClosed(u64),
    /// Memory was refused. Some first frames took effect, or none. The number isn't kept, so it isn't acknowledged, and the same payload
    /// may come again.
    NoMemory,
}

/// What came of a single frame ([`Endpoint::take_frame`](crate::Endpoint::take_frame)).
#[derive(Clone, Copy, Debug, PartialEq, Eq)]
#[non_exhaustive]
#[must_use = "it says whether the frame changed anything, and whether it is the stack's"]
pub enum Taken {
    /// It took effect, and changed something.
    Took,
    /// It changed nothing: its content came before, or it raises no limit. Count these against a peer that only makes work.
    ///
    /// Don't count DATA_BLOCKED, STREAMS_BLOCKED, and STREAM_DATA_BLOCKED of an open stream: an honest peer sends them whenever it waits
    /// for credit, and they never change anything (RFC 9000, sections 19.12 to 19.14).
    Unchanged,
    /// It is neither of streams nor of flow control, so it is for the stack, and nothing changed here.
    NotOurs,
}

impl Taken {
    pub(crate) fn of(taken: calls::Taken) -> Taken {
        match taken {
            calls::Taken::Took => Taken::Took,
            calls::Taken::Unchanged => Taken::Unchanged,
            calls::Taken::NotOurs => Taken::NotOurs,
        }
    }
}

/// What a read returns (RFC 9000, section 2.2).
#[derive(Clone, Copy, Debug, PartialEq, Eq)]
#[must_use = "it says how many bytes were read, or why none"]
pub enum Read {
    /// So many bytes were read into the slice's front. 0 only if the slice is empty, so that a loop never takes 0 for the end.
    Bytes(usize),
    /// The stream ended: all its bytes were read before, or discarded by a stop.
    End,
    /// The peer reset the stream, with this code.
    Reset(u64),
    /// Nothing can be read now. [`Event::Readable`](crate::Event::Readable) says when to try again.
    Wait,
}

/// What [`Endpoint::peek`](crate::Endpoint::peek) shows. Nothing counts as read by it.
#[derive(Clone, Copy, Debug, PartialEq, Eq)]
#[non_exhaustive]
pub enum Peek<'a> {
    /// The bytes that are next, in order: those of the first slice, which has at least one, and then those of the second. There are two
    /// because the receive buffer is a ring; the second is empty unless the bytes go around its edge.
    Bytes(&'a [u8], &'a [u8]),
    /// The stream ended: all its bytes were read before, or discarded by a stop.
    End,
    /// The peer reset the stream, with this code.
    Reset(u64),
    /// Nothing can be read now. [`Event::Readable`](crate::Event::Readable) says when to try again.
    Wait,
}

/// What [`Endpoint::consume`](crate::Endpoint::consume) returns: bytes that count as read, and weren't copied.
#[derive(Clone, Copy, Debug, PartialEq, Eq)]
#[non_exhaustive]
pub struct Consumed {
    /// What a read of so many bytes would have returned.
    pub read: Read,
    /// Whether the stream ends with these bytes. Then the end counts as read, so that no further call is needed. It is also true beside
    /// `End`, and never beside `Wait` or `Reset`.
    pub at_end: bool,
}

/// A packet that was made.
#[derive(Clone, Copy, Debug, PartialEq, Eq)]
#[non_exhaustive]
pub struct Made {
    /// Its packet number, below 2^62. Send the packet under this one: ACKs will name it (RFC 9000, section 12.3).
    pub number: u64,
    /// How many bytes of the slice are its payload.
    pub len: usize,
    /// Whether it asks for an ACK: it holds a frame other than ACK (RFC 9000, section 13.2.1). One that doesn't isn't in flight for
    /// congestion control (RFC 9002, section 2), and has nothing to retransmit, so it can't be declared lost.
    pub is_ack_eliciting: bool,
}

/// Names what [`Endpoint::fill`](crate::Endpoint::fill) put into a packet of the stack's. With it the stack reports that packet as
/// acknowledged or lost ([`Endpoint::acked`](crate::Endpoint::acked), [`Endpoint::lost`](crate::Endpoint::lost)). It holds one packet
/// number of the endpoint's own, or several in a row, and the endpoint's epoch, so that no token of another endpoint is mistaken for one of
/// this.
#[derive(Clone, Copy, Debug, PartialEq, Eq, Hash)]
pub struct Token {
    /// The epoch of its endpoint ([`Tuning::epoch`](crate::Tuning::epoch)).
    pub epoch: u64,
    /// The lowest of its numbers. A token whose `first` is above `number` is `NotGiven`.
    pub first: u64,
    /// The highest of its numbers. What was filled at once has one number alone: that of [`Made`].
    pub number: u64,
}

impl Token {
    /// Joins this token with that of what was filled in next, so that a packet filled in parts has one token to keep. `None` if their
    /// numbers don't follow one another or their epochs differ.
    ///
    /// ```
    /// use gotsavena::{Dir, Endpoint, Fill, Role, Settings};
    ///
    /// let settings = Settings::default();
    /// let mut client = Endpoint::new(Role::Client, settings, settings.limits())?;
    /// let [low, high] = [client.open(Dir::Uni)?, client.open(Dir::Uni)?];
    /// client.write(low, b"hello")?;
    /// client.write(high, b"world")?;
    /// let mut packet = [0; 1200];
    /// let head = client.fill(&mut packet, &Fill::data().only(low))?.expect("bytes are due");
    /// let tail = client.fill(&mut packet[head.len..], &Fill::data())?.expect("bytes are due");
    /// let token = head.token.and(tail.token).expect("the next one");
    /// client.lost(token)?;
    /// client.acked(token)?;
    /// assert!(client.fill(&mut packet, &Fill::all())?.is_none(), "all is acknowledged");
    /// # Ok::<(), Box<dyn std::error::Error>>(())
    /// ```
    #[must_use]
    pub fn and(self, next: Token) -> Option<Token> {
        self.inner().and(next.inner()).map(Token::of)
    }

    pub(crate) fn inner(self) -> calls::Token {
        calls::Token {
            epoch: self.epoch,
            first: self.first,
            number: self.number,
        }
    }

    pub(crate) fn of(token: calls::Token) -> Token {
        Token {
            epoch: token.epoch,
            first: token.first,
            number: token.number,
        }
    }
}

/// How much memory an endpoint uses for the bytes of its streams, in bytes: those that wait to be read, and those that wait to be
/// acknowledged. Apart, since a peer makes the first grow, and the application the second.
#[derive(Clone, Copy, Debug, PartialEq, Eq)]
#[non_exhaustive]
pub struct Held {
    /// That of the receive buffers, for bytes that wait to be read.
    pub receiving: u64,
    /// That of the sending buffers, for bytes that wait to be acknowledged.
    pub sending: u64,
}

/// The states of a stream's halves at this endpoint.
#[derive(Clone, Copy, Debug, PartialEq, Eq)]
#[non_exhaustive]
pub struct StreamReport {
    /// The sending half; `None` for a unidirectional stream of the peer.
    pub send: Option<SendReport>,
    /// The receiving half; `None` for a unidirectional stream of this endpoint.
    pub recv: Option<RecvReport>,
}

/// A sending half (RFC 9000, section 3.1).
#[derive(Clone, Copy, Debug, PartialEq, Eq)]
#[non_exhaustive]
pub struct SendReport {
    /// Its state. `DataRecvd` is what a sender waits for: the peer has everything.
    pub state: SendState,
    /// How many bytes were accepted for sending.
    pub written: u64,
    /// The final size in bytes, once it is declared by a FIN or a reset.
    pub final_size: Option<u64>,
    /// The code of its reset, if there was one: the application's, or that of the peer's STOP_SENDING (section 3.5).
    pub reset_code: Option<u64>,
    /// How many bytes of the stream the peer permits so far (section 4.1).
    pub limit: u64,
}

/// A receiving half (RFC 9000, section 3.2).
#[derive(Clone, Copy, Debug, PartialEq, Eq)]
#[non_exhaustive]
pub struct RecvReport {
    /// Its state.
    pub state: RecvState,
    /// How many bytes were read.
    pub read_count: u64,
    /// The final size if it is known, else one more than the largest offset received, or 0. Flow control counts this, not the bytes that
    /// arrived.
    pub highest: u64,
    /// How many bytes of the stream the peer may send so far (section 4.1).
    pub limit: u64,
    /// The final size in bytes, once it is known.
    pub final_size: Option<u64>,
    /// The code of the peer's reset, if one took effect.
    pub reset_code: Option<u64>,
    /// The code with which the application stopped it first; a second one changes nothing, since the peer may have acted on the first (RFC
    /// 9000, section 3.5).
    pub stop_code: Option<u64>,
}

/// The states of a sending half, with the standard's names (RFC 9000, section 3.1). `DataSent` has sent its FIN, and may still have to send
/// lost bytes again; in `DataRecvd` everything was acknowledged. `ResetSent` also follows the peer's STOP_SENDING.
#[derive(Clone, Copy, Debug, PartialEq, Eq)]
pub enum SendState {
    /// The application may write, and nothing was sent yet.
    Ready,
    /// Something was sent, and the stream isn't finished.
    Send,
    /// All bytes were sent, and the FIN.
    DataSent,
    /// All of that was acknowledged: the half is over.
    DataRecvd,
    /// The half was reset.
    ResetSent,
    /// The reset was acknowledged: the half is over.
    ResetRecvd,
}

/// The states of a receiving half, with the standard's names (RFC 9000, section 3.2). In `SizeKnown` bytes are missing; in `DataRecvd` none
/// is, but the end wasn't read. Only in `DataRead` and `ResetRead`, when `read` returned the end or the reset, the peer may open another
/// stream.
#[derive(Clone, Copy, Debug, PartialEq, Eq)]
pub enum RecvState {
    /// Where the stream ends isn't known yet.
    Recv,
    /// The FIN came, and bytes before it are missing.
    SizeKnown,
    /// All bytes came.
    DataRecvd,
    /// The end was read: the half is over.
    DataRead,
    /// The peer reset it.
    ResetRecvd,
    /// The reset was read: the half is over.
    ResetRead,
}

impl fmt::Display for Closing {
    fn fmt(&self, f: &mut fmt::Formatter<'_>) -> fmt::Result {
        write!(
            f,
            "the connection is closed with code {:#04x} for a frame of type {:#04x} at byte {}",
            self.code, self.frame_type, self.place
        )
    }
}

impl Error for Closing {}

impl Closing {
    pub(crate) fn of(closing: calls::Closing) -> Closing {
        Closing {
            code: closing.code,
            frame_type: closing.frame_type,
            place: closing.place,
        }
    }
}

impl NotedClose {
    /// The close of a side: its kind, and its error code.
    #[must_use]
    pub const fn new(by: Closer, kind: CloseKind, code: u64) -> NotedClose {
        NotedClose { by, kind, code }
    }

    pub(crate) fn of(close: calls::NotedClose) -> NotedClose {
        NotedClose {
            by: match close.by {
                calls::Closer::Us => Closer::Us,
                calls::Closer::Peer => Closer::Peer,
            },
            kind: match close.kind {
                calls::CloseKind::Transport => CloseKind::Transport,
                calls::CloseKind::Application => CloseKind::Application,
            },
            code: close.code,
        }
    }

    pub(crate) fn inner(self) -> calls::NotedClose {
        calls::NotedClose {
            by: match self.by {
                Closer::Us => calls::Closer::Us,
                Closer::Peer => calls::Closer::Peer,
            },
            kind: match self.kind {
                CloseKind::Transport => calls::CloseKind::Transport,
                CloseKind::Application => calls::CloseKind::Application,
            },
            code: self.code,
        }
    }
}

impl Received {
    pub(crate) fn of(received: calls::Received) -> Received {
        match received {
            calls::Received::Done => Received::Done,
            calls::Received::Duplicate => Received::Duplicate,
            calls::Received::BelowFloor => Received::BelowFloor,
            calls::Received::PeerClosed(code) => Received::PeerClosed(code),
            calls::Received::NoMemory => Received::NoMemory,
        }
    }
}

impl Consumed {
    pub(crate) fn of(consumed: calls::Consumed) -> Consumed {
        Consumed {
            read: Read::of(consumed.read),
            at_end: consumed.at_end,
        }
    }
}

impl Read {
    pub(crate) fn of(read: recv::Read) -> Read {
        match read {
            recv::Read::Bytes(count) => Read::Bytes(count),
            recv::Read::End => Read::End,
            recv::Read::Reset(code) => Read::Reset(code),
            recv::Read::Wait => Read::Wait,
        }
    }
}

impl<'a> Peek<'a> {
    pub(crate) fn of(peek: recv::Peek<'a>) -> Peek<'a> {
        match peek {
            recv::Peek::Bytes(front, back) => Peek::Bytes(front, back),
            recv::Peek::End => Peek::End,
            recv::Peek::Reset(code) => Peek::Reset(code),
            recv::Peek::Wait => Peek::Wait,
        }
    }
}

impl Made {
    pub(crate) fn of(made: calls::Made) -> Made {
        Made {
            number: made.number,
            len: made.len,
            is_ack_eliciting: made.is_ack_eliciting,
        }
    }
}

impl Held {
    pub(crate) fn of(held: conn::Held) -> Held {
        Held {
            receiving: held.receiving,
            sending: held.sending,
        }
    }
}

impl StreamReport {
    pub(crate) fn of(report: calls::LaneReport) -> StreamReport {
        StreamReport {
            send: report.send.map(SendReport::of),
            recv: report.recv.map(RecvReport::of),
        }
    }
}

impl SendReport {
    fn of(report: calls::SendReport) -> SendReport {
        SendReport {
            state: SendState::of(report.state),
            written: report.written,
            final_size: report.final_size,
            reset_code: report.reset_code,
            limit: report.limit,
        }
    }
}

impl RecvReport {
    fn of(report: calls::RecvReport) -> RecvReport {
        RecvReport {
            state: RecvState::of(report.state),
            read_count: report.read_count,
            highest: report.highest,
            limit: report.limit,
            final_size: report.final_size,
            reset_code: report.reset_code,
            stop_code: report.stop_code,
        }
    }
}

impl SendState {
    fn of(state: send::SendState) -> SendState {
        match state {
            send::SendState::Ready => SendState::Ready,
            send::SendState::Send => SendState::Send,
            send::SendState::DataSent => SendState::DataSent,
            send::SendState::DataRecvd => SendState::DataRecvd,
            send::SendState::ResetSent => SendState::ResetSent,
            send::SendState::ResetRecvd => SendState::ResetRecvd,
        }
    }
}

impl RecvState {
    fn of(state: recv::RecvState) -> RecvState {
        match state {
            recv::RecvState::Recv => RecvState::Recv,
            recv::RecvState::SizeKnown => RecvState::SizeKnown,
            recv::RecvState::DataRecvd => RecvState::DataRecvd,
            recv::RecvState::DataRead => RecvState::DataRead,
            recv::RecvState::ResetRecvd => RecvState::ResetRecvd,
            recv::RecvState::ResetRead => RecvState::ResetRead,
        }
    }
}
