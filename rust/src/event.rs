//! What happened at an endpoint.

use crate::ids::{Dir, StreamId};
use crate::proved::qs_conn as conn;
use core::fmt;

/// What [`Endpoint::next_event`](crate::Endpoint::next_event) returns.
#[derive(Clone, Copy, Debug, PartialEq, Eq, Hash)]
#[non_exhaustive]
pub enum Event {
    /// The peer opened the stream, by a frame on it or on a higher one of its type (RFC 9000, section 2.1). It comes before all other
    /// events of the stream. [`Endpoint::accept`](crate::Endpoint::accept) still returns the stream for whoever asks, since neither needs
    /// the other.
    Opened(StreamId),
    /// A read of one byte returns something new: bytes, the end or a reset (section 2.2). Read until nothing is left, or stop the stream:
    /// only then it comes again when more arrives. If something is left it doesn't come again, not even for the end behind it: one event
    /// stands for both.
    Readable(StreamId),
    /// A write was cut short, and now one of one byte is accepted, if there is memory for it (sections 2.2, 2.4 and 4.1). Once for all
    /// writes that were cut short before it.
    Writable(StreamId),
    /// The peer asked for no more of the stream, with this code: that of its first STOP_SENDING (section 3.5). Only if the sending half
    /// could still be reset; otherwise there is nothing to stop. The stream was reset by it, or goes on if
    /// [`answers_stops`](crate::Tuning::answers_stops) was chosen.
    Stopped(StreamId, u64),
    /// Everything written was acknowledged, and the FIN: Data Recvd (section 3.1).
    Finished(StreamId),
    /// The reset was acknowledged, the application's or that of a STOP_SENDING: Reset Recvd (section 3.1).
    ResetAcked(StreamId),
    /// The stream is over: each half that it has here is. What was sent was acknowledged, or the reset, and its end or reset was read
    /// (section 3). Nothing more comes of it.
    Ended(StreamId),
    /// An [`open`](crate::Endpoint::open) was `Blocked`, and now a stream of that direction may be opened (section 4.6), after a frame of
    /// the peer's or [`raise_limits`](crate::Endpoint::raise_limits).
    Available(Dir),
    /// The peer said that the connection's limit blocks it: [`granted`](crate::Endpoint::granted), as it was then (sections 4.1 and 19.12).
    /// A greater window ([`set_conn_window`](crate::Endpoint::set_conn_window)) would help.
    ///
    /// This event and the next two come from [`take_frame`](crate::Endpoint::take_frame) and [`take_frames`](crate::Endpoint::take_frames)
    /// once an event was asked for. From [`receive`](crate::Endpoint::receive) they come only if
    /// [`report_blocked`](crate::Endpoint::report_blocked) was chosen, since that reads payloads twice. A frame is compared with the limits
    /// after its whole packet. Of a repeated packet `receive` reports once; for single frames a repeat reports again, since nothing is kept
    /// of packets.
    DataBlocked,
    /// The peer said that the stream's limit blocks it (sections 4.1 and 19.13): see
    /// [`set_stream_window`](crate::Endpoint::set_stream_window). What counts is the moment at which the frame took effect: the limit stood
    /// there, and the stream's length wasn't known. The event comes though the limit rose since, or the length became known, after which
    /// no limit moves. A stream that was stopped has it, too.
    ///
    /// ```
    /// use gotsavena::{Endpoint, Event, Frame, Role, Settings, StreamId, Taken};
    ///
    /// let settings = Settings::default().stream_windows(1000);
    /// let mut server = Endpoint::new(Role::Server, settings, settings.limits())?;
    /// assert_eq!(server.next_event()?, None);
    /// let stream = StreamId::new(0).expect("below 2^62");
    /// let blocked = Frame::StreamDataBlocked { stream, limit: 1000 };
    /// assert_eq!(server.take_frame(&blocked)?, Taken::Took);
    /// // Later the stream ends.
    /// let ends = Frame::Stream { stream, offset: 1000, fin: true, bytes: &[] };
    /// assert_eq!(server.take_frame(&ends)?, Taken::Took);
    /// assert_eq!(server.next_event()?, Some(Event::Opened(stream)));
    /// assert_eq!(server.next_event()?, Some(Event::StreamDataBlocked(stream)));
    /// // From now on the frame says nothing new.
    /// assert_eq!(server.take_frame(&blocked)?, Taken::Unchanged);
    /// assert_eq!(server.next_event()?, None);
    /// # Ok::<(), Box<dyn std::error::Error>>(())
    /// ```
    StreamDataBlocked(StreamId),
    /// The peer said that the count of that direction blocks it (sections 4.6 and 19.14): see [`set_grant`](crate::Endpoint::set_grant).
    StreamsBlocked(Dir),
}

impl Event {
    pub(crate) fn of(news: conn::News) -> Event {
        match news {
            conn::News::Opened(stream) => Event::Opened(StreamId::of(stream)),
            conn::News::Readable(stream) => Event::Readable(StreamId::of(stream)),
            conn::News::Writable(stream) => Event::Writable(StreamId::of(stream)),
            conn::News::Stopped(stream, code) => Event::Stopped(StreamId::of(stream), code),
            conn::News::Finished(stream) => Event::Finished(StreamId::of(stream)),
            conn::News::ResetAcked(stream) => Event::ResetAcked(StreamId::of(stream)),
            conn::News::Ended(stream) => Event::Ended(StreamId::of(stream)),
            conn::News::Available(dir) => Event::Available(Dir::of(dir)),
            conn::News::DataBlocked => Event::DataBlocked,
            conn::News::StreamDataBlocked(stream) => Event::StreamDataBlocked(StreamId::of(stream)),
            conn::News::StreamsBlocked(dir) => Event::StreamsBlocked(Dir::of(dir)),
        }
    }
}

impl fmt::Display for Event {
    fn fmt(&self, f: &mut fmt::Formatter<'_>) -> fmt::Result {
        match *self {
            Event::Opened(stream) => write!(f, "the peer opened stream {stream}"),
            Event::Readable(stream) => write!(f, "stream {stream} is readable"),
            Event::Writable(stream) => write!(f, "stream {stream} is writable"),
            Event::Stopped(stream, code) => {
                write!(f, "the peer stopped stream {stream} with code {code:#04x}")
            }
            Event::Finished(stream) => write!(f, "all of stream {stream} is acknowledged"),
            Event::ResetAcked(stream) => write!(f, "the reset of stream {stream} is acknowledged"),
            Event::Ended(stream) => write!(f, "stream {stream} ended"),
            Event::Available(dir) => write!(f, "a {dir} stream may be opened"),
            Event::DataBlocked => f.write_str("the connection's limit blocks the peer"),
            Event::StreamDataBlocked(stream) => {
                write!(f, "the limit of stream {stream} blocks the peer")
            }
            Event::StreamsBlocked(dir) => write!(f, "the limit on {dir} streams blocks the peer"),
        }
    }
}
