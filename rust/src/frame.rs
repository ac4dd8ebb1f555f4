//! The frames of a payload, read and written (RFC 9000, sections 16 and 19).

use crate::faults::PutFault;
use crate::ids::{Dir, StreamId};
use crate::proved::qs_wire as wire;
use core::error::Error;
use core::fmt;
use core::iter::FusedIterator;

mod between;

/// A frame, in the order and with the fields of RFC 9000, sections 19.1 to 19.20. Two types of one layout are one frame: MAX_STREAMS of
/// either direction, say. Its bytes are lent by the payload, so reading copies nothing.
#[derive(Clone, Copy, Debug, PartialEq, Eq)]
#[non_exhaustive]
pub enum Frame<'a> {
    /// Section 19.1. Each byte is a frame of its own, so a padded payload has many.
    Padding,
    /// Section 19.2: it asks for an ACK.
    Ping,
    /// Section 19.3, of both types: that with ECN counts and that without.
    Ack {
        /// The largest packet number that it names.
        largest: u64,
        /// The delay as in the payload: in microseconds divided by two to the power of `ack_delay_exponent` (section 18.2), which only the
        /// transport knows.
        delay: u64,
        /// The length of the first range, and then of each next one the gap before it and its length, as the payload spells them: an ACK
        /// may have many. [`AckRanges`] reads them.
        ranges: &'a [u8],
        /// The counts of congestion marks, if the frame has them.
        ecn: Option<EcnCounts>,
    },
    /// Section 19.4: the sender aborts the stream.
    ResetStream {
        /// The stream that is reset.
        stream: StreamId,
        /// The application's error code.
        code: u64,
        /// How many bytes the stream has for flow control, sent or not.
        final_size: u64,
    },
    /// Section 19.5: the receiver wants no more of the stream.
    StopSending {
        /// The stream that is to stop.
        stream: StreamId,
        /// The application's error code.
        code: u64,
    },
    /// Section 19.6: bytes of the handshake.
    Crypto {
        /// Where the bytes stand in the handshake's own stream, from 0.
        offset: u64,
        /// The bytes.
        bytes: &'a [u8],
    },
    /// Section 19.7: a token for a later connection to this server.
    NewToken {
        /// The token, which means something to the server alone.
        bytes: &'a [u8],
    },
    /// Section 19.8, of all eight types.
    Stream {
        /// The stream whose bytes these are.
        stream: StreamId,
        /// Where the bytes stand in the stream, from 0.
        offset: u64,
        /// Whether the stream ends with these bytes.
        fin: bool,
        /// The bytes.
        bytes: &'a [u8],
    },
    /// Section 19.9: the connection's limit.
    MaxData {
        /// How many bytes the receiver of this frame may send on all streams together.
        maximum: u64,
    },
    /// Section 19.10: a stream's limit.
    MaxStreamData {
        /// The stream that it limits.
        stream: StreamId,
        /// How many bytes the receiver of this frame may send on it.
        maximum: u64,
    },
    /// Section 19.11: the count of streams of a direction.
    MaxStreams {
        /// The direction of the streams that it counts.
        dir: Dir,
        /// How many of them the receiver of this frame may open, at most 2^60.
        count: u64,
    },
    /// Section 19.12: the connection's limit blocks the sender of this frame.
    DataBlocked {
        /// The limit that blocks the sender.
        limit: u64,
    },
    /// Section 19.13: a stream's limit blocks the sender of this frame.
    StreamDataBlocked {
        /// The stream that it limits.
        stream: StreamId,
        /// The limit that blocks the sender.
        limit: u64,
    },
    /// Section 19.14: the count of streams blocks the sender of this frame.
    StreamsBlocked {
        /// The direction of the streams that it counts.
        dir: Dir,
        /// The count that blocks the sender, at most 2^60.
        count: u64,
    },
    /// Section 19.15: a connection ID that its receiver may send to.
    NewConnectionId {
        /// The number of this connection ID.
        sequence: u64,
        /// Connection IDs of lower numbers are to be retired.
        retire: u64,
        /// The connection ID: 1 to 20 bytes.
        identifier: &'a [u8],
        /// Its stateless reset token (section 10.3): 16 bytes.
        reset_token: &'a [u8],
    },
    /// Section 19.16: a connection ID that its sender no longer sends to.
    RetireConnectionId {
        /// The number of the connection ID.
        sequence: u64,
    },
    /// Section 19.17.
    PathChallenge {
        /// What the answer repeats: 8 bytes.
        bytes: &'a [u8],
    },
    /// Section 19.18.
    PathResponse {
        /// What was asked with: 8 bytes.
        bytes: &'a [u8],
    },
    /// Section 19.19, type 0x1c: the transport closes.
    ConnectionClose {
        /// The transport's error code (section 20.1).
        code: u64,
        /// The type of the frame that offended, 0 if none did.
        frame_type: u64,
        /// Why, in UTF-8, for a log.
        reason: &'a [u8],
    },
    /// Section 19.19, type 0x1d: the application closes. Its codes are numbered apart.
    ApplicationClose {
        /// The application's error code.
        code: u64,
        /// Why, in UTF-8, for a log.
        reason: &'a [u8],
    },
    /// Section 19.20: the server confirms the handshake.
    HandshakeDone,
}

/// How many packets came with each mark of congestion (RFC 9000, section 19.3.2): for the transport's congestion control.
#[derive(Clone, Copy, Debug, PartialEq, Eq)]
pub struct EcnCounts {
    /// How many came marked ECT(0).
    pub ect0: u64,
    /// How many came marked ECT(1).
    pub ect1: u64,
    /// How many came marked ECN-CE: a router was congested.
    pub ce: u64,
}

/// A frame and its place in a payload.
#[derive(Clone, Copy, Debug, PartialEq, Eq)]
#[non_exhaustive]
pub struct Placed<'a> {
    /// Where its first byte stands, counted in bytes from 0.
    pub place: usize,
    /// The frame.
    pub frame: Frame<'a>,
    /// The number of its type as it was read. A STREAM has eight, which `frame` doesn't tell apart, and a close names the one read.
    pub frame_type: u64,
}

/// What is wrong with a payload, or with a frame in it.
#[derive(Clone, Copy, Debug, PartialEq, Eq)]
#[non_exhaustive]
pub enum FaultKind {
    /// The payload has no frame (RFC 9000, section 12.4).
    Empty,
    /// A frame type isn't in its shortest spelling, which is required so that frames are told apart by their first byte (section 12.4).
    LongType,
    /// No frame has this type (section 12.4). It has no length either, so what follows can't be read.
    UnknownType,
    /// A field, or the bytes that it counts, end past the payload.
    Truncated,
    /// An offset plus a length is above 2^62-1 (sections 19.6 and 19.8).
    OffsetTooLarge,
    /// A count of streams is above 2^60 (sections 19.11 and 19.14).
    CountTooLarge,
    /// An ACK names a number below zero (section 19.3.1).
    BelowZero,
    /// A connection ID has no byte or more than 20 (section 19.15).
    IdentifierLength,
}

/// The first fault of a payload. It stands in place of a frame, and nothing behind it is read.
#[derive(Clone, Copy, Debug, PartialEq, Eq)]
#[non_exhaustive]
pub struct WireFault {
    /// What is wrong.
    pub kind: FaultKind,
    /// Where the frame's first byte stands, counted in bytes from 0.
    pub place: usize,
    /// The code to close the connection with (RFC 9000, section 20.1).
    pub code: u64,
    /// The frame's type, 0 if none was read.
    pub frame_type: u64,
}

/// The frames of a payload, one after the other, from [`frames`].
#[derive(Debug)]
pub struct Frames<'a> {
    payload: &'a [u8],
    // Where the reader of `rest` began: its places are counted from there, and a clone begins anew.
    base: usize,
    // Where the last returned frame stands, since the proved reader can't be cloned but at a place.
    last: Option<usize>,
    rest: wire::Frames<'a>,
    faulty: bool,
}

impl<'a> Frames<'a> {
    fn from(payload: &'a [u8], base: usize) -> Frames<'a> {
        Frames {
            payload,
            base,
            last: None,
            rest: wire::Frames::new(&payload[base..]),
            faulty: false,
        }
    }
}

impl Clone for Frames<'_> {
    // Reads the last returned frame once more, to stand behind it as the original does.
    fn clone(&self) -> Self {
        let mut clone = Frames::from(self.payload, self.last.unwrap_or(self.base));
        if self.last.is_some() {
            clone.next();
        }
        clone.faulty = self.faulty;
        clone
    }
}

/// The frames of a payload in order, each with its place, up to the first fault, which comes last (RFC 9000, sections 12.4 and 19).
///
/// Frames of extensions aren't known, and no reader can skip a frame whose length it doesn't know. A transport that has some overwrites
/// them with PADDING, which does nothing, or with PING if they ask for an ACK.
///
/// ```
/// use gotsavena::{Frame, StreamId, frames};
///
/// let payload = [0x01, 0x0b, 0x00, 0x03, 0x61, 0x62, 0x63];
/// let mut found = frames(&payload);
/// assert_eq!(found.next().unwrap()?.frame, Frame::Ping);
/// let second = found.next().unwrap()?;
/// assert_eq!(second.place, 1);
/// let stream = StreamId::new(0).unwrap();
/// assert_eq!(second.frame, Frame::Stream { stream, offset: 0, fin: true, bytes: b"abc" });
/// assert!(found.next().is_none());
///
/// // A frame type that has a shorter spelling closes a connection.
/// let fault = frames(&[0x40, 0x01]).next().unwrap().unwrap_err();
/// assert_eq!(fault.code, 0x0a);
/// # Ok::<(), gotsavena::WireFault>(())
/// ```
#[must_use]
pub fn frames(payload: &[u8]) -> Frames<'_> {
    Frames::from(payload, 0)
}

/// The ranges of an ACK as lowest and highest packet number, the highest first (RFC 9000, section 19.3.1).
///
/// ```
/// use gotsavena::{AckRanges, Frame, frames};
///
/// let payload = [0x02, 0x09, 0x00, 0x01, 0x01, 0x02, 0x00];
/// let Frame::Ack { largest, ranges, .. } = frames(&payload).next().unwrap()?.frame else {
///     panic!("no ACK");
/// };
/// let ranges: Vec<_> = AckRanges::new(largest, ranges).unwrap().collect();
/// assert_eq!(ranges, [(8, 9), (4, 4)]);
/// # Ok::<(), gotsavena::WireFault>(())
/// ```
#[derive(Debug)]
pub struct AckRanges<'a> {
    largest: u64,
    ranges: &'a [u8],
    // A clone reads so many again: the proved reader can't be copied.
    given: usize,
    rest: wire::AckRanges<'a>,
}

impl Clone for AckRanges<'_> {
    fn clone(&self) -> Self {
        let mut rest = wire::AckRanges::new(self.largest, self.ranges);
        for _ in 0..self.given {
            rest.next();
        }
        AckRanges { rest, ..*self }
    }
}

impl<'a> AckRanges<'a> {
    /// The ranges below a frame's largest number; `None` if that is 2^62 or more. It never fails on bytes that no frame was read from: a
    /// range that falls below zero begins at 0.
    #[must_use]
    pub fn new(largest: u64, ranges: &'a [u8]) -> Option<AckRanges<'a>> {
        if largest > MAX_VARINT {
            return None;
        }
        Some(AckRanges {
            largest,
            ranges,
            given: 0,
            rest: wire::AckRanges::new(largest, ranges),
        })
    }
}

impl Iterator for AckRanges<'_> {
    type Item = (u64, u64);

    fn next(&mut self) -> Option<(u64, u64)> {
        let range = self.rest.next()?;
        self.given += 1;
        Some(range)
    }
}

impl FusedIterator for AckRanges<'_> {}

impl<'a> Iterator for Frames<'a> {
    type Item = Result<Placed<'a>, WireFault>;

    #[inline]
    fn next(&mut self) -> Option<Self::Item> {
        if self.faulty {
            return None;
        }
        match self.rest.next() {
            Ok(placed) => {
                let mut placed = Placed::of(placed?);
                placed.place += self.base;
                self.last = Some(placed.place);
                Some(Ok(placed))
            }
            Err(fault) => {
                self.faulty = true;
                let mut fault = WireFault::of(fault);
                fault.place += self.base;
                Some(Err(fault))
            }
        }
    }
}

impl FusedIterator for Frames<'_> {}

/// Writes the canonical text of a frame at the slice's front and returns its length in bytes. Each number is in its shortest spelling; a
/// STREAM has its length always, so that another frame may follow, and its offset if that isn't 0 (RFC 9000, sections 16 and 19). If the
/// frame can't be spelled or doesn't fit, nothing is written.
///
/// ```
/// use gotsavena::{Frame, PutFault, put};
///
/// let mut out = [0; 8];
/// assert_eq!(put(&Frame::MaxData { maximum: 4096 }, &mut out), Ok(3));
/// assert_eq!(out[..3], [0x10, 0x50, 0x00]);
/// assert_eq!(put(&Frame::MaxData { maximum: 1 << 62 }, &mut out), Err(PutFault::Invalid));
/// assert_eq!(put(&Frame::Crypto { offset: 0, bytes: b"too long" }, &mut out), Err(PutFault::Full));
/// ```
///
/// # Errors
///
/// `Invalid` if no payload can spell the frame, else `Full` if it doesn't fit.
pub fn put(frame: &Frame<'_>, out: &mut [u8]) -> Result<usize, PutFault> {
    if !frame.has_text() {
        return Err(PutFault::Invalid);
    }
    wire::put(&frame.inner(), out).map_err(|_full| PutFault::Full)
}

/// Writes an ACK without ECN counts at the slice's front, of as many ranges as fit, and returns how many and the length in bytes (RFC 9000,
/// section 19.3). The ranges are as [`AckRanges`] yields them: the lowest and the highest packet number of each, the highest range first, so
/// that those left out are the oldest. The delay is in microseconds divided by two to the power of the `ack_delay_exponent` that the peer
/// was given (section 18.2).
///
/// ```
/// use gotsavena::{AckRanges, Frame, PutFault, frames, put_ack};
///
/// let mut out = [0; 16];
/// assert_eq!(put_ack(&[(8, 9), (4, 4)], 25, &mut out), Ok((2, 7)));
/// // Its type, the largest, the delay, one more range; one packet below 9, a gap of 7 to 5, none below 4.
/// assert_eq!(out[..7], [0x02, 0x09, 0x19, 0x01, 0x01, 0x02, 0x00]);
/// let Frame::Ack { largest, delay, ranges, .. } = frames(&out[..7]).next().unwrap()?.frame else {
///     panic!("no ACK");
/// };
/// assert_eq!((largest, delay), (9, 25));
/// assert!(AckRanges::new(largest, ranges).unwrap().eq([(8, 9), (4, 4)]));
/// // Ranges that touch are one.
/// assert_eq!(put_ack(&[(8, 9), (4, 7)], 0, &mut out), Err(PutFault::Invalid));
/// # Ok::<(), gotsavena::WireFault>(())
/// ```
///
/// # Errors
///
/// `Invalid` if there are no ranges or more than 32, one ends below its beginning or above 2^62-1, two touch, since they would be one, or
/// the delay is 2^62 or more; else `Full` if not even the first fits. Then nothing is written.
pub fn put_ack(
    ranges: &[(u64, u64)],
    delay: u64,
    out: &mut [u8],
) -> Result<(usize, usize), PutFault> {
    let mut pairs = [(0, 0); MAX_RANGES];
    let Some(pairs) = pairs.get_mut(..ranges.len()) else {
        return Err(PutFault::Invalid);
    };
    // Half-open, as the proved writer has them: the first may end at MAX_VARINT + 1, and each leaves a gap below the one before.
    let mut above = MAX_VARINT + 2;
    for (pair, &(lowest, highest)) in pairs.iter_mut().zip(ranges) {
        if lowest > highest || highest.saturating_add(1) >= above {
            return Err(PutFault::Invalid);
        }
        *pair = (lowest, highest + 1);
        above = lowest;
    }
    if pairs.is_empty() || !fits(delay) {
        return Err(PutFault::Invalid);
    }
    wire::put_delayed_ack(pairs, delay, out).map_err(|_full| PutFault::Full)
}

/// The stream of the last STREAM frame in a payload, up to its end or its first fault; `None` if there is none. For round-robin, go on
/// behind it ([`Endpoint::make_packet_from`](crate::Endpoint::make_packet_from)).
#[must_use]
pub fn last_stream(payload: &[u8]) -> Option<StreamId> {
    wire::last_stream(payload).map(StreamId::of)
}

/// The number at the front of the bytes, and how many bytes it takes; `None` if the bytes end before it does (RFC 9000, section 16).
#[must_use]
pub fn read_varint(bytes: &[u8]) -> Option<(u64, usize)> {
    wire::read_varint(bytes)
}

/// Writes the shortest spelling of a number at the slice's front and returns its length in bytes (RFC 9000, section 16). `None` if the
/// number is 2^62 or more or doesn't fit; then nothing is written.
pub fn write_varint(value: u64, out: &mut [u8]) -> Option<usize> {
    wire::write_varint(value, out)
}

/// The greatest number that a frame can hold: two bits of eight bytes say the length (RFC 9000, section 16).
pub(crate) const MAX_VARINT: u64 = (1 << 62) - 1;

/// More would have stream numbers above 2^62-1 (RFC 9000, section 4.6).
const MAX_STREAMS: u64 = 1 << 60;

/// As many as an endpoint keeps.
const MAX_RANGES: usize = 32;

fn fits(value: u64) -> bool {
    value <= MAX_VARINT
}

fn run_fits(offset: u64, bytes: &[u8]) -> bool {
    match offset.checked_add(bytes.len() as u64) {
        Some(end) => fits(end),
        None => false,
    }
}

/// Checked before a frame is written, since its ranges come from the caller as bytes: the length of a range, then gaps and lengths in turn,
/// none below zero.
fn are_ranges(largest: u64, ranges: &[u8]) -> bool {
    let mut left = largest + 1;
    let mut rest = ranges;
    let mut odd = false;
    while let Some((value, len)) = wire::read_varint(rest) {
        if value >= left {
            return false;
        }
        left -= value + 1;
        rest = &rest[len..];
        odd = !odd;
    }
    odd && rest.is_empty()
}

fn has_ack_text(largest: u64, delay: u64, ranges: &[u8], ecn: Option<EcnCounts>) -> bool {
    let counts_fit = ecn.is_none_or(|counts| {
        [counts.ect0, counts.ect1, counts.ce]
            .iter()
            .all(|&n| fits(n))
    });
    fits(largest) && fits(delay) && are_ranges(largest, ranges) && counts_fit
}

fn are_id_fields(identifier: &[u8], reset_token: &[u8]) -> bool {
    (1..=20).contains(&identifier.len()) && reset_token.len() == 16
}

impl<'a> Frame<'a> {
    /// Whether some payload spells the frame: the condition of the proved writer, which the caller of `put` needn't know.
    fn has_text(&self) -> bool {
        match *self {
            Frame::Padding | Frame::Ping | Frame::HandshakeDone => true,
            Frame::Ack {
                largest,
                delay,
                ranges,
                ecn,
            } => has_ack_text(largest, delay, ranges, ecn),
            Frame::ResetStream {
                code, final_size, ..
            } => fits(code) && fits(final_size),
            Frame::StopSending { code, .. } => fits(code),
            Frame::Crypto { offset, bytes } | Frame::Stream { offset, bytes, .. } => {
                run_fits(offset, bytes)
            }
            Frame::NewToken { bytes } => run_fits(0, bytes),
            Frame::MaxData { maximum } | Frame::MaxStreamData { maximum, .. } => fits(maximum),
            Frame::MaxStreams { count, .. } | Frame::StreamsBlocked { count, .. } => {
                count <= MAX_STREAMS
            }
            Frame::DataBlocked { limit } | Frame::StreamDataBlocked { limit, .. } => fits(limit),
            Frame::NewConnectionId {
                sequence,
                retire,
                identifier,
                reset_token,
            } => fits(sequence) && fits(retire) && are_id_fields(identifier, reset_token),
            Frame::RetireConnectionId { sequence } => fits(sequence),
            Frame::PathChallenge { bytes } | Frame::PathResponse { bytes } => bytes.len() == 8,
            Frame::ConnectionClose {
                code,
                frame_type,
                reason,
            } => fits(code) && fits(frame_type) && run_fits(0, reason),
            Frame::ApplicationClose { code, reason } => fits(code) && run_fits(0, reason),
        }
    }
}

impl EcnCounts {
    fn of(counts: wire::EcnCounts) -> EcnCounts {
        EcnCounts {
            ect0: counts.ect0,
            ect1: counts.ect1,
            ce: counts.ce,
        }
    }

    fn inner(self) -> wire::EcnCounts {
        wire::EcnCounts {
            ect0: self.ect0,
            ect1: self.ect1,
            ce: self.ce,
        }
    }
}

impl<'a> Placed<'a> {
    #[inline]
    fn of(placed: wire::Placed<'a>) -> Placed<'a> {
        Placed {
            place: placed.place,
            frame: Frame::of(placed.frame),
            frame_type: placed.frame_type,
        }
    }
}

impl WireFault {
    fn of(fault: wire::WireFault) -> WireFault {
        WireFault {
            kind: FaultKind::of(fault.kind),
            place: fault.place,
            code: fault.code,
            frame_type: fault.frame_type,
        }
    }
}

impl FaultKind {
    fn of(kind: wire::FaultKind) -> FaultKind {
        match kind {
            wire::FaultKind::Empty => FaultKind::Empty,
            wire::FaultKind::LongType => FaultKind::LongType,
            wire::FaultKind::UnknownType => FaultKind::UnknownType,
            wire::FaultKind::Truncated => FaultKind::Truncated,
            wire::FaultKind::OffsetTooLarge => FaultKind::OffsetTooLarge,
            wire::FaultKind::CountTooLarge => FaultKind::CountTooLarge,
            wire::FaultKind::BelowZero => FaultKind::BelowZero,
            wire::FaultKind::IdentifierLength => FaultKind::IdentifierLength,
        }
    }
}

impl fmt::Display for FaultKind {
    fn fmt(&self, f: &mut fmt::Formatter<'_>) -> fmt::Result {
        f.write_str(match self {
            FaultKind::Empty => "the payload has no frame",
            FaultKind::LongType => "the frame type has a shorter spelling",
            FaultKind::UnknownType => "no frame has this type",
            FaultKind::Truncated => "the frame ends past the payload",
            FaultKind::OffsetTooLarge => "an offset lies above 2^62-1",
            FaultKind::CountTooLarge => "a count of streams lies above 2^60",
            FaultKind::BelowZero => "an ACK names a number below zero",
            FaultKind::IdentifierLength => "a connection identifier has no byte or more than 20",
        })
    }
}

impl fmt::Display for WireFault {
    fn fmt(&self, f: &mut fmt::Formatter<'_>) -> fmt::Result {
        write!(
            f,
            "{} (code {:#04x}, frame type {:#04x}, byte {})",
            self.kind, self.code, self.frame_type, self.place
        )
    }
}

impl Error for WireFault {}
