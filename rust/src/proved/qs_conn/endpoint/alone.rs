// Made from crates/qs_conn/src/endpoint/alone.rt by rust/erase; not edited by hand.
//! Frames without their packet, for a stack with packet numbers and ACKs of its own.

use super::receiving::noted_of_us;
use super::{Endpoint, is_uni};
use crate::proved::qs_conn::newly_told::Silent;
use crate::proved::qs_conn::seen::{SeenFrame, has_text, is_ours, seen, type_number};
use crate::proved::qs_calls::{Closed, Closer, Closing, NotedClose, TakeFault, Taken};
use crate::proved::qs_recv::RecvState;
use crate::proved::qs_send::Item;
use crate::proved::qs_streams::Place;
use crate::proved::qs_wire::{Frame, StreamId};

// A payload can't hold such values, so the reader has no word for it (RFC 9000, section 20.1).
const FRAME_ENCODING_ERROR: u64 = 0x07;

impl Endpoint {
    /// Processes one frame without its packet, for a stack that has packet numbers and ACKs of its own (RFC 9000, section 13.1). Frames of
    /// streams and flow control take effect as in a payload, and then limits move. The stack acknowledges their packet only after each of
    /// them was taken.
    ///
    /// Returns `Took` if that changed something, and `Unchanged` if not: its content came before, or raises nothing. A stack counts these
    /// against a peer that only makes work. `NotOurs` is for a frame of any other kind, which changes nothing: an ACK (report its packets
    /// by `acked`), a CONNECTION_CLOSE, PADDING and the like.
    ///
    /// Refused: `Closing` if the frame breaks a rule (sections 4, 19 and 20.1), or has values that no text has, FRAME_ENCODING_ERROR; the
    /// endpoint is closed from now on. It names the type of the frame's canonical text and place 0, since there is no payload to point
    /// into. `NoMemory`: nothing changed, and the frame may come again. A closed endpoint returns its close again: `Closing`, or
    /// `PeerClosed` with the peer's code.
    ///
    /// ```text
    /// match end.take_frame(&frame)? { Taken::Took => {} Taken::Unchanged => idle += 1, Taken::NotOurs => stack.take(&frame)? }
    /// ```
    #[inline]
    pub fn take_frame(&mut self, frame: &Frame<'_>) -> Result<Taken, TakeFault> {
        if let Some(fault) = self.closed_fault() {
            return Err(fault);
        }
        if !is_ours(frame) {
            return Ok(Taken::NotOurs);
        }
        let taken = self.take_one(frame);
        self.settle();
        taken
    }

    /// Processes a STREAM frame without its packet, as `take_frame` does, for a caller that knows its kind: most frames are of it, and its
    /// own call has one path less.
    ///
    /// ```text
    /// end.take_stream_frame(stream, offset, bytes, fin)?;
    /// ```
    #[inline]
    pub fn take_stream_frame(
        &mut self,
        stream: StreamId,
        offset: u64,
        bytes: &[u8],
        fin: bool,
    ) -> Result<Taken, TakeFault> {
        self.take_frame(&Frame::Stream {
            stream,
            offset,
            fin,
            bytes,
        })
    }

    /// Processes the frames of one packet, each as `take_frame` does, one after the other, but limits move once, as this call ends (RFC
    /// 9000, sections 4.1 and 12.4): so it is what `receive` does with them.
    ///
    /// Returns `Took` if one of them changed something, else `Unchanged` if one was taken, and `NotOurs` if all are of other kinds. Refused
    /// as `take_frame` is, by the first frame that it refuses: the frames before it took effect. After `NoMemory` the same frames may come
    /// again.
    ///
    /// ```text
    /// end.take_frames(&frames)?;
    /// ```
    #[inline]
    pub fn take_frames(&mut self, frames: &[Frame<'_>]) -> Result<Taken, TakeFault> {
        if let Some(fault) = self.closed_fault() {
            return Err(fault);
        }
        let taken = self.take_each(frames);
        self.settle();
        taken
    }

    fn take_each(&mut self, frames: &[Frame<'_>]) -> Result<Taken, TakeFault> {
        let mut taken = Taken::NotOurs;
        for frame in frames {
            if is_ours(frame) {
                taken = of_both(taken, self.take_one(frame)?);
            }
        }
        Ok(taken)
    }

    #[inline(always)]
    fn take_one(&mut self, frame: &Frame<'_>) -> Result<Taken, TakeFault> {
        if !has_text(frame) {
            return Err(TakeFault::Closing(self.close_alone(frame, FRAME_ENCODING_ERROR)));
        }
        let seen = seen(frame);
        let is_sure = match self.judge(&seen) {
            Ok(is_sure) => is_sure,
            Err(code) => return Err(TakeFault::Closing(self.close_alone(frame, code))),
        };
        if !self.changes(is_sure, &seen) {
            return Ok(Taken::Unchanged);
        }
        if let Err(_refused) = self.on_frame(&seen, &mut Silent) {
            return Err(TakeFault::NoMemory);
        }
        Ok(Taken::Took)
    }

    // Asked before the frame takes effect, since afterwards it would be old. Of a STREAM frame the judging mostly knew, so no half is
    // looked at again.
    #[inline(always)]
    fn changes(&self, is_sure: bool, seen: &SeenFrame<'_>) -> bool {
        if is_sure {
            return true;
        }
        self.would_change(seen)
    }

    #[inline(never)]
    fn would_change(&self, seen: &SeenFrame<'_>) -> bool {
        match *seen {
            SeenFrame::Stream {
                stream,
                offset,
                bytes,
                fin,
            } => {
                if self.is_yet_to_open(stream.id) {
                    return true;
                }
                let len = bytes.len() as u64;
                match self.core.recvs.half(stream) {
                    Some(half) => half.stream_changes(offset, len, fin),
                    None => false,
                }
            }
            SeenFrame::Control(item) => self.item_changes(item),
            SeenFrame::Ack { .. } | SeenFrame::Close(_) | SeenFrame::Plain { .. } => false,
        }
    }

    fn item_changes(&self, item: Item) -> bool {
        match item {
            Item::MaxData { maximum } => self.core.limits.known_data < maximum,
            Item::MaxStreams { dir, count } => self.core.limits.known_streams.of(dir) < count,
            Item::MaxStreamData { stream, maximum } => {
                self.is_yet_to_open(stream)
                    || matches!(self.core.outbox.half(stream), Some(half) if half.limit() < maximum)
            }
            Item::ResetStream { stream, .. } => {
                self.is_yet_to_open(stream)
                    || match self.core.recvs.half(Place::of(stream)) {
                        Some(half) => matches!(
                            half.state(),
                            RecvState::Recv | RecvState::SizeKnown
                        ),
                        None => false,
                    }
            }
            Item::StopSending { stream, .. } => {
                self.is_yet_to_open(stream)
                    || match self.core.outbox.half(stream) {
                        Some(half) if self.core.limits.tuning.answers_stops => half.asked_changes(),
                        Some(half) => half.stop_changes(),
                        None => false,
                    }
            }
            Item::StreamDataBlocked { stream, .. } => self.is_yet_to_open(stream),
            Item::DataBlocked { .. } | Item::StreamsBlocked { .. } => false,
        }
    }

    /// A frame that opens it changes the endpoint, whatever else it does.
    #[inline]
    pub(super) fn is_yet_to_open(&self, stream: StreamId) -> bool {
        if self.is_own(stream) {
            return false;
        }
        if !self.core.recvs.is_open(stream) {
            return true;
        }
        !is_uni(stream) && !self.core.outbox.is_open(stream)
    }

    fn close_alone(&mut self, frame: &Frame<'_>, code: u64) -> Closing {
        debug_assert!(code < 1 << 62);
        let closing = Closing {
            code,
            frame_type: type_number(frame),
            place: 0,
        };
        self.closed = Some(Closed::ByUs(closing));
        closing
    }

    fn closed_fault(&self) -> Option<TakeFault> {
        match self.closed {
            Some(Closed::ByUs(closing)) => Some(TakeFault::Closing(closing)),
            Some(Closed::ByPeer(code)) => Some(TakeFault::PeerClosed(code)),
            Some(Closed::Noted(close)) => Some(noted_fault(close)),
            None => None,
        }
    }
}

// In the words that the call has, so that a stack needs no other way for it.
fn noted_fault(close: NotedClose) -> TakeFault {
    match close.by {
        Closer::Us => TakeFault::Closing(noted_of_us(close.code)),
        Closer::Peer => TakeFault::PeerClosed(close.code),
    }
}

fn of_both(one: Taken, later: Taken) -> Taken {
    match (one, later) {
        (Taken::Took, _) => Taken::Took,
        (Taken::Unchanged, Taken::NotOurs) => Taken::Unchanged,
        (Taken::Unchanged, later) => later,
        (Taken::NotOurs, later) => later,
    }
}
