// Made from crates/qs_conn/src/endpoint/frames.rt by rust/erase; not edited by hand.
//! How frames are judged. Nothing changes here, so a frame that offends leaves everything as it was.

use super::{Endpoint, is_uni, role_bit};
use crate::proved::qs_conn::recv_lanes::Half;
use crate::proved::qs_conn::seen::SeenFrame;
use crate::proved::qs_recv::{Highest, RecvFault};
use crate::proved::qs_send::Item;
use crate::proved::qs_streams::Place;
use crate::proved::qs_wire::StreamId;

const FLOW_CONTROL_ERROR: u64 = 0x03;

const STREAM_LIMIT_ERROR: u64 = 0x04;

const STREAM_STATE_ERROR: u64 = 0x05;

const FINAL_SIZE_ERROR: u64 = 0x06;

const PROTOCOL_VIOLATION: u64 = 0x0a;

impl Endpoint {
    #[inline(always)]
    pub(super) fn verdict(&self, seen: &SeenFrame<'_>) -> Option<u64> {
        match *seen {
            SeenFrame::Ack { largest, .. } => self.ack_fault(largest),
            SeenFrame::Stream {
                stream,
                offset,
                bytes,
                fin,
            } => self.stream_fault(stream, offset, bytes, fin),
            SeenFrame::Control(
                Item::ResetStream {
                    stream,
                    final_size,
                    ..
                },
            ) => self.reset_fault(stream, final_size),
            SeenFrame::Control(Item::StreamDataBlocked { stream, .. }) => {
                self.state_fault_in(Place::of(stream))
            }
            SeenFrame::Control(Item::StopSending { stream, .. }) => self.state_fault_out(stream),
            SeenFrame::Control(Item::MaxStreamData { stream, .. }) => self.state_fault_out(stream),
            SeenFrame::Control(_) | SeenFrame::Close(_) | SeenFrame::Plain { .. } => None,
        }
    }

    // A number that was never used shows a peer that guesses (RFC 9000, section 13.1).
    fn ack_fault(&self, largest: u64) -> Option<u64> {
        if largest >= self.core.outbox.next() {
            Some(PROTOCOL_VIOLATION)
        } else {
            None
        }
    }

    // With it comes whether a frame is sure to change this endpoint, which is known on the way: `take_frame` needs no second look.
    #[inline(always)]
    pub(super) fn judge(&self, seen: &SeenFrame<'_>) -> Result<bool, u64> {
        if let SeenFrame::Stream {
            stream,
            offset,
            bytes,
            fin,
        } = *seen
        {
            return self.judge_stream(stream, offset, bytes, fin);
        }
        match self.verdict(seen) {
            Some(code) => Err(code),
            None => Ok(false),
        }
    }

    #[inline(always)]
    fn stream_fault(&self, stream: Place, offset: u64, bytes: &[u8], fin: bool) -> Option<u64> {
        match self.judge_stream(stream, offset, bytes, fin) {
            Ok(_sure) => None,
            Err(code) => Some(code),
        }
    }

    // The bytes come last, after both limits, and only those that are still stored are compared (RFC 9000, section 2.2). A frame that
    // raises the highest offset changes this endpoint.
    #[inline(always)]
    fn judge_stream(&self, stream: Place, offset: u64, bytes: &[u8], fin: bool) -> Result<bool, u64> {
        if let Some(code) = self.state_fault_in(stream) {
            return Err(code);
        }
        let Some(half) = self.core.recvs.half(stream) else {
            return self.judge_first(stream, offset, bytes, fin);
        };
        let judged = half.judge(offset, bytes, fin);
        if let Some(code) = self.credit_fault(judged.stream) {
            return Err(code);
        }
        match judged.bytes {
            Ok(()) => Ok(is_rise(judged.stream)),
            Err(fault) => Err(code_of(fault)),
        }
    }

    // Judged as by a half that received nothing, before one is made: a frame that offends opens nothing.
    fn judge_first(&self, stream: Place, offset: u64, bytes: &[u8], fin: bool) -> Result<bool, u64> {
        let window = self.window(stream.id);
        let judged = Half::judge_first(self.alloc, window, offset, bytes, fin);
        if let Some(code) = self.credit_fault(judged.stream) {
            return Err(code);
        }
        match judged.bytes {
            Ok(()) => Ok(true),
            Err(fault) => Err(code_of(fault)),
        }
    }

    fn reset_fault(&self, stream: StreamId, size: u64) -> Option<u64> {
        debug_assert!(size <= 0x3fff_ffff_ffff_ffff);
        if let Some(code) = self.state_fault_in(Place::of(stream)) {
            return Some(code);
        }
        let Some(half) = self.core.recvs.half(Place::of(stream)) else {
            let window = self.window(stream);
            return self.credit_fault(Half::check_first_reset(self.alloc, window, size));
        };
        self.credit_fault(half.check_reset(size))
    }

    fn state_fault_in(&self, stream: Place) -> Option<u64> {
        if stream.stream_type % 2 == role_bit(self.core.limits.role) {
            return match self.core.recvs.half(stream) {
                Some(_open) => None,
                None => Some(STREAM_STATE_ERROR),
            };
        }
        let streams = &self.core.limits.granted_streams;
        let granted = if stream.stream_type >= 2 {
            streams.uni
        } else {
            streams.bidi
        };
        if granted <= stream.index as u64 {
            Some(STREAM_LIMIT_ERROR)
        } else {
            None
        }
    }

    fn state_fault_out(&self, stream: StreamId) -> Option<u64> {
        if self.is_own(stream) {
            if self.core.outbox.is_open(stream) {
                None
            } else {
                Some(STREAM_STATE_ERROR)
            }
        } else if is_uni(stream) {
            Some(STREAM_STATE_ERROR)
        } else if self.grant(stream) <= stream.index() {
            Some(STREAM_LIMIT_ERROR)
        } else {
            None
        }
    }

    // The half's check first: the stream's fault is the closer one.
    fn credit_fault(&self, check: Result<Highest, RecvFault>) -> Option<u64> {
        match check {
            Err(fault) => Some(code_of(fault)),
            Ok(highest) => {
                let growth = highest.after.saturating_sub(highest.before);
                if self.core.limits.granted < self.core.recvs.tally().spent + growth {
                    Some(FLOW_CONTROL_ERROR)
                } else {
                    None
                }
            }
        }
    }

    fn grant(&self, stream: StreamId) -> u64 {
        if is_uni(stream) {
            self.core.limits.granted_streams.uni
        } else {
            self.core.limits.granted_streams.bidi
        }
    }
}

fn is_rise(check: Result<Highest, RecvFault>) -> bool {
    match check {
        Ok(highest) => highest.before < highest.after,
        Err(_fault) => false,
    }
}

fn code_of(fault: RecvFault) -> u64 {
    match fault {
        RecvFault::FinalSize => FINAL_SIZE_ERROR,
        RecvFault::StreamCredit => FLOW_CONTROL_ERROR,
        RecvFault::NoMemory => 0,
        RecvFault::ChangedByte => PROTOCOL_VIOLATION,
    }
}
