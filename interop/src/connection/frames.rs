//! The frames that the transport takes for itself. The stream layer has taken its own of a 1-RTT payload before.

use super::Connection;
use crate::fault::{FRAME_ENCODING_ERROR, Fault, Outcome, PROTOCOL_VIOLATION};
use crate::packet::{ConnectionId, Level};
use crate::recovery::{Control, News, Sent};
use gotsavena::{AckRanges, Frame, Role, WireFault, frames};
use std::time::{Duration, Instant};

/// A bound, since each is an answer that a peer asked for.
const MOST_CONTROLS: usize = 256;

fn wire_fault(fault: WireFault) -> Fault {
    Fault::new(fault.code, fault.frame_type, &fault.to_string())
}

impl Connection {
    pub(super) fn take_handshake_frames(
        &mut self,
        level: Level,
        payload: &[u8],
        now: Instant,
    ) -> Result<(), Fault> {
        for placed in frames(payload) {
            let placed = placed.map_err(wire_fault)?;
            match placed.frame {
                Frame::Padding => continue,
                Frame::Ping => {}
                Frame::Ack {
                    largest, ranges, ..
                } => {
                    self.take_handshake_ack(level, largest, ranges, now)?;
                    continue;
                }
                Frame::Crypto { offset, bytes } => self.take_crypto(level, offset, bytes)?,
                Frame::ConnectionClose { code, reason, .. } => {
                    self.peer_closed(false, code, reason, now);
                    return Ok(());
                }
                _ => {
                    let reason = "a frame that has no place in the handshake";
                    return Err(Fault::new(PROTOCOL_VIOLATION, placed.frame_type, reason));
                }
            }
            self.space(level).is_ack_due = true;
        }
        Ok(())
    }

    fn take_handshake_ack(
        &mut self,
        level: Level,
        largest: u64,
        ranges: &[u8],
        now: Instant,
    ) -> Result<(), Fault> {
        if largest >= self.space(level).next_number {
            let reason = "an ACK of a number that was not sent";
            return Err(Fault::new(PROTOCOL_VIOLATION, 0x02, reason));
        }
        self.known.is_handshake_acked |= level == Level::Handshake;
        self.take_ack(level, largest, ranges, Duration::ZERO, now);
        Ok(())
    }

    fn take_ack(
        &mut self,
        level: Level,
        largest: u64,
        ranges: &[u8],
        delay: Duration,
        now: Instant,
    ) {
        let ranges = AckRanges::new(largest, ranges).into_iter().flatten();
        let standing = self.standing();
        let News { lost, .. } = self.recovery.acked(level, ranges, delay, standing, now);
        self.tell_lost(level, &lost, now);
        self.lose(level, lost);
    }

    pub(super) fn tell_lost(&mut self, level: Level, lost: &[(u64, Sent)], now: Instant) {
        for (number, _) in lost {
            if let Some(trace) = &mut self.trace {
                trace.lost(level, *number, now);
            }
        }
    }

    pub(super) fn tell_metrics(&mut self, now: Instant) {
        if let Some(trace) = &mut self.trace {
            trace.metrics(&self.recovery.metrics(), now);
        }
    }

    /// What they carried goes again, by its kind (RFC 9000, section 13.3).
    pub(super) fn lose(&mut self, level: Level, lost: Vec<(u64, Sent)>) {
        for (number, sent) in lost {
            for range in sent.crypto {
                self.space(level).out.lose(range);
            }
            self.controls.extend(sent.controls);
            if let (Level::Data, Some(end)) = (level, &mut self.end) {
                // A packet that carried nothing of the stream layer isn't outstanding; one for which memory was refused is
                // declared lost again by the next probe.
                _ = end.declare_lost(number);
            }
        }
    }

    pub(super) fn take_data_frames(&mut self, payload: &[u8], now: Instant) -> Result<(), Fault> {
        for placed in frames(payload) {
            // The stream layer has read them all: there is no fault.
            let Ok(placed) = placed else {
                return Ok(());
            };
            self.take_data_frame(&placed.frame, placed.frame_type, now)?;
        }
        Ok(())
    }

    fn take_data_frame(
        &mut self,
        frame: &Frame<'_>,
        frame_type: u64,
        now: Instant,
    ) -> Result<(), Fault> {
        if let Some((code, reason)) = self.refusal(frame) {
            return Err(Fault::new(code, frame_type, reason));
        }
        match *frame {
            Frame::Ack {
                largest,
                delay,
                ranges,
                ..
            } => {
                let micros = delay.checked_shl(self.peer.ack_delay_exponent as u32);
                let delay = Duration::from_micros(micros.unwrap_or(u64::MAX));
                self.take_ack(Level::Data, largest, ranges, delay, now);
            }
            Frame::Stream { stream, .. } => self.windows.came(stream, now),
            Frame::Crypto { offset, bytes } => self.take_crypto(Level::Data, offset, bytes)?,
            Frame::NewConnectionId { .. } => self.take_new_id(frame)?,
            Frame::PathChallenge { bytes } => self.take_challenge(bytes),
            Frame::PathResponse { bytes } => self.take_path_response(bytes, now),
            Frame::RetireConnectionId { sequence } => self.take_retired(sequence)?,
            Frame::HandshakeDone if !self.known.is_confirmed => self.confirm(),
            Frame::ConnectionClose { code, reason, .. } => {
                self.peer_closed(false, code, reason, now)
            }
            Frame::ApplicationClose { code, reason } => self.peer_closed(true, code, reason, now),
            // The rest is the stream layer's own, or a token, which this client doesn't keep.
            _ => {}
        }
        Ok(())
    }

    // What the stream layer leaves to the transport to refuse, since it needs roles and connection IDs.
    fn refusal(&self, frame: &Frame<'_>) -> Option<(u64, &'static str)> {
        match frame {
            Frame::HandshakeDone | Frame::NewToken { .. } if self.role == Role::Server => {
                Some((PROTOCOL_VIOLATION, "a frame that only a server sends"))
            }
            Frame::NewToken { bytes: [] } => Some((FRAME_ENCODING_ERROR, "a token without a byte")),
            Frame::RetireConnectionId { sequence } if !self.may_retire(*sequence) => Some((
                PROTOCOL_VIOLATION,
                "the only identifier is retired, or one that wasn't given",
            )),
            _ => None,
        }
    }

    fn take_new_id(&mut self, frame: &Frame<'_>) -> Result<(), Fault> {
        let Frame::NewConnectionId {
            sequence,
            retire,
            identifier,
            reset_token,
        } = *frame
        else {
            return Ok(());
        };
        let (Some(id), Ok(token)) = (ConnectionId::new(identifier), reset_token.try_into()) else {
            let reason = "an identifier of a wrong length";
            return Err(Fault::new(FRAME_ENCODING_ERROR, 0x18, reason));
        };
        for retired in self.peer_ids.take(sequence, retire, id, token)? {
            self.control(Control::RetireId(retired));
        }
        Ok(())
    }

    // A peer that asks for more answers than can go isn't answered further.
    fn control(&mut self, control: Control) {
        if self.controls.len() < MOST_CONTROLS && !self.controls.contains(&control) {
            self.controls.push_back(control);
        }
    }

    fn peer_closed(&mut self, by_application: bool, code: u64, reason: &[u8], now: Instant) {
        let outcome = Outcome::PeerClosed {
            by_application,
            code,
            reason: String::from_utf8_lossy(reason).into_owned(),
        };
        self.drain(outcome, now);
    }
}
