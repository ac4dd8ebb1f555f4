//! Timers, and how a connection ends (RFC 9000, section 10).

use super::{Connection, Path};
use crate::crypto::push_frame;
use crate::fault::{APPLICATION_ERROR, Close, Fault, INTERNAL_ERROR, Outcome};
use crate::packet::Level;
use crate::recovery::Due;
use gotsavena::Frame;
use std::time::{Duration, Instant};

pub(super) enum State {
    Open,
    /// Each so many datagrams that come are answered by the same CONNECTION_CLOSE, so that a peer that lost it hears again.
    Closing {
        until: Instant,
        is_due: bool,
        unanswered: u32,
        answer_after: u32,
    },
    /// The peer closed, and knows it: nothing is sent.
    Draining {
        until: Instant,
    },
    Gone,
}

impl Connection {
    /// When [`Connection::time_is_up`] is to be called next.
    pub fn timer(&self, now: Instant) -> Option<Instant> {
        match self.state {
            State::Open => {
                let recovery = self.recovery.timer(self.standing(), now);
                let times = recovery.into_iter().chain(self.idle_until());
                times.chain(self.moving.timer()).min()
            }
            State::Closing { until, .. } | State::Draining { until } => Some(until),
            State::Gone => None,
        }
    }

    pub fn time_is_up(&mut self, now: Instant) {
        match self.state {
            State::Open => {}
            State::Closing { until, .. } | State::Draining { until } => {
                if until <= now {
                    self.state = State::Gone;
                }
                return;
            }
            State::Gone => return,
        }
        if self.idle_until().is_some_and(|until| until <= now) {
            self.outcome = Some(Outcome::Idle);
            self.state = State::Gone;
            return;
        }
        self.give_way_up(now);
        match self.recovery.time_is_up(self.standing(), now) {
            Some(Due::Lost(level, lost)) => {
                self.tell_lost(level, &lost, now);
                self.lose(level, lost);
            }
            Some(Due::Probe(Level::Data)) => self.probe_data(),
            Some(Due::Probe(_)) => self.probe_handshake(),
            None => {}
        }
        self.tell_metrics(now);
    }

    // Both endpoints' times count, if they name one: the shorter is the one that ends it (section 10.1).
    fn idle_until(&self) -> Option<Instant> {
        let times = [self.config.idle, self.peer.idle].into_iter();
        let idle = times.filter(|time| !time.is_zero()).min()?;
        Some(self.last_active + idle.max(3 * self.recovery.probe_timeout(Level::Data)))
    }

    // Initial and Handshake probe together, so that the limit for an address that isn't validated isn't used up by padding.
    fn probe_handshake(&mut self) {
        for level in [Level::Initial, Level::Handshake] {
            let in_flight = self.recovery.in_flight(level);
            let ranges = in_flight
                .flat_map(|(_, sent)| sent.crypto.clone())
                .collect();
            let space = self.space(level);
            if space.keys.is_some() {
                space.out.probe(ranges);
                space.probes = 1;
            }
        }
    }

    // What the oldest packet carried goes again (RFC 9002, section 6.2.4). It stays in flight, since its ACK may come late.
    fn probe_data(&mut self) {
        let asking = self
            .recovery
            .in_flight(Level::Data)
            .filter(|(_, sent)| sent.asks);
        let oldest: Vec<_> = asking
            .take(2)
            .map(|(number, sent)| (number, sent.clone()))
            .collect();
        self.lose(Level::Data, oldest);
        self.space(Level::Data).probes = 2;
    }

    fn linger(&self, now: Instant) -> Instant {
        now + 3 * self
            .recovery
            .probe_timeout(Level::Data)
            .max(Duration::from_millis(5))
    }

    pub fn close(&mut self, close: Close, now: Instant) {
        if matches!(self.state, State::Open) {
            self.outcome = Some(Outcome::Closed(close));
            self.begin_closing(now);
        }
    }

    pub fn fail(&mut self, fault: Fault, now: Instant) {
        if matches!(self.state, State::Open) {
            self.outcome = Some(Outcome::Failed(fault));
            self.begin_closing(now);
        }
    }

    /// Answers a first datagram of so many bytes by that alone.
    pub fn refuse(&mut self, from: Path, bytes: usize, fault: Fault, now: Instant) {
        self.comes(from, bytes);
        self.fail(fault, now);
    }

    /// Nothing more comes of it.
    pub fn forget(&mut self) {
        self.state = State::Gone;
    }

    fn trace_closed(&mut self, now: Instant) {
        if let (Some(trace), Some(outcome)) = (&mut self.trace, &self.outcome) {
            trace.closed(outcome, now);
        }
    }

    fn begin_closing(&mut self, now: Instant) {
        self.trace_closed(now);
        self.state = State::Closing {
            until: self.linger(now),
            is_due: true,
            unanswered: 0,
            answer_after: 1,
        };
    }

    pub(super) fn drain(&mut self, outcome: Outcome, now: Instant) {
        self.outcome = Some(outcome);
        self.trace_closed(now);
        self.state = State::Draining {
            until: self.linger(now),
        };
    }

    // Ever fewer of the peer's datagrams are answered, so that two closed endpoints don't answer each other for ever (section 10.2.1).
    pub(super) fn answer_closing(&mut self) {
        if let State::Closing {
            is_due,
            unanswered,
            answer_after,
            ..
        } = &mut self.state
        {
            *unanswered += 1;
            if *unanswered >= *answer_after {
                *unanswered = 0;
                *answer_after = answer_after.saturating_mul(2);
                *is_due = true;
            }
        }
    }

    pub(super) fn takes_closing(&mut self) -> bool {
        match &mut self.state {
            State::Closing { is_due, .. } => std::mem::take(is_due),
            _ => false,
        }
    }

    /// The CONNECTION_CLOSE for a level. What the application says isn't sent before the handshake is done, since an observer could read it
    /// (section 10.2.3).
    pub(super) fn put_close(&self, level: Level, out: &mut Vec<u8>) {
        let end = self.end.as_ref().filter(|end| end.closing().is_some());
        if let (Level::Data, Some(end)) = (level, end) {
            let at = out.len();
            out.resize(at + 128, 0);
            let len = end.close_payload(&mut out[at..]).unwrap_or(0);
            out.truncate(at + len);
            return;
        }
        let (code, frame_type, reason) = match &self.outcome {
            Some(Outcome::Closed(close)) if level == Level::Data => {
                let reason = close.reason.as_bytes();
                push_frame(
                    out,
                    &Frame::ApplicationClose {
                        code: close.code,
                        reason,
                    },
                );
                return;
            }
            Some(Outcome::Failed(fault)) => (fault.code, fault.frame_type, fault.reason.as_str()),
            Some(Outcome::Closed(_)) => (APPLICATION_ERROR, 0, ""),
            _ => (INTERNAL_ERROR, 0, ""),
        };
        let reason = reason.as_bytes();
        push_frame(
            out,
            &Frame::ConnectionClose {
                code,
                frame_type,
                reason,
            },
        );
    }
}
