//! What the other endpoint said so far, and whether it may have sent that.

use crate::mirror::{Mirror, Place};
use crate::wire::name;
use gotsavena::{AckRanges, Dir, Frame, PeerLimits, Role, StreamId, frames};
use std::collections::BTreeMap;

/// What came of a payload.
#[derive(Clone, Debug, PartialEq, Eq)]
pub enum Out {
    GoesOn,
    /// CONNECTION_CLOSE of either kind (RFC 9000, section 19.19).
    Closes {
        by_application: bool,
        code: u64,
        frame_type: u64,
        reason: String,
    },
    /// No packet is acknowledged any more, and none says why.
    Silent,
}

#[derive(Clone, Copy, Debug, Default)]
pub struct Sent {
    pub end: u64,
    pub fin: bool,
}

pub struct Seen {
    limits: PeerLimits,
    role: Role,
    acked: Vec<(u64, u64)>,
    pub max_data: u64,
    pub max_streams: [u64; 2],
    stream_limits: BTreeMap<u64, u64>,
    pub streams: BTreeMap<u64, Sent>,
    /// The code of the first RESET_STREAM of a stream, its packet, and how many came.
    pub resets: BTreeMap<u64, (u64, u64, u32)>,
    pub path_responses: u64,
    pub is_blocked: bool,
    pub close: Option<Out>,
    /// Bytes of streams that came again.
    pub again: u64,
    /// The proved layer in this side's place: it takes in what came.
    judge: Mirror,
    faults: Vec<String>,
}

impl Seen {
    /// `other` is the endpoint that is looked at, `own` this one.
    pub fn new(other: Place, own: Place) -> Seen {
        Seen {
            limits: other.grants,
            role: other.role,
            acked: Vec::new(),
            max_data: other.grants.max_data,
            max_streams: [other.grants.streams_bidi, other.grants.streams_uni],
            stream_limits: BTreeMap::new(),
            streams: BTreeMap::new(),
            resets: BTreeMap::new(),
            path_responses: 0,
            is_blocked: false,
            close: None,
            again: 0,
            judge: Mirror::new(own, false),
            faults: Vec::new(),
        }
    }

    /// How far this side may send on a stream.
    pub fn limit(&self, stream: StreamId) -> u64 {
        let first = match (stream.dir(), stream.initiator() == self.role) {
            (Dir::Uni, _) => self.limits.uni,
            (Dir::Bidi, true) => self.limits.bidi_local,
            (Dir::Bidi, false) => self.limits.bidi_remote,
        };
        let raised = self.stream_limits.get(&stream.value());
        raised.copied().unwrap_or(first)
    }

    pub fn is_own(&self, stream: StreamId) -> bool {
        stream.initiator() == self.role
    }

    pub fn count(&self, dir: Dir) -> u64 {
        self.max_streams[usize::from(dir == Dir::Uni)]
    }

    pub fn is_acked(&self, number: u64) -> bool {
        let mut acked = self.acked.iter();
        acked.any(|(lowest, highest)| (*lowest..=*highest).contains(&number))
    }

    /// This side sent it.
    pub fn went(&mut self, number: u64, payload: &[u8]) {
        self.judge.follow(number, payload);
    }

    /// It came. `next` is the number of this side's next packet.
    pub fn came(&mut self, number: u64, payload: &[u8], next: u64) {
        if let Some(last) = next.checked_sub(1) {
            self.judge.follow(last, &[]);
        }
        self.judge.came(number, payload);
        for placed in frames(payload) {
            match placed {
                Ok(placed) => self.look(&placed.frame, number),
                Err(fault) => self
                    .faults
                    .push(format!("packet {number} can't be read: {fault}")),
            }
        }
    }

    /// What the other may not have sent: as the proved layer has it, which judges what came, and two rules that no receiver can hold, since
    /// packets may overtake each other.
    pub fn faults(&self) -> Vec<String> {
        let mut faults = self.faults.clone();
        if let Some(closes) = self.judge.closes() {
            let kind = name(closes.frame_type);
            faults.push(format!("{:#x} for a {kind} that it sent", closes.code));
        }
        faults
    }

    fn look(&mut self, frame: &Frame<'_>, number: u64) {
        let raise = |limit: &mut u64, to: u64| *limit = (*limit).max(to);
        match *frame {
            Frame::Ack {
                largest, ranges, ..
            } => {
                self.acked
                    .extend(AckRanges::new(largest, ranges).into_iter().flatten());
            }
            Frame::MaxData { maximum } => raise(&mut self.max_data, maximum),
            Frame::MaxStreamData { stream, maximum } => {
                let limit = self.limit(stream);
                let at = self.stream_limits.entry(stream.value()).or_insert(limit);
                raise(at, maximum);
            }
            Frame::MaxStreams { dir, count } => {
                raise(&mut self.max_streams[usize::from(dir == Dir::Uni)], count);
            }
            Frame::ResetStream { stream, code, .. } => self.look_at_reset(stream, code, number),
            Frame::Stream {
                stream,
                offset,
                fin,
                bytes,
            } => {
                let end = offset + bytes.len() as u64;
                self.look_at_order(stream, number);
                let at = self.streams.entry(stream.value()).or_default();
                self.again += end.min(at.end).saturating_sub(offset);
                raise(&mut at.end, end);
                at.fin |= fin;
            }
            Frame::PathResponse { .. } => self.path_responses += 1,
            Frame::DataBlocked { .. } | Frame::StreamDataBlocked { .. } => self.is_blocked = true,
            Frame::ConnectionClose {
                code,
                frame_type,
                reason,
            } => self.look_at_close(false, code, frame_type, reason),
            Frame::ApplicationClose { code, reason } => self.look_at_close(true, code, 0, reason),
            _ => {}
        }
    }

    fn look_at_close(&mut self, by_application: bool, code: u64, frame_type: u64, reason: &[u8]) {
        self.close = Some(Out::Closes {
            by_application,
            code,
            frame_type,
            reason: String::from_utf8_lossy(reason).into_owned(),
        });
    }

    // What it says MUST NOT change as it goes again (RFC 9000, section 13.3). The proved layer sees to its final size.
    fn look_at_reset(&mut self, stream: StreamId, code: u64, number: u64) {
        let resets = &mut self.resets;
        let at = resets.entry(stream.value()).or_insert((code, number, 0));
        at.1 = at.1.min(number);
        at.2 += 1;
        if at.0 != code {
            self.faults.push(format!(
                "13.3: the code of RESET_STREAM of {stream} changed"
            ));
        }
    }

    // A sender MUST NOT send STREAM after RESET_STREAM (section 3.3).
    fn look_at_order(&mut self, stream: StreamId, number: u64) {
        let reset = self.resets.get(&stream.value());
        if reset.is_some_and(|(_, at, _)| *at < number) {
            let fault = format!("3.3: STREAM of {stream} goes after its RESET_STREAM");
            if !self.faults.contains(&fault) {
                self.faults.push(fault);
            }
        }
    }
}
