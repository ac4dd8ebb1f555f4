//! What holds of a run that may have found no memory, read off its log and its report.

use super::proved::qs_wire::{Frame, Frames};
use super::proved::qs_world::{
    Act, Answer, EndTotals, Event, LaneTotals, Read, Received, Report, Side, StreamId,
};

type Log = [(Event, Answer)];

fn other(side: Side) -> Side {
    match side {
        Side::A => Side::B,
        Side::B => Side::A,
    }
}

/// What a run of two ends shows of a direction of a stream.
struct Shown {
    written: Vec<u8>,
    read: Vec<u8>,
    /// The codes of the sender's resets, and of those that a reader was told.
    reset: Vec<u64>,
    told_reset: Vec<u64>,
    is_stopped: bool,
    /// A reader that hadn't stopped was told of the end.
    is_ended: bool,
}

fn shown(log: &Log, sender: Side, stream: StreamId) -> Shown {
    let mut shown = Shown {
        written: Vec::new(),
        read: Vec::new(),
        reset: Vec::new(),
        told_reset: Vec::new(),
        is_stopped: false,
        is_ended: false,
    };
    for (Event { end, act }, answer) in log {
        let is_sender = *end == sender;
        match (act, answer) {
            (Act::Write(id, bytes), Answer::Write(Ok(count))) if is_sender && *id == stream => {
                shown.written.extend_from_slice(&bytes[..*count]);
            }
            (Act::Reset(id, code), Answer::Reset(Ok(()))) if is_sender && *id == stream => {
                shown.reset.push(*code);
            }
            (Act::Stop(id, _), Answer::Stop(Ok(()))) if !is_sender && *id == stream => {
                shown.is_stopped = true;
            }
            (Act::ReadUpTo(id, _), Answer::ReadUpTo(Ok(found), bytes))
                if !is_sender && *id == stream =>
            {
                shown.note_read(*found, bytes);
            }
            _ => {}
        }
    }
    shown
}

impl Shown {
    fn note_read(&mut self, found: Read, bytes: &[u8]) {
        match found {
            Read::Bytes(count) => {
                assert_eq!(bytes.len(), count);
                self.read.extend_from_slice(bytes);
            }
            Read::End => self.is_ended |= !self.is_stopped,
            Read::Reset(code) => self.told_reset.push(code),
            Read::Wait => {}
        }
    }
}

/// The payload that an end made under a number.
fn payload(log: &Log, maker: Side, number: u64) -> &[u8] {
    let is_it = |(event, answer): &&(Event, Answer)| {
        let is_made = matches!(answer, Answer::Make(Ok(Some(made)), _) if made.number == number);
        event.end == maker && is_made
    };
    match log.iter().find(is_it) {
        Some((_, Answer::Make(_, payload))) => payload,
        _ => panic!("packet {number} was made"),
    }
}

/// The end of a STREAM frame's bytes, or the final size of a RESET_STREAM, of a stream.
fn reaches(frame: &Frame<'_>, of: StreamId) -> u64 {
    match *frame {
        Frame::Stream {
            stream,
            offset,
            fin,
            bytes,
        } if stream == of && (fin || !bytes.is_empty()) => offset + bytes.len() as u64,
        Frame::ResetStream {
            stream, final_size, ..
        } if stream == of => final_size,
        _ => 0,
    }
}

/// One more than the highest offset that the payload has of a stream.
fn highest_in(payload: &[u8], of: StreamId) -> u64 {
    let mut frames = Frames::new(payload);
    let mut highest = 0;
    while let Some(placed) = frames.next().expect("an end makes frames") {
        highest = highest.max(reaches(&placed.frame, of));
    }
    highest
}

/// The highest offset of what an end made, and of what of it was delivered and processed.
fn highest(log: &Log, maker: Side, of: StreamId) -> (u64, u64) {
    let (mut sent, mut processed) = (0, 0);
    for (event, answer) in log {
        if event.end != maker {
            continue;
        }
        match (&event.act, answer) {
            (Act::Make(_), Answer::Make(Ok(Some(made)), payload)) => {
                assert_eq!(payload.len(), made.len);
                sent = sent.max(highest_in(payload, of));
            }
            (Act::Deliver(number), Answer::Deliver(Ok(Received::Done))) => {
                processed = processed.max(highest_in(payload(log, maker, *number), of));
            }
            _ => {}
        }
    }
    (sent, processed)
}

fn end_of(report: &Report, side: Side) -> &EndTotals {
    match side {
        Side::A => &report.ends[0],
        Side::B => &report.ends[1],
    }
}

/// Reads are a prefix of what was written, and all of it where the end was told; what counts as received was taken in whole; final sizes
/// and codes that are known are the sender's.
fn lane_agrees(report: &Report, lane: &LaneTotals) {
    let shown = shown(&report.log, lane.sender, lane.id);
    assert_eq!(lane.written, shown.written.len() as u64);
    assert_eq!(lane.read, shown.read.len() as u64);
    assert!(shown.written.starts_with(&shown.read));
    if shown.is_ended {
        assert_eq!(shown.read, shown.written);
    }
    if lane.received {
        assert_eq!(lane.known, Some(lane.written));
        let stored = end_of(report, other(lane.sender)).stored;
        assert!(shown.is_stopped || lane.read + stored >= lane.written);
    }
    if lane.known.is_some() {
        assert_eq!(lane.known, lane.declared);
    }
    for code in &shown.told_reset {
        assert_eq!(shown.reset.first(), Some(code));
    }
}

/// What an end's peer spent lies between what was processed of its packets and what they hold, each offset counted once.
fn end_agrees(report: &Report, side: Side) {
    let end = end_of(report, side);
    let of_peer = report.lanes.iter().filter(|lane| lane.sender != side);
    let (mut sent, mut processed) = (0, 0);
    for lane in of_peer {
        let (most, least) = highest(&report.log, lane.sender, lane.id);
        sent += most;
        processed += least;
    }
    assert!(processed <= end.spent && end.spent <= sent, "{end:?}");
    assert!(end.stored <= end.spent && end.spent <= end.granted);
    assert_eq!(end.closing, None);
}

/// The run agrees, as each run does.
pub fn agrees(report: &Report) {
    for lane in report.lanes.iter() {
        lane_agrees(report, lane);
    }
    for side in [Side::A, Side::B] {
        end_agrees(report, side);
    }
}
