// Made from tests/units/qs_ends/src/rows/told.rattle by rust/erase; not edited by hand.
//! How answers are spelled.

use crate::shim::String;
use super::RowFault;
use crate::proved::qs_conn::{
    Closing, LostFault, MakeFault, OpenFault, Received, RecvReport, SendReport, SetFault, UseFault,
};
use crate::proved::qs_recv::RecvState;
use crate::proved::qs_send::SendState;

/// Hex, a dash where there are none.
pub(super) fn tell_bytes(answer: &mut String, bytes: &[u8]) -> Result<(), RowFault> {
    if bytes.is_empty() {
        answer.push_str("-")?;
    }
    for byte in bytes {
        write!(answer, "{byte:02x}")?;
    }
    Ok(())
}

pub(super) fn tell_number(answer: &mut String, number: u64) -> Result<(), RowFault> {
    write!(answer, "{number}")?;
    Ok(())
}

pub(super) fn tell_count(answer: &mut String, count: usize) -> Result<(), RowFault> {
    write!(answer, "{count}")?;
    Ok(())
}

fn tell_optional(answer: &mut String, number: Option<u64>) -> Result<(), RowFault> {
    match number {
        Some(number) => tell_number(answer, number),
        None => tell_word(answer, "none"),
    }
}

pub(super) fn tell_word(answer: &mut String, word: &str) -> Result<(), RowFault> {
    answer.push_str(word)?;
    Ok(())
}

/// The code, the frame's type and its place.
pub(super) fn tell_closing(answer: &mut String, closing: Closing) -> Result<(), RowFault> {
    let Closing {
        code,
        frame_type,
        place,
    } = closing;
    write!(answer, "closing {code:02x} {frame_type:02x} {place}")?;
    Ok(())
}

pub(super) fn tell_received(answer: &mut String, received: Received) -> Result<(), RowFault> {
    match received {
        Received::Done => tell_word(answer, "done"),
        Received::Duplicate => tell_word(answer, "duplicate"),
        Received::BelowFloor => tell_word(answer, "below-floor"),
        Received::NoMemory => tell_word(answer, "no-memory"),
        Received::PeerClosed(code) => {
            tell_word(answer, "peer-closed ")?;
            tell_number(answer, code)
        }
    }
}

pub(super) fn tell_open_fault(answer: &mut String, fault: OpenFault) -> Result<(), RowFault> {
    match fault {
        OpenFault::Blocked(count) => {
            tell_word(answer, "blocked ")?;
            tell_number(answer, count)
        }
        OpenFault::Closed => tell_word(answer, "closed"),
        OpenFault::NoMemory => tell_word(answer, "no-memory"),
    }
}

pub(super) fn use_fault(fault: UseFault) -> &'static str {
    match fault {
        UseFault::NoSuchStream => "no-such-stream",
        UseFault::WrongDirection => "wrong-direction",
        UseFault::Finished => "finished",
        UseFault::WasReset => "was-reset",
        UseFault::Closed => "closed",
        UseFault::NoMemory => "no-memory",
    }
}

pub(super) fn set_fault(fault: SetFault) -> &'static str {
    match fault {
        SetFault::Closed => "closed",
        SetFault::OutOfRange => "out-of-range",
        SetFault::NoSuchStream => "no-such-stream",
        SetFault::WrongDirection => "wrong-direction",
    }
}

pub(super) fn make_fault(fault: MakeFault) -> &'static str {
    match fault {
        MakeFault::Closed => "closed",
        MakeFault::NoMemory => "no-memory",
        MakeFault::Exhausted => "exhausted",
    }
}

pub(super) fn lost_fault(fault: LostFault) -> &'static str {
    match fault {
        LostFault::NotOutstanding => "not-outstanding",
        LostFault::NoMemory => "no-memory",
        LostFault::Closed => "closed",
    }
}

fn send_state(state: SendState) -> &'static str {
    match state {
        SendState::Ready => "ready",
        SendState::Send => "send",
        SendState::DataSent => "data-sent",
        SendState::DataRecvd => "data-recvd",
        SendState::ResetSent => "reset-sent",
        SendState::ResetRecvd => "reset-recvd",
    }
}

fn recv_state(state: RecvState) -> &'static str {
    match state {
        RecvState::Recv => "recv",
        RecvState::SizeKnown => "size-known",
        RecvState::DataRecvd => "data-recvd",
        RecvState::DataRead => "data-read",
        RecvState::ResetRecvd => "reset-recvd",
        RecvState::ResetRead => "reset-read",
    }
}

pub(super) fn tell_sending(answer: &mut String, report: SendReport) -> Result<(), RowFault> {
    let state = send_state(report.state);
    let written = report.written;
    write!(answer, "{state} written {written} final ")?;
    tell_optional(answer, report.final_size)
}

pub(super) fn tell_receiving(answer: &mut String, report: RecvReport) -> Result<(), RowFault> {
    let state = recv_state(report.state);
    let (read, highest, limit) = (report.read_count, report.highest, report.limit);
    write!(
        answer,
        "{state} read {read} highest {highest} limit {limit} final "
    )?;
    tell_optional(answer, report.final_size)
}
