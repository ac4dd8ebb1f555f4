// Made from crates/qs_world/src/reporting.rt by rust/erase; not edited by hand.
//! The report of what two endpoints have come to.
use crate::shim::Vec;

use crate::proved::qs_world::copies::copy_log;
use crate::proved::qs_world::report::{EndTotals, LaneTotals, PlayFault, Report};
use crate::proved::qs_calls::{Answer, Event, Side};
use crate::proved::qs_conn::{Endpoint, LaneReport, RecvReport, SendReport};
use crate::proved::qs_recv::RecvState;
use crate::proved::qs_send::SendState;
use crate::proved::qs_wire::StreamId;
use crate::shim::alloc::{AllocError, Global};

const INDEXES: u64 = 1 << 60;

// A half that isn't open has no report, and a line of the text wants one.
const NEVER_SENT: SendReport = SendReport {
    state: SendState::Ready,
    written: 0,
    final_size: None,
    reset_code: None,
    limit: 0,
};

const NEVER_RECEIVED: RecvReport = RecvReport {
    state: RecvState::Recv,
    read_count: 0,
    highest: 0,
    limit: 0,
    final_size: None,
    reset_code: None,
    stop_code: None,
};

///
/// Refused: `NoMemory`.
pub(crate) fn report_of(
    alloc: Global,
    log: &[(Event, Answer)],
    a: &Endpoint,
    b: &Endpoint,
) -> Result<Report, PlayFault> {
    let Ok(log) = copy_log(alloc, log) else {
        return Err(PlayFault::NoMemory);
    };
    let Ok(lanes) = all_lanes(alloc, a, b) else {
        return Err(PlayFault::NoMemory);
    };
    Ok(Report {
        log,
        lanes,
        ends: [end_totals(a), end_totals(b)],
    })
}

/// One look at each number up to the last that is open in any type of stream, so that the lanes come in order without being sorted.
pub(crate) fn all_lanes(
    alloc: Global,
    a: &Endpoint,
    b: &Endpoint,
) -> Result<Vec<LaneTotals>, AllocError> {
    let mut lanes = Vec::new(alloc);
    for index in 0..INDEXES {
        let before = lanes.len();
        push_index(&mut lanes, a, b, index)?;
        if lanes.len() == before {
            return Ok(lanes);
        }
    }
    // No memory holds a lane for every number.
    Err(AllocError)
}

pub(crate) fn end_totals(end: &Endpoint) -> EndTotals {
    EndTotals {
        spent: end.spent(),
        granted: end.granted(),
        stored: end.stored(),
        closing: end.closing(),
    }
}

fn push_index(
    lanes: &mut Vec<LaneTotals>,
    a: &Endpoint,
    b: &Endpoint,
    index: u64,
) -> Result<(), AllocError> {
    debug_assert!(index < 1 << 60);
    for kind in 0..4 {
        let stream = StreamId::new(index * 4 + kind).unwrap();
        push_stream(lanes, a, b, stream)?;
    }
    Ok(())
}

fn push_stream(
    lanes: &mut Vec<LaneTotals>,
    a: &Endpoint,
    b: &Endpoint,
    stream: StreamId,
) -> Result<(), AllocError> {
    let at_a = a.lane_report(stream);
    let at_b = b.lane_report(stream);
    push_lane(
        lanes,
        lane_of(Side::A, stream, sending(at_a), receiving(at_b)),
    )?;
    push_lane(
        lanes,
        lane_of(Side::B, stream, sending(at_b), receiving(at_a)),
    )?;
    Ok(())
}

fn push_lane(lanes: &mut Vec<LaneTotals>, lane: Option<LaneTotals>) -> Result<(), AllocError> {
    if let Some(lane) = lane {
        lanes.push(lane)?;
    }
    Ok(())
}

fn lane_of(
    sender: Side,
    id: StreamId,
    sent: Option<SendReport>,
    read: Option<RecvReport>,
) -> Option<LaneTotals> {
    if sent.is_none() && read.is_none() {
        return None;
    }
    let sent = sent.unwrap_or(NEVER_SENT);
    let read = read.unwrap_or(NEVER_RECEIVED);
    Some(LaneTotals {
        sender,
        id,
        written: sent.written,
        read: read.read_count,
        received: is_received(sent.state),
        declared: sent.final_size,
        known: read.final_size,
    })
}

fn sending(report: Option<LaneReport>) -> Option<SendReport> {
    report?.send
}

fn receiving(report: Option<LaneReport>) -> Option<RecvReport> {
    report?.recv
}

fn is_received(state: SendState) -> bool {
    matches!(state, SendState::DataRecvd)
}
