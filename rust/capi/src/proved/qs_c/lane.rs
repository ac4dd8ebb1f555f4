// Made from crates/qs_c/src/lane.rt by rust/erase; not edited by hand.
//! How a stream stands, as C is told it.

use crate::proved::qs_conn::{LaneReport, RecvReport, SendReport};
use crate::proved::qs_recv::RecvState;
use crate::proved::qs_send::SendState;

#[repr(C)]
#[derive(Clone, Copy)]
pub struct GvSending {
    pub state: u32,
    pub has_final_size: bool,
    pub was_reset: bool,
    pub written: u64,
    pub limit: u64,
    pub final_size: u64,
    pub reset_code: u64,
}

#[repr(C)]
#[derive(Clone, Copy)]
pub struct GvReceiving {
    pub state: u32,
    pub has_final_size: bool,
    pub was_reset: bool,
    pub was_stopped: bool,
    pub read_count: u64,
    pub highest: u64,
    pub limit: u64,
    pub final_size: u64,
    pub reset_code: u64,
    pub stop_code: u64,
}

#[repr(C)]
#[derive(Clone, Copy)]
pub struct GvLane {
    pub has_sending: bool,
    pub has_receiving: bool,
    pub sending: GvSending,
    pub receiving: GvReceiving,
}

impl GvLane {
    pub(crate) fn of(report: LaneReport) -> GvLane {
        GvLane {
            has_sending: report.send.is_some(),
            has_receiving: report.recv.is_some(),
            sending: sending_of(report.send),
            receiving: receiving_of(report.recv),
        }
    }
}

const NOT_SENDING: GvSending = GvSending {
    state: 0,
    has_final_size: false,
    was_reset: false,
    written: 0,
    limit: 0,
    final_size: 0,
    reset_code: 0,
};

const NOT_RECEIVING: GvReceiving = GvReceiving {
    state: 0,
    has_final_size: false,
    was_reset: false,
    was_stopped: false,
    read_count: 0,
    highest: 0,
    limit: 0,
    final_size: 0,
    reset_code: 0,
    stop_code: 0,
};

fn sending_of(report: Option<SendReport>) -> GvSending {
    let Some(half) = report else {
        return NOT_SENDING;
    };
    GvSending {
        state: send_number(half.state),
        has_final_size: half.final_size.is_some(),
        was_reset: half.reset_code.is_some(),
        written: half.written,
        limit: half.limit,
        final_size: half.final_size.unwrap_or(0),
        reset_code: half.reset_code.unwrap_or(0),
    }
}

fn receiving_of(report: Option<RecvReport>) -> GvReceiving {
    let Some(half) = report else {
        return NOT_RECEIVING;
    };
    GvReceiving {
        state: recv_number(half.state),
        has_final_size: half.final_size.is_some(),
        was_reset: half.reset_code.is_some(),
        was_stopped: half.stop_code.is_some(),
        read_count: half.read_count,
        highest: half.highest,
        limit: half.limit,
        final_size: half.final_size.unwrap_or(0),
        reset_code: half.reset_code.unwrap_or(0),
        stop_code: half.stop_code.unwrap_or(0),
    }
}

fn send_number(state: SendState) -> u32 {
    match state {
        SendState::Ready => 0,
        SendState::Send => 1,
        SendState::DataSent => 2,
        SendState::DataRecvd => 3,
        SendState::ResetSent => 4,
        SendState::ResetRecvd => 5,
    }
}

fn recv_number(state: RecvState) -> u32 {
    match state {
        RecvState::Recv => 0,
        RecvState::SizeKnown => 1,
        RecvState::DataRecvd => 2,
        RecvState::DataRead => 3,
        RecvState::ResetRecvd => 4,
        RecvState::ResetRead => 5,
    }
}
