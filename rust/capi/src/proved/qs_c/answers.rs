// Made from crates/qs_c/src/answers.rt by rust/erase; not edited by hand.
//! The numbers that the calls answer.

use crate::proved::qs_c::lane::GvLane;
use crate::proved::qs_c::peeking::GvPieces;
use crate::proved::qs_c::structs::{GvClosing, GvFilled, GvMade};
use crate::proved::qs_calls::{Consumed, Filled, TakeFault, Taken, TokenFault};
use crate::proved::qs_conn::{
    Closing, LaneReport, LostFault, Made, MakeFault, OpenFault, RaiseFault, Received, SetFault,
    SetupFault, UseFault,
};
use crate::proved::qs_recv::{Peek, Read};
use crate::proved::qs_wire::StreamId;

pub(crate) const OK: u32 = 0;

pub(crate) const INVALID: u32 = 1;

pub(crate) const NO_MEMORY: u32 = 2;

pub(crate) const CLOSED: u32 = 3;

pub(crate) const NO_SUCH_STREAM: u32 = 4;

pub(crate) const WRONG_DIRECTION: u32 = 5;

pub(crate) const FINISHED: u32 = 6;

pub(crate) const WAS_RESET: u32 = 7;

pub(crate) const BLOCKED: u32 = 8;

pub(crate) const EXHAUSTED: u32 = 9;

pub(crate) const NOT_OUTSTANDING: u32 = 10;

pub(crate) const DUPLICATE: u32 = 11;

pub(crate) const BELOW_FLOOR: u32 = 12;

pub(crate) const PEER_CLOSED: u32 = 13;

pub(crate) const CLOSING: u32 = 14;

pub(crate) const NONE: u32 = 15;

pub(crate) const WAIT: u32 = 16;

pub(crate) const END: u32 = 17;

pub(crate) const RESET: u32 = 18;

pub(crate) const OUT_OF_RANGE: u32 = 19;

pub(crate) const TOO_MANY_STREAMS: u32 = 20;

pub(crate) const FAULT: u32 = 21;

pub(crate) const FULL: u32 = 22;

pub(crate) const NOT_GIVEN: u32 = 23;

fn of_fault(fault: UseFault) -> u32 {
    match fault {
        UseFault::NoMemory => NO_MEMORY,
        UseFault::Closed => CLOSED,
        UseFault::NoSuchStream => NO_SUCH_STREAM,
        UseFault::WrongDirection => WRONG_DIRECTION,
        UseFault::Finished => FINISHED,
        UseFault::WasReset => WAS_RESET,
    }
}

pub(crate) fn of_use(answer: Result<(), UseFault>) -> u32 {
    match answer {
        Ok(()) => OK,
        Err(fault) => of_fault(fault),
    }
}

pub(crate) fn of_count(answer: Result<usize, UseFault>, count: &mut usize) -> u32 {
    match answer {
        Ok(accepted) => {
            *count = accepted;
            OK
        }
        Err(fault) => of_fault(fault),
    }
}

pub(crate) fn of_read(answer: Result<Read, UseFault>, number: &mut u64) -> u32 {
    match answer {
        Ok(Read::Bytes(count)) => {
            *number = count as u64;
            OK
        }
        Ok(Read::Reset(code)) => {
            *number = code;
            RESET
        }
        Ok(Read::End) => END,
        Ok(Read::Wait) => WAIT,
        Err(fault) => of_fault(fault),
    }
}

pub(crate) fn of_consumed(
    answer: Result<Consumed, UseFault>,
    number: &mut u64,
    at_end: &mut bool,
) -> u32 {
    match answer {
        Ok(consumed) => match consumed.read {
            Read::Bytes(count) => {
                *number = count as u64;
                *at_end = consumed.at_end;
                OK
            }
            Read::Reset(code) => {
                *number = code;
                RESET
            }
            Read::End => END,
            Read::Wait => WAIT,
        },
        Err(fault) => of_fault(fault),
    }
}

pub(crate) fn of_peek<'a>(
    answer: Result<Peek<'a>, UseFault>,
    code: &mut u64,
    pieces: &mut GvPieces<'a>,
) -> u32 {
    match answer {
        Ok(Peek::Bytes(front, back)) => {
            *pieces = GvPieces { front, back };
            OK
        }
        Ok(Peek::Reset(of)) => {
            *code = of;
            RESET
        }
        Ok(Peek::End) => END,
        Ok(Peek::Wait) => WAIT,
        Err(fault) => of_fault(fault),
    }
}

pub(crate) fn of_open(answer: Result<StreamId, OpenFault>, number: &mut u64) -> u32 {
    match answer {
        Ok(stream) => {
            *number = stream.value();
            OK
        }
        Err(OpenFault::Blocked(limit)) => {
            *number = limit;
            BLOCKED
        }
        Err(OpenFault::Closed) => CLOSED,
        Err(OpenFault::NoMemory) => NO_MEMORY,
    }
}

pub(crate) fn of_stream(answer: Option<StreamId>, number: &mut u64) -> u32 {
    match answer {
        Some(stream) => {
            *number = stream.value();
            OK
        }
        None => NONE,
    }
}

pub(crate) fn of_len(answer: Option<usize>, len: &mut usize) -> u32 {
    match answer {
        Some(written) => {
            *len = written;
            OK
        }
        None => NONE,
    }
}

pub(crate) fn of_lost(answer: Result<(), LostFault>) -> u32 {
    match answer {
        Ok(()) => OK,
        Err(LostFault::NotOutstanding) => NOT_OUTSTANDING,
        Err(LostFault::NoMemory) => NO_MEMORY,
        Err(LostFault::Closed) => CLOSED,
    }
}

pub(crate) fn of_token(answer: Result<(), TokenFault>) -> u32 {
    match answer {
        Ok(()) => OK,
        Err(TokenFault::NotGiven) => NOT_GIVEN,
        Err(TokenFault::NoMemory) => NO_MEMORY,
        Err(TokenFault::Closed) => CLOSED,
    }
}

pub(crate) fn of_made(answer: Result<Option<Made>, MakeFault>, made: &mut GvMade) -> u32 {
    match answer {
        Ok(Some(packet)) => {
            *made = GvMade::of(packet);
            OK
        }
        Ok(None) => NONE,
        Err(MakeFault::Closed) => CLOSED,
        Err(MakeFault::NoMemory) => NO_MEMORY,
        Err(MakeFault::Exhausted) => EXHAUSTED,
    }
}

pub(crate) fn of_filled(answer: Result<Option<Filled>, MakeFault>, filled: &mut GvFilled) -> u32 {
    match answer {
        Ok(Some(frames)) => {
            *filled = GvFilled::of(frames);
            OK
        }
        Ok(None) => NONE,
        Err(MakeFault::Closed) => CLOSED,
        Err(MakeFault::NoMemory) => NO_MEMORY,
        Err(MakeFault::Exhausted) => EXHAUSTED,
    }
}

pub(crate) fn of_taken(answer: Result<Taken, TakeFault>, taken: &mut u32) -> u32 {
    match answer {
        Ok(came) => {
            *taken = taken_number(came);
            OK
        }
        Err(TakeFault::NoMemory) => NO_MEMORY,
        Err(TakeFault::PeerClosed(_)) => PEER_CLOSED,
        Err(TakeFault::Closing(_)) => CLOSING,
    }
}

fn taken_number(taken: Taken) -> u32 {
    match taken {
        Taken::Took => 0,
        Taken::Unchanged => 1,
        Taken::NotOurs => 2,
    }
}

pub(crate) fn of_received(answer: Result<Received, Closing>, closing: &mut GvClosing) -> u32 {
    match answer {
        Ok(Received::Done) => OK,
        Ok(Received::Duplicate) => DUPLICATE,
        Ok(Received::BelowFloor) => BELOW_FLOOR,
        Ok(Received::NoMemory) => NO_MEMORY,
        Ok(Received::PeerClosed(code)) => {
            closing.code = code;
            PEER_CLOSED
        }
        Err(own) => {
            *closing = GvClosing::of(own);
            CLOSING
        }
    }
}

pub(crate) fn of_closing(answer: Option<Closing>, closing: &mut GvClosing) -> u32 {
    match answer {
        Some(own) => {
            *closing = GvClosing::of(own);
            OK
        }
        None => NONE,
    }
}

pub(crate) fn of_number(answer: Option<u64>, number: &mut u64) -> u32 {
    match answer {
        Some(found) => {
            *number = found;
            OK
        }
        None => NONE,
    }
}

pub(crate) fn of_claim(answer: Result<u64, MakeFault>, number: &mut u64) -> u32 {
    match answer {
        Ok(claimed) => {
            *number = claimed;
            OK
        }
        Err(MakeFault::Closed) => CLOSED,
        Err(MakeFault::NoMemory) => NO_MEMORY,
        Err(MakeFault::Exhausted) => EXHAUSTED,
    }
}

pub(crate) fn of_setup(fault: SetupFault) -> u32 {
    match fault {
        SetupFault::OutOfRange => OUT_OF_RANGE,
        SetupFault::TooManyStreams => TOO_MANY_STREAMS,
    }
}

pub(crate) fn of_raise(answer: Result<(), RaiseFault>) -> u32 {
    match answer {
        Ok(()) => OK,
        Err(RaiseFault::Closed) => CLOSED,
        Err(RaiseFault::Refused(fault)) => of_setup(fault),
    }
}

pub(crate) fn of_set(answer: Result<(), SetFault>) -> u32 {
    match answer {
        Ok(()) => OK,
        Err(SetFault::Closed) => CLOSED,
        Err(SetFault::OutOfRange) => OUT_OF_RANGE,
        Err(SetFault::NoSuchStream) => NO_SUCH_STREAM,
        Err(SetFault::WrongDirection) => WRONG_DIRECTION,
    }
}

pub(crate) fn of_lane(answer: Option<LaneReport>, lane: &mut GvLane) -> u32 {
    match answer {
        Some(report) => {
            *lane = GvLane::of(report);
            OK
        }
        None => NONE,
    }
}
