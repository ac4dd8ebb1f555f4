// Made from tests/units/qs_units/src/send.rattle by rust/erase; not edited by hand.
//! Each test is a list of steps, played by one function: so no test's proof follows the half's value.
use crate::shim::{HostRuntime, assert, assert_eq};
use crate::proved::qs_ranges::NoMemory;
use crate::proved::qs_send::{Chunk, SendFault, SendHalf, SendState};
use crate::proved::qs_wire::StreamId;
use crate::shim::alloc::Global;
use crate::shim::test::Fail;

/// A call with what it answers.
#[derive(Clone, Copy)]
enum Step<'a> {
    /// The bytes, and how many are accepted.
    Write(&'a [u8], usize),
    /// A write and a `finish` are refused.
    Refuse(SendFault),
    Finish,
    Reset(u32, Result<(), SendFault>),
    Stop(u32),
    /// A STOP_SENDING that the owner answers, whether it would change the half, and the code that is kept.
    Tell(u32, bool, Option<u64>),
    Allow(u32),
    Block,
    /// Room, credit and the chunk that is sent.
    Send(usize, u16, Chunk),
    /// Room and credit with which no chunk goes, and whether the room is the cause.
    Hold(usize, u16, bool),
    Ack(Chunk),
    Lose(Chunk),
    AckReset,
    /// The bytes of the next chunk, which need no credit.
    Holds(&'a [u8]),
    State(SendState),
    /// The final size, and the reset's code.
    Size(Option<u64>, Option<u64>),
    /// Bytes written, the sent end, and the room that is left.
    Counts(u64, u64, usize),
    /// The lowest due offset, and whether the end is due.
    Due(Option<u64>, bool),
    /// Whether the buffer takes memory.
    TakesMemory(bool),
}

fn half(alloc: Global, number: u32, limit: u32, buffer: u32) -> SendHalf {
    match StreamId::new(u64::from(number)) {
        Some(id) => SendHalf::new(alloc, id, u64::from(limit), buffer),
        None => unreachable!(),
    }
}

fn chunk(offset: u64, len: usize, fin: bool) -> Chunk {
    Chunk { offset, len, fin }
}

fn look(half: &SendHalf) -> (u64, usize, Option<u64>, SendState) {
    (half.written(), half.room(), half.lowest_due(), half.state())
}

// A call that found no memory is made again where it changed nothing, so that the tests pass with each
// allocation refused in turn.
fn write(half: &mut SendHalf, bytes: &[u8]) -> Result<usize, SendFault> {
    let before = look(half);
    let first = half.write(bytes);
    if first == Err(SendFault::NoMemory) && look(half) == before {
        return half.write(bytes);
    }
    first
}

fn acknowledge(half: &mut SendHalf, chunk: Chunk) -> Result<(), NoMemory> {
    if !half.has_sent(chunk) {
        return Err(NoMemory);
    }
    half.acked(chunk)
}

fn acknowledge_again(half: &mut SendHalf, chunk: Chunk) -> Result<(), NoMemory> {
    let before = look(half);
    let first = acknowledge(half, chunk);
    if first.is_err() && look(half) == before {
        return acknowledge(half, chunk);
    }
    first
}

fn lose(half: &mut SendHalf, chunk: Chunk) -> Result<(), NoMemory> {
    if !half.has_sent(chunk) {
        return Err(NoMemory);
    }
    half.lost(chunk)
}

fn lose_again(half: &mut SendHalf, chunk: Chunk) -> Result<(), NoMemory> {
    let before = look(half);
    let first = lose(half, chunk);
    if first.is_err() && look(half) == before {
        return lose(half, chunk);
    }
    first
}

fn refuses(half: &mut SendHalf, fault: SendFault) -> bool {
    half.write(b"x") == Err(fault) && half.finish() == Err(fault)
}

fn sends(half: &mut SendHalf, room: usize, fresh: u16, expected: Chunk) -> bool {
    match half.next_chunk(room, u64::from(fresh)) {
        Some(chunk) if half.frame_len(chunk) <= room => {
            half.sent(chunk);
            chunk == expected
        }
        _ => false,
    }
}

fn holds_back(half: &SendHalf, room: usize, fresh: u16, by_room: bool) -> bool {
    half.next_chunk(room, u64::from(fresh)).is_none()
        && half.is_held_by_room(room, u64::from(fresh)) == by_room
}

fn acknowledges_reset(half: &mut SendHalf) -> bool {
    if half.state() != SendState::ResetSent {
        return false;
    }
    half.reset_acked();
    true
}

fn holds(half: &SendHalf, expected: &[u8]) -> bool {
    match half.next_chunk(128, 0) {
        Some(chunk) => {
            let (front, back) = half.bytes(chunk);
            let (begin, rest) = expected.split_at(front.len().min(expected.len()));
            front == begin && back == rest && copies(half, chunk, expected)
        }
        None => false,
    }
}

fn copies(half: &SendHalf, expected_chunk: Chunk, expected: &[u8]) -> bool {
    let mut bytes = [0u8; 4];
    match half.next_chunk(8, 0) {
        Some(chunk) if chunk.len == 4 => {
            half.copy(chunk, &mut bytes);
            bytes.as_slice() == expected
        }
        _ => expected_chunk.len < 4,
    }
}

// Whether the step answers what it says.
fn take(half: &mut SendHalf, step: Step) -> Result<bool, Fail> {
    match step {
        Step::Write(bytes, accepted) => return Ok(write(half, bytes)? == accepted),
        Step::Refuse(fault) => return Ok(refuses(half, fault)),
        Step::Finish => half.finish()?,
        Step::Reset(code, answer) => return Ok(half.reset(u64::from(code)) == answer),
        Step::Stop(code) => half.stopped(u64::from(code)),
        Step::Tell(code, changes, kept) => {
            let changed = half.asked_changes();
            half.told_stop(u64::from(code));
            return Ok(changed == changes && half.stop_code() == kept);
        }
        Step::Allow(limit) => half.allow(u64::from(limit)),
        Step::Block => half.note_blocked(),
        Step::Send(room, fresh, chunk) => return Ok(sends(half, room, fresh, chunk)),
        Step::Hold(room, fresh, by_room) => return Ok(holds_back(half, room, fresh, by_room)),
        Step::Ack(chunk) => acknowledge_again(half, chunk)?,
        Step::Lose(chunk) => lose_again(half, chunk)?,
        Step::AckReset => return Ok(acknowledges_reset(half)),
        Step::Holds(bytes) => return Ok(holds(half, bytes)),
        Step::State(state) => return Ok(half.state() == state),
        Step::Size(size, code) => return Ok((half.final_size(), half.reset_code()) == (size, code)),
        Step::Counts(written, sent_end, room) => {
            return Ok((half.written(), half.sent_end(), half.room()) == (written, sent_end, room));
        }
        Step::Due(offset, end) => return Ok((half.lowest_due(), half.end_due()) == (offset, end)),
        Step::TakesMemory(some) => return Ok((half.held().bytes > 0) == some),
    }
    Ok(true)
}

// How many steps answer what they say, up to the first that doesn't.
fn played(half: &mut SendHalf, steps: &[Step]) -> Result<usize, Fail> {
    for (count, step) in steps.iter().enumerate() {
        if !take(half, *step)? {
            return Ok(count);
        }
    }
    Ok(steps.len())
}

#[test]
fn lost_bytes_go_out_again() -> Result<(), Fail> {
    let rt = HostRuntime::new();
    let mut half = half(rt.alloc(), 0, 10, 8);
    let steps = [
        Step::Write(b"0123456789", 8),
        Step::Send(7, 100, chunk(0, 4, false)),
        Step::Send(8, 100, chunk(4, 4, false)),
        Step::Ack(chunk(4, 4, false)),
        Step::Counts(8, 8, 0),
        Step::Lose(chunk(0, 4, false)),
        Step::Holds(b"0123"),
        Step::Send(128, 0, chunk(0, 4, false)),
        Step::Ack(chunk(0, 4, false)),
        Step::Counts(8, 8, 8),
        Step::Write(b"89", 2),
        Step::Send(128, 1, chunk(8, 1, false)),
        Step::Finish,
        Step::Send(128, 100, chunk(9, 1, true)),
        Step::State(SendState::DataSent),
        Step::Size(Some(10), None),
        Step::Ack(chunk(8, 1, false)),
        Step::TakesMemory(true),
        Step::Ack(chunk(9, 1, true)),
        Step::State(SendState::DataRecvd),
        Step::TakesMemory(false),
        Step::Refuse(SendFault::Finished),
        Step::Reset(7, Err(SendFault::Finished)),
    ];
    assert_eq!(rt; played(&mut half, &steps)?, steps.len());
    Ok(())
}

// It counts, and what it named isn't due any more.
#[test]
fn an_acknowledgement_comes_after_a_loss() -> Result<(), Fail> {
    let rt = HostRuntime::new();
    let mut half = half(rt.alloc(), 4, 100, 100);
    let steps = [
        Step::Write(b"abcdef", 6),
        Step::Send(128, 100, chunk(0, 6, false)),
        Step::Lose(chunk(0, 6, false)),
        Step::Ack(chunk(2, 2, false)),
        Step::Send(128, 0, chunk(0, 2, false)),
        Step::Holds(b"ef"),
        Step::Send(128, 0, chunk(4, 2, false)),
        Step::Hold(128, 100, false),
        Step::Lose(chunk(2, 2, false)),
        Step::Hold(128, 100, false),
    ];
    assert_eq!(rt; played(&mut half, &steps)?, steps.len());
    Ok(())
}

#[test]
fn an_empty_stream_ends() -> Result<(), Fail> {
    let rt = HostRuntime::new();
    let mut half = half(rt.alloc(), 0, 0, 8);
    let steps = [
        Step::State(SendState::Ready),
        Step::Hold(128, 0, false),
        Step::Finish,
        Step::Refuse(SendFault::Finished),
        Step::Hold(2, 0, true),
        Step::Send(3, 0, chunk(0, 0, true)),
        Step::Due(None, false),
        Step::Lose(chunk(0, 0, true)),
        Step::Due(None, true),
        Step::Ack(chunk(0, 0, true)),
        Step::Due(None, false),
        Step::State(SendState::DataRecvd),
        Step::Size(Some(0), None),
        Step::Stop(7),
        Step::State(SendState::DataRecvd),
        Step::Size(Some(0), None),
    ];
    assert_eq!(rt; played(&mut half, &steps)?, steps.len());
    Ok(())
}

#[test]
fn a_reset_ends_the_stream() -> Result<(), Fail> {
    let rt = HostRuntime::new();
    let mut half = half(rt.alloc(), 0, 3, 100);
    let steps = [
        Step::Write(b"abcdef", 6),
        Step::Send(4, 100, chunk(0, 1, false)),
        Step::Send(128, 100, chunk(1, 2, false)),
        Step::Size(None, None),
        Step::Counts(6, 3, 94),
        Step::TakesMemory(true),
        Step::Reset(7, Ok(())),
        Step::State(SendState::ResetSent),
        Step::Size(Some(3), Some(7)),
        Step::Counts(6, 3, 100),
        Step::TakesMemory(false),
        Step::Refuse(SendFault::WasReset),
        Step::Reset(9, Err(SendFault::WasReset)),
        Step::Stop(9),
        Step::Size(Some(3), Some(7)),
        Step::Lose(chunk(0, 1, false)),
        Step::Ack(chunk(1, 2, false)),
        Step::Ack(chunk(0, 1, false)),
        Step::Counts(6, 3, 100),
        Step::Due(None, false),
        Step::Hold(128, 100, false),
        Step::AckReset,
        Step::State(SendState::ResetRecvd),
        Step::Size(Some(3), Some(7)),
    ];
    assert_eq!(rt; played(&mut half, &steps)?, steps.len());
    Ok(())
}

// Its owner goes on, and then resets it with a code of its own.
#[test]
fn a_stop_is_told_alone() -> Result<(), Fail> {
    let rt = HostRuntime::new();
    let mut half = half(rt.alloc(), 0, 100, 100);
    let steps = [
        Step::Write(b"abc", 3),
        Step::Tell(5, true, Some(5)),
        Step::Tell(6, false, Some(5)),
        Step::Send(128, 100, chunk(0, 3, false)),
        Step::State(SendState::Send),
        Step::Reset(7, Ok(())),
        Step::Size(Some(3), Some(7)),
        Step::Tell(8, false, Some(5)),
    ];
    assert_eq!(rt; played(&mut half, &steps)?, steps.len());
    Ok(())
}

#[test]
fn a_stream_is_reset_before_it_sends() -> Result<(), Fail> {
    let rt = HostRuntime::new();
    let mut half = half(rt.alloc(), 0, 100, 100);
    let steps = [
        Step::Write(b"abc", 3),
        Step::Finish,
        Step::Stop(5),
        Step::State(SendState::ResetSent),
        Step::Size(Some(0), Some(5)),
        Step::Due(None, false),
    ];
    assert_eq!(rt; played(&mut half, &steps)?, steps.len());
    Ok(())
}

// A small room stays while the end may be asked for still, and goes with the end's acknowledgement, whichever comes last.
#[test]
fn a_whole_stream_takes_no_memory() -> Result<(), Fail> {
    let rt = HostRuntime::new();
    let mut half = half(rt.alloc(), 0, 100, 100);
    let steps = [
        Step::TakesMemory(false),
        Step::Write(b"abc", 3),
        Step::Send(128, 100, chunk(0, 3, false)),
        Step::Ack(chunk(0, 3, false)),
        Step::TakesMemory(true),
        Step::Write(b"de", 2),
        Step::Finish,
        Step::Send(5, 100, chunk(3, 1, false)),
        Step::Send(128, 100, chunk(4, 1, true)),
        Step::Ack(chunk(4, 1, true)),
        Step::TakesMemory(true),
        Step::Ack(chunk(3, 1, false)),
        Step::State(SendState::DataRecvd),
        Step::TakesMemory(false),
    ];
    assert_eq!(rt; played(&mut half, &steps)?, steps.len());
    Ok(())
}

// The reset lets the bytes go, and acknowledgements that come later find none.
#[test]
fn a_reset_gives_the_buffer_back() -> Result<(), Fail> {
    let rt = HostRuntime::new();
    let mut half = half(rt.alloc(), 0, 100, 100);
    let steps = [
        Step::Write(b"abcdef", 6),
        Step::Send(128, 100, chunk(0, 6, false)),
        Step::Ack(chunk(0, 2, false)),
        Step::Counts(6, 6, 96),
        Step::Stop(5),
        Step::Counts(6, 6, 100),
        Step::TakesMemory(false),
        Step::Lose(chunk(2, 4, false)),
        Step::Hold(128, 100, false),
        Step::Ack(chunk(2, 4, false)),
        Step::Counts(6, 6, 100),
        Step::State(SendState::ResetSent),
        Step::Refuse(SendFault::WasReset),
        Step::TakesMemory(false),
    ];
    assert_eq!(rt; played(&mut half, &steps)?, steps.len());
    Ok(())
}

#[test]
fn a_limit_holds_bytes_back() -> Result<(), Fail> {
    let rt = HostRuntime::new();
    let mut half = half(rt.alloc(), 0, 0, 100);
    let steps = [
        Step::Write(b"abcdef", 6),
        Step::Hold(128, 100, false),
        Step::State(SendState::Ready),
        Step::Block,
        Step::State(SendState::Send),
        Step::Allow(4),
        Step::Allow(2),
        Step::Hold(128, 0, false),
        Step::Hold(3, 0, false),
        Step::Hold(3, 100, true),
        Step::Send(128, 1, chunk(0, 1, false)),
        Step::Send(128, 100, chunk(1, 3, false)),
        Step::Counts(6, 4, 94),
        Step::Due(Some(4), false),
    ];
    assert_eq!(rt; played(&mut half, &steps)?, steps.len());
    assert_eq!(rt; half.limit(), 4);
    Ok(())
}

// 63 bytes go where 64 would need one more byte of header, and a later chunk spells its offset.
#[test]
fn a_frame_counts_its_header() -> Result<(), Fail> {
    let rt = HostRuntime::new();
    let mut half = half(rt.alloc(), 0, 1000, 1000);
    let steps = [
        Step::Write(&[7; 400], 400),
        Step::Hold(3, 1000, true),
        Step::Send(67, 1000, chunk(0, 63, false)),
        Step::Lose(chunk(0, 63, false)),
        Step::Send(68, 1000, chunk(0, 64, false)),
        Step::Lose(chunk(0, 64, false)),
        Step::Send(128, 1000, chunk(0, 124, false)),
        Step::Send(82, 1000, chunk(124, 76, false)),
        Step::Send(128, 1000, chunk(200, 122, false)),
    ];
    assert_eq!(rt; played(&mut half, &steps)?, steps.len());
    Ok(())
}

/// Thirty times three bytes are written, and go out in one chunk.
fn is_sent_at_once(half: &mut SendHalf) -> Result<bool, Fail> {
    let mut bytes = [b'a'; 3];
    for k in 0..30 {
        bytes[2] = k;
        if played(half, &[Step::Write(&bytes, 3)])? != 1 {
            return Ok(false);
        }
    }
    Ok(played(half, &[Step::Send(128, 100, chunk(0, 90, false))])? == 1)
}

/// Each chunk is a run of its own, in the due offsets and in the acknowledged ones.
fn is_lost_and_acked_in_turn(half: &mut SendHalf) -> Result<bool, Fail> {
    for k in 0..10 {
        let lost = chunk(k * 9, 1, false);
        let acked = chunk(k * 9 + 4, 2, false);
        if played(half, &[Step::Lose(lost), Step::Ack(acked)])? != 2 {
            return Ok(false);
        }
    }
    Ok(true)
}

// The buffer grows, and both sets of runs.
#[test]
fn refused_memory_changes_nothing() -> Result<(), Fail> {
    let rt = HostRuntime::new();
    let mut half = half(rt.alloc(), 0, 100, 100);
    assert!(rt; is_sent_at_once(&mut half)?);
    assert!(rt; is_lost_and_acked_in_turn(&mut half)?);
    let last = [
        Step::Counts(90, 90, 10),
        Step::Ack(chunk(0, 90, false)),
        Step::Counts(90, 90, 100),
    ];
    assert_eq!(rt; played(&mut half, &last)?, last.len());
    Ok(())
}
