// Made from tests/units/qs_units/src/recv.rattle by rust/erase; not edited by hand.
//! Each test is a list of steps, played by one function: so no test's proof follows the half's value.
use crate::shim::{HostRuntime, assert_eq};

use crate::proved::qs_chunks::ChunkAssembly;
use crate::proved::qs_recv::{
    Assembly, Highest, Read, RecvFault, RecvHalf, RecvState, RingAssembly, Share, Sizes,
};
use crate::shim::alloc::Global;
use crate::shim::test::Fail;

/// A call with what it answers.
#[derive(Clone, Copy)]
enum Step<'a> {
    /// The offset, the bytes and FIN of a frame that breaks nothing.
    Take(u32, &'a [u8], bool),
    /// What is wrong with so many bytes at an offset, with FIN or without.
    Refuse(u32, u32, bool, RecvFault),
    /// The same where nothing is wrong.
    Pass(u32, u32, bool, Highest),
    /// Bytes of which one isn't the one that is stored at its offset.
    Change(u32, &'a [u8]),
    /// Bytes that are those that are stored, as far as some are.
    Keep(u32, &'a [u8]),
    /// The code and the final size of a reset that breaks nothing.
    Reset(u32, u32),
    /// What is wrong with a reset of that final size.
    RefuseReset(u32, RecvFault),
    Stop(u32),
    /// The room, the answer, and the bytes that are handed out.
    Read(usize, Read, &'a [u8]),
    Raise(Option<u64>),
    State(RecvState),
    /// Bytes stored, the highest offset and the taken count.
    Counts(u64, u64, u64),
    /// Bytes read, and the limit.
    Credit(u64, u64),
    /// The final size, the reset's code and the stop's.
    Known(Option<u64>, Option<u64>, Option<u64>),
}

fn take_once<A: Assembly>(
    half: &mut RecvHalf<A>,
    offset: u32,
    bytes: &[u8],
    fin: bool,
) -> Result<(), RecvFault> {
    let offset = u64::from(offset);
    if bytes.len() > 64 {
        return Err(RecvFault::StreamCredit);
    }
    if let Err(fault) = half.check_stream(offset, bytes.len() as u64, fin) {
        return Err(fault);
    }
    if let Err(fault) = half.check_bytes(offset, bytes) {
        return Err(fault);
    }
    half.take_stream(offset, bytes, fin)
}

fn look<A: Assembly>(half: &RecvHalf<A>) -> (Sizes, Option<u64>, RecvState) {
    (half.sizes(), half.final_size(), half.state())
}

// A frame that found no memory is taken again where it changed nothing, so that the tests pass with each allocation refused in turn.
fn take<A: Assembly>(
    half: &mut RecvHalf<A>,
    offset: u32,
    bytes: &[u8],
    fin: bool,
) -> Result<(), RecvFault> {
    let before = look(half);
    let first = take_once(half, offset, bytes, fin);
    if first == Err(RecvFault::NoMemory) && look(half) == before {
        return take_once(half, offset, bytes, fin);
    }
    first
}

fn checks<A: Assembly>(
    half: &RecvHalf<A>,
    offset: u32,
    len: u32,
    fin: bool,
    answer: Result<Highest, RecvFault>,
) -> bool {
    half.check_stream(u64::from(offset), u64::from(len), fin) == answer
}

fn compares<A: Assembly>(
    half: &RecvHalf<A>,
    offset: u32,
    bytes: &[u8],
    answer: Result<(), RecvFault>,
) -> bool {
    bytes.len() <= 64 && half.check_bytes(u64::from(offset), bytes) == answer
}

fn reset<A: Assembly>(half: &mut RecvHalf<A>, code: u32, size: u32) -> Result<(), RecvFault> {
    if let Err(fault) = half.check_reset(u64::from(size)) {
        return Err(fault);
    }
    half.take_reset(u64::from(code), u64::from(size));
    Ok(())
}

fn reads<A: Assembly>(half: &mut RecvHalf<A>, room: usize, answer: Read, bytes: &[u8]) -> bool {
    let mut into = [b'-'; 32];
    if room > 32 || bytes.len() > 32 {
        return false;
    }
    let told = half.read(&mut into[..room]);
    let (front, rest) = into.split_at(bytes.len());
    told == answer && front == bytes && rest.iter().all(|byte| *byte == b'-')
}

// Whether the step answers what it says.
fn answers<A: Assembly>(half: &mut RecvHalf<A>, step: Step) -> bool {
    match step {
        Step::Take(offset, bytes, fin) => take(half, offset, bytes, fin) == Ok(()),
        Step::Refuse(offset, len, fin, fault) => checks(half, offset, len, fin, Err(fault)),
        Step::Pass(offset, len, fin, highest) => checks(half, offset, len, fin, Ok(highest)),
        Step::Change(offset, bytes) => {
            compares(half, offset, bytes, Err(RecvFault::ChangedByte))
        }
        Step::Keep(offset, bytes) => compares(half, offset, bytes, Ok(())),
        Step::Reset(code, size) => reset(half, code, size) == Ok(()),
        Step::RefuseReset(size, fault) => half.check_reset(u64::from(size)) == Err(fault),
        Step::Stop(code) => {
            half.stop(u64::from(code));
            true
        }
        Step::Read(room, answer, bytes) => reads(half, room, answer, bytes),
        Step::Raise(limit) => half.raise() == limit,
        Step::State(state) => half.state() == state,
        Step::Counts(stored, highest, taken) => {
            let sizes = half.sizes();
            (sizes.stored, sizes.spent, sizes.taken) == (stored, highest, taken)
        }
        Step::Credit(read, limit) => (half.read_count(), half.limit()) == (read, limit),
        Step::Known(size, reset, stop) => {
            (half.final_size(), half.reset_code(), half.stop_code()) == (size, reset, stop)
        }
    }
}

// How many steps of a new half answer what they say, up to the first that doesn't.
fn played_on<A: Assembly>(mut half: RecvHalf<A>, steps: &[Step]) -> usize {
    for (count, step) in steps.iter().enumerate() {
        if !answers(&mut half, *step) {
            return count;
        }
    }
    steps.len()
}

// The same of one that is made: none where there is no memory for it.
fn played_over<A: Assembly>(alloc: Global, window: u64, steps: &[Step]) -> usize {
    debug_assert!(1 <= window);
    debug_assert!(window <= 1 << 20);
    match RecvHalf::<A>::new(alloc, window, Share::Half) {
        Ok(half) => played_on(half, steps),
        Err(_refused) => 0,
    }
}

// The same over each kind of assembly: the fewest of them.
fn played(alloc: Global, window: u64, steps: &[Step]) -> usize {
    debug_assert!(1 <= window);
    debug_assert!(window <= 1 << 20);
    played_over::<ChunkAssembly>(alloc, window, steps).min(played_over::<RingAssembly>(
        alloc, window, steps,
    ))
}

fn highest(before: u64, after: u64) -> Highest {
    Highest { before, after }
}

#[test]
fn credit_bounds_the_end() {
    let rt = HostRuntime::new();
    let steps = [
        Step::Refuse(0, 11, false, RecvFault::StreamCredit),
        Step::Refuse(8, 3, false, RecvFault::StreamCredit),
        Step::Pass(0, 10, false, highest(0, 10)),
    ];
    assert_eq!(rt; played(rt.alloc(), 10, &steps), steps.len());
}

#[test]
fn credit_follows_what_is_read() {
    let rt = HostRuntime::new();
    let steps = [
        Step::Take(0, b"0123456789", false),
        Step::Counts(10, 10, 0),
        Step::Read(4, Read::Bytes(4), b"0123"),
        Step::Raise(None),
        Step::Read(1, Read::Bytes(1), b"4"),
        Step::Raise(Some(15)),
        Step::Raise(None),
        Step::Credit(5, 15),
    ];
    assert_eq!(rt; played(rt.alloc(), 10, &steps), steps.len());
}

#[test]
fn the_final_size_grows_the_highest_offset() {
    let rt = HostRuntime::new();
    let steps = [
        Step::Take(0, b"0123456789", false),
        Step::Pass(12, 0, true, highest(10, 12)),
        Step::Take(12, b"", true),
        Step::State(RecvState::SizeKnown),
        Step::Refuse(12, 8, false, RecvFault::FinalSize),
    ];
    assert_eq!(rt; played(rt.alloc(), 15, &steps), steps.len());
}

#[test]
fn the_first_reset_stays() {
    let rt = HostRuntime::new();
    let steps = [
        Step::Take(0, b"01234", false),
        Step::Reset(7, 9),
        Step::State(RecvState::ResetRecvd),
        Step::Counts(0, 9, 9),
        Step::Read(4, Read::Reset(7), b""),
        Step::State(RecvState::ResetRead),
        Step::Reset(9, 9),
        Step::Read(4, Read::Reset(7), b""),
        Step::Known(Some(9), Some(7), None),
    ];
    assert_eq!(rt; played(rt.alloc(), 10, &steps), steps.len());
}

// From the first byte to what the reader is told; the size was known by an end without bytes.
#[test]
fn a_reset_comes_once_the_size_is_known() {
    let rt = HostRuntime::new();
    let steps = [
        Step::Pass(0, 10, false, highest(0, 10)),
        Step::Refuse(0, 11, false, RecvFault::StreamCredit),
        Step::Take(0, b"0123456789", false),
        Step::Read(4, Read::Bytes(4), b"0123"),
        Step::Raise(None),
        Step::Read(1, Read::Bytes(1), b"4"),
        Step::Raise(Some(15)),
        Step::Raise(None),
        Step::Pass(12, 0, true, highest(10, 12)),
        Step::Take(12, b"", true),
        Step::State(RecvState::SizeKnown),
        Step::Refuse(12, 8, false, RecvFault::FinalSize),
        Step::Reset(7, 12),
        Step::State(RecvState::ResetRecvd),
        Step::Counts(0, 12, 12),
        Step::Read(4, Read::Reset(7), b""),
        Step::State(RecvState::ResetRead),
        Step::Reset(9, 12),
        Step::Read(4, Read::Reset(7), b""),
        Step::State(RecvState::ResetRead),
        Step::Known(Some(12), Some(7), None),
    ];
    assert_eq!(rt; played(rt.alloc(), 10, &steps), steps.len());
}

#[test]
fn data_is_read_in_order() {
    let rt = HostRuntime::new();
    let steps = [
        Step::Take(5, b"fgh", true),
        Step::Take(0, b"abc", false),
        Step::Take(2, b"cdef", false),
        Step::State(RecvState::DataRecvd),
        Step::Read(16, Read::Bytes(8), b"abcdefgh"),
        Step::Take(4, b"XXXX", false),
        Step::Counts(0, 8, 8),
        Step::Read(16, Read::End, b""),
        Step::State(RecvState::DataRead),
    ];
    assert_eq!(rt; played(rt.alloc(), 10, &steps), steps.len());
}

#[test]
fn a_final_size_is_kept_after_the_end() {
    let rt = HostRuntime::new();
    let steps = [
        Step::Take(0, b"abcde", true),
        Step::Refuse(5, 1, true, RecvFault::FinalSize),
        Step::RefuseReset(4, RecvFault::FinalSize),
        Step::Read(8, Read::Bytes(5), b"abcde"),
        Step::Read(8, Read::End, b""),
        Step::Refuse(0, 4, true, RecvFault::FinalSize),
        Step::Known(Some(5), None, None),
    ];
    assert_eq!(rt; played(rt.alloc(), 10, &steps), steps.len());
}

#[test]
fn a_final_size_is_not_below_what_came() {
    let rt = HostRuntime::new();
    let steps = [
        Step::Take(0, b"abcde", false),
        Step::Refuse(0, 4, true, RecvFault::FinalSize),
        Step::RefuseReset(4, RecvFault::FinalSize),
    ];
    assert_eq!(rt; played(rt.alloc(), 10, &steps), steps.len());
}

#[test]
fn a_stop_throws_away_and_counts() {
    let rt = HostRuntime::new();
    let steps = [
        Step::Take(0, b"abc", false),
        Step::Stop(7),
        Step::Stop(8),
        Step::Known(None, None, Some(7)),
        Step::Read(4, Read::Wait, b""),
        Step::Take(3, b"d", false),
        Step::Counts(0, 4, 4),
    ];
    assert_eq!(rt; played(rt.alloc(), 10, &steps), steps.len());
}

#[test]
fn a_reset_counts_its_final_size() {
    let rt = HostRuntime::new();
    let steps = [
        Step::Take(0, b"abc", false),
        Step::RefuseReset(11, RecvFault::StreamCredit),
        Step::Reset(7, 5),
        Step::Counts(0, 5, 5),
    ];
    assert_eq!(rt; played(rt.alloc(), 10, &steps), steps.len());
}

#[test]
fn an_empty_stream_ends_at_once() {
    let rt = HostRuntime::new();
    let ended = [
        Step::Read(4, Read::Wait, b""),
        Step::Take(0, b"", true),
        Step::Read(4, Read::End, b""),
    ];
    assert_eq!(rt; played(rt.alloc(), 10, &ended), ended.len());
    let broken_off = [Step::Reset(7, 0), Step::Read(4, Read::Reset(7), b"")];
    assert_eq!(rt; played(rt.alloc(), 10, &broken_off), broken_off.len());
}

#[test]
fn a_read_without_room_tells_whether_a_byte_is_next() {
    let rt = HostRuntime::new();
    let steps = [
        Step::Read(0, Read::Wait, b""),
        Step::Take(0, b"a", false),
        Step::Read(0, Read::Bytes(0), b""),
    ];
    assert_eq!(rt; played(rt.alloc(), 10, &steps), steps.len());
}

// What was read isn't compared. The last bytes wrap in a ring.
#[test]
fn a_changed_byte_is_told() {
    let rt = HostRuntime::new();
    let steps = [
        Step::Take(0, b"abcdef", false),
        Step::Read(4, Read::Bytes(4), b"abcd"),
        Step::Raise(Some(12)),
        Step::Take(7, b"hijk", false),
        Step::Keep(0, b"XXXXefXhijkX"),
        Step::Change(5, b"X"),
        Step::Change(3, b"XefXhXjk"),
        Step::Change(6, b"XhijX"),
        Step::Take(6, b"ghijkl", false),
        Step::Change(6, b"X"),
        Step::Read(8, Read::Bytes(8), b"efghijkl"),
        Step::Keep(0, b"XXXXXXXXXXXX"),
    ];
    assert_eq!(rt; played(rt.alloc(), 8, &steps), steps.len());
}

#[test]
fn what_is_thrown_away_is_not_compared() {
    let rt = HostRuntime::new();
    let steps = [
        Step::Take(0, b"ab", false),
        Step::Change(0, b"aX"),
        Step::Stop(7),
        Step::Keep(0, b"aX"),
    ];
    assert_eq!(rt; played(rt.alloc(), 8, &steps), steps.len());
}

#[test]
fn a_frame_fills_the_gaps() {
    let rt = HostRuntime::new();
    let steps = [
        Step::Take(1, b"B", false),
        Step::Take(4, b"DD", false),
        Step::Take(0, b"1B34DD78", false),
        Step::Counts(8, 8, 0),
        Step::Read(10, Read::Bytes(8), b"1B34DD78"),
    ];
    assert_eq!(rt; played(rt.alloc(), 64, &steps), steps.len());
}

// The same places of a ring are used again.
#[test]
fn bytes_follow_what_was_read() {
    let rt = HostRuntime::new();
    let steps = [
        Step::Take(0, b"abcdef", false),
        Step::Read(6, Read::Bytes(6), b"abcdef"),
        Step::Raise(Some(14)),
        Step::Take(6, b"ghijklmn", false),
        Step::Counts(8, 14, 6),
        Step::Read(16, Read::Bytes(8), b"ghijklmn"),
        Step::Raise(Some(22)),
        Step::Take(15, b"pqrst", true),
        Step::Read(4, Read::Wait, b""),
        Step::Take(12, b"XXo", false),
        Step::Read(4, Read::Bytes(4), b"opqr"),
        Step::Read(4, Read::Bytes(2), b"st"),
        Step::Read(4, Read::End, b""),
    ];
    assert_eq!(rt; played(rt.alloc(), 8, &steps), steps.len());
}

// Bytes come alone, before others, over them and behind them: each memory that may be wanted is.
#[test]
fn refused_frames_change_nothing() {
    let rt = HostRuntime::new();
    let steps = [
        Step::Take(8, b"ij", false),
        Step::Take(4, b"ef", false),
        Step::Take(0, b"abcdefghijklmno", false),
        Step::Take(15, b"0123456789", true),
        Step::Counts(25, 25, 0),
        Step::Read(30, Read::Bytes(25), b"abcdefghijklmno0123456789"),
        Step::Read(30, Read::End, b""),
    ];
    assert_eq!(rt; played(rt.alloc(), 64, &steps), steps.len());
}

// A half that stores nothing any more answers as before.
#[test]
fn a_half_that_was_read_to_its_end_answers_still() {
    let rt = HostRuntime::new();
    let steps = [
        Step::Take(0, b"abc", true),
        Step::Read(8, Read::Bytes(3), b"abc"),
        Step::Read(8, Read::End, b""),
        Step::State(RecvState::DataRead),
        Step::Counts(0, 3, 3),
        Step::Credit(3, 10),
        Step::Refuse(3, 1, false, RecvFault::FinalSize),
        Step::Refuse(0, 2, true, RecvFault::FinalSize),
        Step::Pass(1, 2, false, highest(3, 3)),
        Step::Keep(0, b"XYZ"),
        Step::Take(1, b"XX", true),
        Step::RefuseReset(4, RecvFault::FinalSize),
        Step::Reset(9, 3),
        Step::Known(Some(3), None, None),
        Step::Raise(None),
        Step::Stop(7),
        Step::Known(Some(3), None, None),
        Step::Read(8, Read::End, b""),
        Step::State(RecvState::DataRead),
        Step::Counts(0, 3, 3),
    ];
    assert_eq!(rt; played(rt.alloc(), 10, &steps), steps.len());
}

// Offsets are noted without their bytes, first one after the other, then with a hole.
#[test]
fn a_stopped_half_counts_what_comes() {
    let rt = HostRuntime::new();
    let steps = [
        Step::Stop(7),
        Step::Take(0, b"abcd", false),
        Step::Counts(0, 4, 4),
        Step::Raise(None),
        Step::Take(2, b"cdef", false),
        Step::Counts(0, 6, 6),
        Step::Raise(Some(16)),
        Step::Take(8, b"ij", true),
        Step::Counts(0, 10, 10),
        Step::State(RecvState::SizeKnown),
        Step::Read(4, Read::Wait, b""),
        Step::Take(6, b"gh", false),
        Step::State(RecvState::DataRecvd),
        Step::Read(4, Read::End, b""),
        Step::Known(Some(10), None, Some(7)),
        Step::Credit(0, 16),
        Step::Take(6, b"gh", false),
        Step::State(RecvState::DataRead),
    ];
    assert_eq!(rt; played(rt.alloc(), 10, &steps), steps.len());
}

#[test]
fn a_half_whose_reset_was_told_keeps_its_code() {
    let rt = HostRuntime::new();
    let steps = [
        Step::Take(0, b"ab", false),
        Step::Reset(9, 5),
        Step::State(RecvState::ResetRecvd),
        Step::Read(4, Read::Reset(9), b""),
        Step::State(RecvState::ResetRead),
        Step::Take(2, b"cd", false),
        Step::Refuse(4, 2, false, RecvFault::FinalSize),
        Step::Reset(8, 5),
        Step::Known(Some(5), Some(9), None),
        Step::Counts(0, 5, 5),
        Step::Read(4, Read::Reset(9), b""),
    ];
    assert_eq!(rt; played(rt.alloc(), 10, &steps), steps.len());
}

#[test]
fn a_reset_may_come_alone() {
    let rt = HostRuntime::new();
    let steps = [
        Step::RefuseReset(11, RecvFault::StreamCredit),
        Step::Reset(9, 6),
        Step::Counts(0, 6, 6),
        Step::Read(4, Read::Reset(9), b""),
        Step::Known(Some(6), Some(9), None),
        Step::State(RecvState::ResetRead),
    ];
    assert_eq!(rt; played(rt.alloc(), 10, &steps), steps.len());
}
