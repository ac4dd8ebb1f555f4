// Made from tests/units/qs_units/src/records.rattle by rust/erase; not edited by hand.
//! Each test is a list of steps, played by one function: so no test's proof follows the records' value.
use crate::shim::{HostRuntime, SliceCalls, Vec, assert, assert_eq};
use crate::proved::qs_ranges::NoMemory;
use crate::proved::qs_send::{AckPass, Chunk, Item, Piece, Records};
use crate::proved::qs_wire::{AckRanges, StreamId};
use crate::shim::alloc::Global;
use crate::shim::test::Fail;

/// A call with what it answers. A piece is named by a number.
#[derive(Clone, Copy)]
enum Step {
    /// A packet's number, and its first piece and how many follow that.
    Put(u64, u32, u32),
    DropFirst(u64),
    First(u64, Option<u32>),
    Trim,
    Holds(u32, bool),
    IsHeld(u64, bool),
    Below(u64, Option<u64>),
    Greatest(Option<u64>),
}

// Each number has a piece of its own: bytes of stream 4, or one of two control items.
fn piece(number: u32) -> Piece {
    let value = u64::from(number);
    let chunk = Chunk {
        offset: value,
        len: 5,
        fin: false,
    };
    match (StreamId::new(4), number % 3) {
        (Some(stream), 0) => Piece::Data { stream, chunk },
        (_, 1) => Piece::Told(Item::MaxData { maximum: value }),
        _ => Piece::Told(Item::DataBlocked { limit: value }),
    }
}

fn list_of(alloc: Global, pieces: &[Piece]) -> Result<Vec<Piece>, NoMemory> {
    if let Ok(list) = pieces.copied_in(alloc) {
        return Ok(list);
    }
    Ok(pieces.copied_in(alloc)?)
}

// Up to three pieces.
fn pieces_from(alloc: Global, first: u32, more: u32) -> Result<Vec<Piece>, NoMemory> {
    let three = [
        piece(first),
        piece(first.saturating_add(1)),
        piece(first.saturating_add(2)),
    ];
    match more {
        0 => list_of(alloc, &three[..1]),
        1 => list_of(alloc, &three[..2]),
        _ => list_of(alloc, &three),
    }
}

// A refused growth changes nothing that can be asked for, and the next one succeeds, so that the tests pass
// with each allocation refused in turn.
fn grow(records: &mut Records, number: u64) -> Result<(), NoMemory> {
    let before = records.greatest();
    if records.make_room(number).is_err() && records.greatest() != before {
        return Err(NoMemory);
    }
    records.make_room(number)
}

// One piece alone goes into its slot.
fn hold(records: &mut Records, number: u64, pieces: Vec<Piece>) {
    if pieces.len() == 1 {
        records.put_one(number, pieces[0]);
    } else if !pieces.is_empty() {
        records.put(number, pieces);
    }
}

fn put(records: &mut Records, number: u64, pieces: Vec<Piece>) -> bool {
    if pieces.is_empty() || records.make_room(number).is_err() {
        return false;
    }
    match records.greatest() {
        Some(last) => {
            if last >= number {
                return false;
            }
            hold(records, number, pieces);
        }
        None => hold(records, number, pieces),
    }
    true
}

fn puts(
    alloc: Global,
    records: &mut Records,
    number: u64,
    first: u32,
    more: u32,
) -> Result<bool, NoMemory> {
    let pieces = pieces_from(alloc, first, more)?;
    grow(records, number)?;
    Ok(put(records, number, pieces))
}

fn is_first(records: &Records, number: u64, expected: Option<u32>) -> bool {
    match (records.first(number), expected) {
        (Some(first), Some(expected)) => first == piece(expected),
        (first, _) => first.is_none() && expected.is_none(),
    }
}

// Whether the step answers what it says.
fn take(alloc: Global, records: &mut Records, step: Step) -> Result<bool, NoMemory> {
    match step {
        Step::Put(number, first, more) => return puts(alloc, records, number, first, more),
        Step::DropFirst(number) => records.drop_first(number),
        Step::Trim => records.trim(),
        Step::First(number, expected) => return Ok(is_first(records, number, expected)),
        Step::Holds(number, answer) => return Ok(records.holds(piece(number)) == answer),
        Step::IsHeld(number, answer) => return Ok(records.is_held(number) == answer),
        Step::Below(number, answer) => return Ok(records.below(number) == answer),
        Step::Greatest(answer) => return Ok(records.greatest() == answer),
    }
    Ok(true)
}

// How many steps answer what they say, up to the first that doesn't.
fn played(alloc: Global, records: &mut Records, steps: &[Step]) -> Result<usize, NoMemory> {
    for (count, step) in steps.iter().enumerate() {
        if !take(alloc, records, *step)? {
            return Ok(count);
        }
    }
    Ok(steps.len())
}

#[test]
fn pieces_leave_in_order() -> Result<(), Fail> {
    let rt = HostRuntime::new();
    let mut records = Records::new(rt.alloc());
    let steps = [
        Step::Put(3, 10, 2),
        Step::Put(7, 20, 0),
        Step::First(3, Some(10)),
        Step::DropFirst(3),
        Step::First(3, Some(11)),
        Step::DropFirst(5),
        Step::DropFirst(3),
        Step::First(3, Some(12)),
        Step::First(7, Some(20)),
        Step::DropFirst(3),
        Step::First(3, None),
        Step::IsHeld(3, false),
        Step::IsHeld(7, true),
    ];
    assert_eq!(rt; played(rt.alloc(), &mut records, &steps)?, steps.len());
    Ok(())
}

#[test]
fn pieces_of_every_packet_are_held() -> Result<(), Fail> {
    let rt = HostRuntime::new();
    let mut records = Records::new(rt.alloc());
    let steps = [
        Step::Holds(1, false),
        Step::Put(0, 0, 1),
        Step::Put(1, 10, 2),
        Step::Holds(0, true),
        Step::Holds(1, true),
        Step::Holds(10, true),
        Step::Holds(12, true),
        Step::Holds(2, false),
        Step::Holds(9, false),
        Step::DropFirst(0),
        Step::Holds(0, false),
        Step::Holds(1, true),
    ];
    assert_eq!(rt; played(rt.alloc(), &mut records, &steps)?, steps.len());
    Ok(())
}

#[test]
fn numbers_are_found_from_the_greatest_down() -> Result<(), Fail> {
    let rt = HostRuntime::new();
    let mut records = Records::new(rt.alloc());
    let steps = [
        Step::Greatest(None),
        Step::Below(9, None),
        Step::Put(2, 1, 0),
        Step::Put(5, 2, 0),
        Step::Put(6, 3, 0),
        Step::Greatest(Some(6)),
        Step::Below(9, Some(6)),
        Step::Below(6, Some(5)),
        Step::Below(5, Some(2)),
        Step::Below(2, None),
        Step::DropFirst(5),
        Step::Below(6, Some(2)),
    ];
    assert_eq!(rt; played(rt.alloc(), &mut records, &steps)?, steps.len());
    Ok(())
}

// The list of packets grows several times.
#[test]
fn refused_memory_changes_nothing() -> Result<(), Fail> {
    let rt = HostRuntime::new();
    let mut records = Records::new(rt.alloc());
    for k in 0..20u32 {
        let number = u64::from(k);
        let steps = [
            Step::Put(number, k, 1),
            Step::Holds(k, true),
            Step::Below(number, number.checked_sub(1)),
        ];
        assert_eq!(rt; played(rt.alloc(), &mut records, &steps)?, steps.len());
    }
    Ok(())
}

// Empty slots are no records, wherever they stand, and their numbers can be used as long as none above is held.
#[test]
fn empty_slots_are_let_go() -> Result<(), Fail> {
    let rt = HostRuntime::new();
    let mut records = Records::new(rt.alloc());
    let steps = [
        Step::Trim,
        Step::Put(5, 1, 0),
        Step::Put(9, 2, 0),
        Step::DropFirst(5),
        Step::Trim,
        Step::First(9, Some(2)),
        Step::Below(9, None),
        Step::DropFirst(9),
        Step::Greatest(None),
        Step::Put(7, 3, 0),
        Step::Greatest(Some(7)),
        Step::DropFirst(7),
        Step::Trim,
        Step::Put(1 << 60, 4, 0),
        Step::Greatest(Some(1 << 60)),
        Step::IsHeld(7, false),
    ];
    assert_eq!(rt; played(rt.alloc(), &mut records, &steps)?, steps.len());
    Ok(())
}

// So many packets, from number 0 on.
fn fill(alloc: Global, records: &mut Records, count: u32) -> Result<bool, NoMemory> {
    for k in 0..count {
        if !puts(alloc, records, u64::from(k), k, 0)? {
            return Ok(false);
        }
    }
    Ok(true)
}

// Each number that the pass gives loses its record. How many it gives, up to the first that isn't the next one below `count`.
fn taken_from(records: &mut Records, pass: &mut AckPass<'_>, count: u64) -> u64 {
    for k in 0..count {
        if pass.next(records) != Some(count - 1 - k) {
            return k;
        }
        records.drop_first(count - 1 - k);
    }
    count
}

// Each number that the pass gives loses its record. How many it gives.
fn taken_all(records: &mut Records, pass: &mut AckPass<'_>) -> u64 {
    let mut count = 0;
    for _ in 0..1000 {
        match pass.next(records) {
            Some(number) => records.drop_first(number),
            None => return count,
        }
        count += 1;
    }
    count
}

// A thousand packets and one range: a turn for each packet, and one for the range.
#[test]
fn a_pass_takes_a_turn_for_each_packet() -> Result<(), Fail> {
    let rt = HostRuntime::new();
    let mut records = Records::new(rt.alloc());
    assert!(rt; fill(rt.alloc(), &mut records, 1000)?);
    // The length of the first range is 999 (RFC 9000, section 16).
    let ranges = [0x43, 0xe7];
    let mut pass = AckPass::new(AckRanges::new(999, &ranges));
    assert_eq!(rt; taken_from(&mut records, &mut pass, 1000), 1000);
    assert!(rt; pass.next(&records).is_none());
    assert!(rt; pass.turns() == 1001);
    records.trim();
    assert!(rt; records.greatest().is_none());
    Ok(())
}

fn next_three(pass: &mut AckPass<'_>, records: &Records) -> [Option<u64>; 3] {
    [pass.next(records), pass.next(records), pass.next(records)]
}

// The ranges 8 to 9 and 2 to 4, of which 3 and 9 are outstanding, and 0 and 6 beside: a turn for each of the five slots and each range.
#[test]
fn a_pass_gives_what_the_ranges_name() -> Result<(), Fail> {
    let rt = HostRuntime::new();
    let mut records = Records::new(rt.alloc());
    let steps = [
        Step::Put(0, 1, 0),
        Step::Put(3, 2, 0),
        Step::Put(6, 3, 0),
        Step::Put(9, 4, 0),
    ];
    assert_eq!(rt; played(rt.alloc(), &mut records, &steps)?, steps.len());
    let ranges = [1, 2, 2];
    let mut pass = AckPass::new(AckRanges::new(9, &ranges));
    assert!(rt; next_three(&mut pass, &records) == [Some(9), Some(3), None]);
    assert!(rt; pass.turns() == 7);
    Ok(())
}

// Of 300 packets those from 1 on, up to the one before the last, lose their record. The slots of several words are empty.
#[test]
fn a_search_passes_empty_slots() -> Result<(), Fail> {
    let rt = HostRuntime::new();
    let mut records = Records::new(rt.alloc());
    assert!(rt; fill(rt.alloc(), &mut records, 300)?);
    for number in 1..299 {
        records.drop_first(number);
    }
    let steps = [
        Step::Below(300, Some(299)),
        Step::Below(299, Some(0)),
        Step::Below(64, Some(0)),
        Step::DropFirst(0),
        Step::Below(299, None),
        Step::Trim,
        Step::Below(300, Some(299)),
        Step::Below(299, None),
        Step::Put(700, 1, 0),
        Step::Below(700, Some(299)),
        Step::DropFirst(299),
        Step::Trim,
        Step::Below(700, None),
        Step::Put(701, 2, 0),
        Step::DropFirst(701),
        Step::Put(701, 3, 0),
        Step::Below(702, Some(701)),
        Step::Below(701, Some(700)),
        Step::Greatest(Some(701)),
    ];
    assert_eq!(rt; played(rt.alloc(), &mut records, &steps)?, steps.len());
    Ok(())
}

// The ranges 250 to 299, 130 to 199 and 3 to 9, after all of them are acknowledged: nothing is given. A word has bits for 64 numbers, so
// of the first two ranges each lies in two words: five looks, and three ranges that are read.
#[test]
fn a_pass_again_takes_a_turn_for_each_word() -> Result<(), Fail> {
    let rt = HostRuntime::new();
    let mut records = Records::new(rt.alloc());
    assert!(rt; fill(rt.alloc(), &mut records, 300)?);
    // Lengths and gaps from 64 on take two bytes (RFC 9000, section 16).
    let ranges = [49, 49, 0x40, 69, 0x40, 119, 6];
    let mut pass = AckPass::new(AckRanges::new(299, &ranges));
    assert!(rt; taken_all(&mut records, &mut pass) == 127);
    let mut again = AckPass::new(AckRanges::new(299, &ranges));
    assert!(rt; again.next(&records).is_none());
    assert!(rt; again.turns() == 8);
    assert!(rt; records.below(250) == Some(249));
    assert!(rt; records.below(200) == Some(129));
    assert!(rt; records.below(10) == Some(2));
    Ok(())
}
