// Made from tests/units/qs_units/src/lost.rattle by rust/erase; not edited by hand.
//! Each test is a list of steps, played by one function: so no test's proof follows the records' value.
use crate::shim::{HostRuntime, assert, assert_eq};
use crate::proved::qs_ranges::NoMemory;
use crate::proved::qs_send::{Item, LostPass, LostRecords, Piece};
use crate::proved::qs_wire::AckRanges;
use crate::shim::test::Fail;

/// A call with what it answers. A piece is named by a number.
#[derive(Clone, Copy)]
enum Step {
    Add(u64, u32),
    DropFirst(u64),
    First(u64, Option<u32>),
    IsHeld(u64, bool),
    Below(u64, Option<u64>),
    Len(usize),
}

fn piece(number: u32) -> Piece {
    Piece::Told(Item::MaxData {
        maximum: u64::from(number),
    })
}

// A refused growth changes nothing that can be asked for, and the next one succeeds, so that the tests pass
// with each allocation refused in turn.
fn add(records: &mut LostRecords, number: u64, value: u32) -> Result<(), NoMemory> {
    let before = (records.len(), records.first(number));
    if records.make_room(number).is_err() && (records.len(), records.first(number)) != before {
        return Err(NoMemory);
    }
    records.make_room(number)?;
    records.add(number, piece(value));
    Ok(())
}

fn is_first(records: &LostRecords, number: u64, expected: Option<u32>) -> bool {
    match (records.first(number), expected) {
        (Some(first), Some(expected)) => first == piece(expected),
        (first, _) => first.is_none() && expected.is_none(),
    }
}

// Whether the step answers what it says.
fn take(records: &mut LostRecords, step: Step) -> Result<bool, NoMemory> {
    match step {
        Step::Add(number, value) => add(records, number, value)?,
        Step::DropFirst(number) => records.drop_first(number),
        Step::First(number, expected) => return Ok(is_first(records, number, expected)),
        Step::IsHeld(number, answer) => return Ok(records.is_held(number) == answer),
        Step::Below(number, answer) => return Ok(records.below(number) == answer),
        Step::Len(answer) => return Ok(records.len() == answer),
    }
    Ok(true)
}

// How many steps answer what they say, up to the first that doesn't.
fn played(records: &mut LostRecords, steps: &[Step]) -> Result<usize, NoMemory> {
    for (count, step) in steps.iter().enumerate() {
        if !take(records, *step)? {
            return Ok(count);
        }
    }
    Ok(steps.len())
}

#[test]
fn late_pieces_leave_in_order() -> Result<(), Fail> {
    let rt = HostRuntime::new();
    let mut records = LostRecords::new(rt.alloc());
    let steps = [
        Step::Add(7, 1),
        Step::Add(7, 2),
        Step::Add(3, 4),
        Step::First(7, Some(1)),
        Step::DropFirst(7),
        Step::First(7, Some(2)),
        Step::Below(7, Some(3)),
        Step::Below(3, None),
        Step::DropFirst(7),
        Step::IsHeld(7, false),
        Step::First(7, None),
        Step::DropFirst(9),
        Step::Add(5, 6),
        Step::Below(u64::MAX, Some(5)),
        Step::Len(2),
    ];
    assert_eq!(rt; played(&mut records, &steps)?, steps.len());
    Ok(())
}

// So many packets, from number 0 on.
fn fill(records: &mut LostRecords, count: u32) -> Result<(), NoMemory> {
    for k in 0..count {
        add(records, u64::from(k), k)?;
    }
    Ok(())
}

// The oldest is the one that was declared lost first, whatever its number, and though a piece of it came later.
#[test]
fn the_oldest_packet_goes() -> Result<(), Fail> {
    let rt = HostRuntime::new();
    let mut records = LostRecords::new(rt.alloc());
    add(&mut records, 1000, 0)?;
    fill(&mut records, 255)?;
    let steps = [
        Step::Len(256),
        Step::Add(1000, 1),
        Step::Len(256),
        Step::First(1000, Some(0)),
        Step::Add(255, 2),
        Step::Len(256),
        Step::IsHeld(1000, false),
        Step::IsHeld(0, true),
        Step::Add(256, 3),
        Step::IsHeld(0, false),
        Step::Below(1000, Some(256)),
    ];
    assert_eq!(rt; played(&mut records, &steps)?, steps.len());
    Ok(())
}

fn next_three(pass: &mut LostPass<'_>, records: &LostRecords) -> [Option<u64>; 3] {
    [pass.next(records), pass.next(records), pass.next(records)]
}

// The ranges 8 to 9 and 2 to 4, of which 3 and 9 were lost, and 0 and 6 beside: each record is looked at once, and each range read.
#[test]
fn a_late_pass_gives_what_the_ranges_name() -> Result<(), Fail> {
    let rt = HostRuntime::new();
    let mut records = LostRecords::new(rt.alloc());
    let steps = [
        Step::Add(6, 1),
        Step::Add(0, 2),
        Step::Add(9, 3),
        Step::Add(3, 4),
    ];
    assert_eq!(rt; played(&mut records, &steps)?, steps.len());
    let ranges = [1, 2, 2];
    let mut pass = LostPass::new(AckRanges::new(9, &ranges));
    assert!(rt; next_three(&mut pass, &records) == [Some(9), Some(3), None]);
    assert!(rt; pass.turns() == 6);
    Ok(())
}
