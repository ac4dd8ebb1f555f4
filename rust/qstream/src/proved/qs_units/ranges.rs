// Made from tests/units/qs_units/src/ranges.rattle by rust/erase; not edited by hand.
//! Most tests are lists of steps, played by one function: so their proofs don't follow the set's value.
use crate::shim::{HostRuntime, assert, assert_eq};
use crate::proved::qs_ranges::{NoMemory, RangeSet};
use crate::shim::alloc::Global;
use crate::shim::test::Fail;

/// A call with what it answers, or a look at the set.
#[derive(Clone, Copy)]
enum Step<'a> {
    /// The numbers from one on and below another come in.
    Insert(u64, u64),
    /// They go.
    Remove(u64, u64),
    DropBelow(u64),
    /// The longest runs, rising.
    Pairs(&'a [(u64, u64)]),
    /// The lowest member.
    First(Option<u64>),
    /// What is left from a number on of the run that has it, or the next run.
    RunFrom(u64, Option<(u64, u64)>),
    /// A number, and the lowest from it on that is no member.
    FirstMissing(u64, u64),
    Has(u64, bool),
    /// Whether each number from one on and below another is a member.
    Covers(u64, u64, bool),
}

/// No range ends above.
const MAX_END: u64 = 1 << 62;

fn insert(set: &mut RangeSet, lo: u64, hi: u64) -> Result<bool, NoMemory> {
    if lo > hi || hi > MAX_END {
        return Ok(false);
    }
    set.insert(lo, hi)?;
    Ok(true)
}

fn remove(set: &mut RangeSet, lo: u64, hi: u64) -> Result<bool, NoMemory> {
    if lo > hi || hi > MAX_END {
        return Ok(false);
    }
    set.remove(lo, hi)?;
    Ok(true)
}

fn has_pairs(set: &RangeSet, pairs: &[(u64, u64)]) -> bool {
    let mut found = [(0, 0); 32];
    if set.count() > found.len() {
        return false;
    }
    let count = set.copy_pairs(&mut found);
    &found[..count] == pairs && set.count() == pairs.len()
}

// Whether the step answers what it says.
fn answers(set: &mut RangeSet, step: Step) -> Result<bool, NoMemory> {
    match step {
        Step::Insert(lo, hi) => return insert(set, lo, hi),
        Step::Remove(lo, hi) => return remove(set, lo, hi),
        Step::DropBelow(n) => set.drop_below(n),
        Step::Pairs(pairs) => return Ok(has_pairs(set, pairs)),
        Step::First(first) => return Ok(set.first() == first),
        Step::RunFrom(n, run) => return Ok(set.run_from(n) == run),
        Step::FirstMissing(n, missing) => return Ok(set.first_missing(n) == missing),
        Step::Has(n, is_member) => return Ok(set.has(n) == is_member),
        Step::Covers(lo, hi, are_members) => return Ok(set.covers(lo, hi) == are_members),
    }
    Ok(true)
}

// How many steps of a new set answer what they say, up to the first that doesn't.
fn played(alloc: Global, steps: &[Step]) -> Result<usize, NoMemory> {
    let mut set = RangeSet::new(alloc);
    for (count, step) in steps.iter().enumerate() {
        if !answers(&mut set, *step)? {
            return Ok(count);
        }
    }
    Ok(steps.len())
}

#[test]
fn insert_joins_runs() -> Result<(), Fail> {
    let rt = HostRuntime::new();
    let over = [
        Step::Insert(5, 8),
        Step::Insert(0, 3),
        Step::Insert(2, 6),
        Step::Pairs(&[(0, 8)]),
    ];
    assert_eq!(rt; played(rt.alloc(), &over)?, over.len());
    let beside = [
        Step::Insert(0, 3),
        Step::Insert(3, 5),
        Step::Pairs(&[(0, 5)]),
    ];
    assert_eq!(rt; played(rt.alloc(), &beside)?, beside.len());
    Ok(())
}

#[test]
fn remove_splits_a_run() -> Result<(), Fail> {
    let rt = HostRuntime::new();
    let steps = [
        Step::Insert(0, 8),
        Step::Remove(2, 4),
        Step::Pairs(&[(0, 2), (4, 8)]),
        Step::RunFrom(3, Some((4, 8))),
        Step::RunFrom(5, Some((5, 8))),
        Step::RunFrom(8, None),
        Step::First(Some(0)),
        Step::FirstMissing(0, 2),
        Step::FirstMissing(4, 8),
        Step::Has(1, true),
        Step::Has(2, false),
        Step::Has(7, true),
        Step::Has(8, false),
        Step::Covers(4, 8, true),
        Step::Covers(1, 5, false),
        Step::Covers(3, 3, true),
        Step::DropBelow(5),
        Step::Pairs(&[(5, 8)]),
    ];
    assert_eq!(rt; played(rt.alloc(), &steps)?, steps.len());
    Ok(())
}

#[test]
fn empty_ranges_change_nothing() -> Result<(), Fail> {
    let rt = HostRuntime::new();
    let steps = [
        Step::Insert(0, 8),
        Step::Insert(4, 4),
        Step::Insert(20, 20),
        Step::Remove(4, 4),
        Step::DropBelow(0),
        Step::Pairs(&[(0, 8)]),
        Step::Covers(30, 30, true),
    ];
    assert_eq!(rt; played(rt.alloc(), &steps)?, steps.len());
    Ok(())
}

#[test]
fn inserts_at_the_end_stay_in_order() -> Result<(), Fail> {
    let rt = HostRuntime::new();
    let steps = [
        Step::Insert(0, 2),
        Step::Insert(2, 4),
        Step::Insert(6, 7),
        Step::Insert(9, 12),
        Step::Insert(10, 14),
        Step::Pairs(&[(0, 4), (6, 7), (9, 14)]),
    ];
    assert_eq!(rt; played(rt.alloc(), &steps)?, steps.len());
    Ok(())
}

#[test]
fn insert_joins_the_runs_that_it_spans() -> Result<(), Fail> {
    let rt = HostRuntime::new();
    let steps = [
        Step::Insert(0, 1),
        Step::Insert(3, 4),
        Step::Insert(6, 7),
        Step::Insert(9, 10),
        Step::Insert(20, 21),
        Step::Insert(3, 9),
        Step::Pairs(&[(0, 1), (3, 10), (20, 21)]),
    ];
    assert_eq!(rt; played(rt.alloc(), &steps)?, steps.len());
    Ok(())
}

#[test]
fn remove_takes_out_whole_runs() -> Result<(), Fail> {
    let rt = HostRuntime::new();
    let steps = [
        Step::Insert(0, 2),
        Step::Insert(4, 6),
        Step::Insert(8, 10),
        Step::Insert(12, 14),
        Step::Remove(1, 13),
        Step::Pairs(&[(0, 1), (13, 14)]),
        Step::Remove(0, 14),
        Step::First(None),
    ];
    assert_eq!(rt; played(rt.alloc(), &steps)?, steps.len());
    Ok(())
}

#[test]
fn drop_below_takes_out_the_front() -> Result<(), Fail> {
    let rt = HostRuntime::new();
    let steps = [
        Step::Insert(2, 4),
        Step::Insert(6, 9),
        Step::Insert(12, 14),
        Step::DropBelow(2),
        Step::First(Some(2)),
        Step::DropBelow(7),
        Step::Pairs(&[(7, 9), (12, 14)]),
        Step::DropBelow(u64::MAX),
        Step::Pairs(&[]),
    ];
    assert_eq!(rt; played(rt.alloc(), &steps)?, steps.len());
    Ok(())
}

#[test]
fn every_number_fits() -> Result<(), Fail> {
    let rt = HostRuntime::new();
    let steps = [
        Step::Insert(0, MAX_END),
        Step::FirstMissing(0, 4611686018427387904),
        Step::Pairs(&[(0, 4611686018427387904)]),
    ];
    assert_eq!(rt; played(rt.alloc(), &steps)?, steps.len());
    Ok(())
}

// A third run, and two again, each time at another place.
#[test]
fn three_runs_become_two_again() -> Result<(), Fail> {
    let rt = HostRuntime::new();
    let steps = [
        Step::Insert(20, 30),
        Step::Insert(0, 10),
        Step::Pairs(&[(0, 10), (20, 30)]),
        Step::Insert(40, 50),
        Step::Pairs(&[(0, 10), (20, 30), (40, 50)]),
        Step::Insert(10, 20),
        Step::Pairs(&[(0, 30), (40, 50)]),
        Step::Remove(44, 46),
        Step::Pairs(&[(0, 30), (40, 44), (46, 50)]),
        Step::Remove(40, 44),
        Step::Pairs(&[(0, 30), (46, 50)]),
        Step::Remove(10, 20),
        Step::Pairs(&[(0, 10), (20, 30), (46, 50)]),
        Step::Remove(5, 48),
        Step::Pairs(&[(0, 5), (48, 50)]),
        Step::FirstMissing(1, 5),
        Step::Covers(48, 50, true),
        Step::Covers(4, 6, false),
        Step::Insert(30, 31),
        Step::Remove(0, 49),
        Step::Pairs(&[(49, 50)]),
        Step::Remove(0, 60),
        Step::Pairs(&[]),
    ];
    assert_eq!(rt; played(rt.alloc(), &steps)?, steps.len());
    Ok(())
}

// Run with each allocation refused in turn, a refused call leaves the pairs, and the next one succeeds.
#[test]
fn refused_inserts_change_nothing() -> Result<(), Fail> {
    let rt = HostRuntime::new();
    let pairs = [
        (0, 1),
        (2, 3),
        (4, 5),
        (6, 7),
        (8, 9),
        (10, 11),
        (12, 13),
        (14, 15),
        (16, 17),
    ];
    let mut set = RangeSet::new(rt.alloc());
    for (k, &(lo, hi)) in pairs.iter().enumerate() {
        if set.insert(lo, hi).is_err() {
            assert!(rt; has_pairs(&set, &pairs[..k]));
            set.insert(lo, hi)?;
        }
        assert!(rt; has_pairs(&set, &pairs[..k + 1]));
    }
    Ok(())
}

#[test]
fn refused_removals_change_nothing() -> Result<(), Fail> {
    let rt = HostRuntime::new();
    let states: [&[(u64, u64)]; 5] = [
        &[(0, 9)],
        &[(0, 1), (2, 9)],
        &[(0, 1), (2, 3), (4, 9)],
        &[(0, 1), (2, 3), (4, 5), (6, 9)],
        &[(0, 1), (2, 3), (4, 5), (6, 7), (8, 9)],
    ];
    let mut set = RangeSet::new(rt.alloc());
    if set.insert(0, 9).is_err() {
        set.insert(0, 9)?;
    }
    for k in 0..4 {
        let at = k as u64 * 2 + 1;
        if set.remove(at, at + 1).is_err() {
            assert!(rt; has_pairs(&set, states[k]));
            set.remove(at, at + 1)?;
        }
        assert!(rt; has_pairs(&set, states[k + 1]));
    }
    Ok(())
}
