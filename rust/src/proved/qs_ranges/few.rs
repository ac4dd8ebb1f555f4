// Made from crates/qs_ranges/src/few.rt by rust/erase; not edited by hand.
//! Sets of two runs at most. Nearly every set is one, as of a stream with one gap: it stands in the value and takes no memory.
use crate::shim::Vec;

use crate::proved::qs_ranges::NoMemory;
use crate::proved::qs_ranges::block::Block;

/// More runs are in blocks, and then the value keeps their count, so that asking for it costs no walk.
#[derive(Clone, Copy)]
pub(crate) enum Few {
    InBlocks(usize),
    One((u64, u64)),
    Two((u64, u64), (u64, u64)),
}

/// Only a third run needs memory.
#[inline(always)]
pub(crate) fn insert_few(
    few: &mut Few,
    blocks: &mut Vec<Block>,
    lo: u64,
    hi: u64,
) -> Result<(), NoMemory> {
    debug_assert!(lo < hi);
    debug_assert!(hi <= 1 << 62);
    match *few {
        Few::InBlocks(_) => *few = Few::One((lo, hi)),
        Few::One(run) if run.1 < lo => *few = Few::Two(run, (lo, hi)),
        Few::One(run) if hi < run.0 => *few = Few::Two((lo, hi), run),
        Few::One(run) => *few = Few::One((run.0.min(lo), run.1.max(hi))),
        Few::Two(low, high) => return add_to_two(few, blocks, low, high, lo, hi),
    }
    Ok(())
}

fn add_to_two(
    few: &mut Few,
    blocks: &mut Vec<Block>,
    low: (u64, u64),
    high: (u64, u64),
    lo: u64,
    hi: u64,
) -> Result<(), NoMemory> {
    debug_assert!(lo < hi);
    debug_assert!(hi <= 1 << 62);
    if low.1 < lo {
        if high.1 < lo {
            return put_three(few, blocks, low, high, (lo, hi));
        }
        if hi < high.0 {
            return put_three(few, blocks, low, (lo, hi), high);
        }
        *few = Few::Two(low, (high.0.min(lo), high.1.max(hi)));
        return Ok(());
    }
    if hi < low.0 {
        return put_three(few, blocks, (lo, hi), low, high);
    }
    if hi < high.0 {
        *few = Few::Two((low.0.min(lo), low.1.max(hi)), high);
        return Ok(());
    }
    *few = Few::One((low.0.min(lo), high.1.max(hi)));
    Ok(())
}

/// Only a third run needs memory: one that is cut in two.
#[inline]
pub(crate) fn remove_few(
    few: &mut Few,
    blocks: &mut Vec<Block>,
    lo: u64,
    hi: u64,
) -> Result<(), NoMemory> {
    debug_assert!(lo < hi);
    debug_assert!(hi <= 1 << 62);
    match *few {
        Few::InBlocks(_) => *few = Few::InBlocks(0),
        Few::One(run) => *few = without_range_of(run, lo, hi),
        Few::Two(low, high) => return take_from_two(few, blocks, low, high, lo, hi),
    }
    Ok(())
}

fn without_range_of(run: (u64, u64), lo: u64, hi: u64) -> Few {
    debug_assert!(lo < hi);
    let (start, end) = run;
    if end <= lo || hi <= start {
        return Few::One(run);
    }
    match (start < lo, hi < end) {
        (false, false) => Few::InBlocks(0),
        (true, false) => Few::One((start, lo)),
        (false, true) => Few::One((hi, end)),
        (true, true) => Few::Two((start, lo), (hi, end)),
    }
}

#[inline(never)]
fn take_from_two(
    few: &mut Few,
    blocks: &mut Vec<Block>,
    low: (u64, u64),
    high: (u64, u64),
    lo: u64,
    hi: u64,
) -> Result<(), NoMemory> {
    debug_assert!(lo < hi);
    if hi <= high.0 {
        return take_from_low(few, blocks, low, high, lo, hi);
    }
    if low.1 <= lo {
        return take_from_high(few, blocks, low, high, lo, hi);
    }
    match (low.0 < lo, hi < high.1) {
        (false, false) => *few = Few::InBlocks(0),
        (true, false) => *few = Few::One((low.0, lo)),
        (false, true) => *few = Few::One((hi, high.1)),
        (true, true) => *few = Few::Two((low.0, lo), (hi, high.1)),
    }
    Ok(())
}

fn take_from_low(
    few: &mut Few,
    blocks: &mut Vec<Block>,
    low: (u64, u64),
    high: (u64, u64),
    lo: u64,
    hi: u64,
) -> Result<(), NoMemory> {
    debug_assert!(lo < hi);
    if hi <= low.0 || low.1 <= lo {
        return Ok(());
    }
    match (low.0 < lo, hi < low.1) {
        (false, false) => *few = Few::One(high),
        (true, false) => *few = Few::Two((low.0, lo), high),
        (false, true) => *few = Few::Two((hi, low.1), high),
        (true, true) => return put_three(few, blocks, (low.0, lo), (hi, low.1), high),
    }
    Ok(())
}

fn take_from_high(
    few: &mut Few,
    blocks: &mut Vec<Block>,
    low: (u64, u64),
    high: (u64, u64),
    lo: u64,
    hi: u64,
) -> Result<(), NoMemory> {
    debug_assert!(lo < hi);
    if hi <= high.0 || high.1 <= lo {
        return Ok(());
    }
    match (high.0 < lo, hi < high.1) {
        (false, false) => *few = Few::One(low),
        (true, false) => *few = Few::Two(low, (high.0, lo)),
        (false, true) => *few = Few::Two(low, (hi, high.1)),
        (true, true) => return put_three(few, blocks, low, (high.0, lo), (hi, high.1)),
    }
    Ok(())
}

// The value changes last: if memory is refused, the set is as it was.
fn put_three(
    few: &mut Few,
    blocks: &mut Vec<Block>,
    low: (u64, u64),
    middle: (u64, u64),
    high: (u64, u64),
) -> Result<(), NoMemory> {
    let mut block = Block::of(*blocks.allocator(), low)?;
    block.insert(1, middle)?;
    block.insert(2, high)?;
    blocks.push(block)?;
    *few = Few::InBlocks(3);
    Ok(())
}

#[inline]
pub(crate) fn few_of(block: &Block) -> Option<Few> {
    match block.len() {
        1 => Some(Few::One(block.run(0))),
        2 => Some(Few::Two(block.run(0), block.run(1))),
        _ => None,
    }
}

#[inline]
pub(crate) fn few_above(few: Few, n: u64) -> Option<(u64, u64)> {
    let run = match few {
        Few::InBlocks(_) => return None,
        Few::One(run) => run,
        Few::Two(low, high) => { if n < low.1 { low } else { high } }
    };
    one_above(run, n)
}

fn one_above(run: (u64, u64), n: u64) -> Option<(u64, u64)> {
    if n < run.1 { Some(run) } else { None }
}

#[inline]
pub(crate) fn few_above_two(few: Few, n: u64) -> (Option<(u64, u64)>, Option<(u64, u64)>) {
    match few {
        Few::InBlocks(_) => (None, None),
        Few::One(run) => (one_above(run, n), None),
        Few::Two(low, high) => {
            if n < low.1 {
                return (Some(low), Some(high));
            }
            (one_above(high, n), None)
        }
    }
}

#[inline]
pub(crate) fn copy_few(few: Few, into: &mut [(u64, u64)]) -> usize {
    match few {
        Few::InBlocks(_) => 0,
        Few::One(run) => {
            into[0] = run;
            1
        }
        Few::Two(low, high) => {
            into[0] = low;
            into[1] = high;
            2
        }
    }
}

#[inline]
pub(crate) fn count_few(few: Few) -> usize {
    match few {
        Few::InBlocks(count) => count,
        Few::One(_) => 1,
        Few::Two(_, _) => 2,
    }
}
