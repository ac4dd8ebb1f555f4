// Made from crates/qs_ranges/src/changes.rt by rust/erase; not edited by hand.
//! Sets of more than two runs, in blocks.
use crate::shim::Vec;

use crate::proved::qs_ranges::NoMemory;
use crate::proved::qs_ranges::block::Block;
use crate::proved::qs_ranges::blocks::{insert_at, replace, runs_in, span_of, split, take_out};
use crate::proved::qs_ranges::few::{Few, count_few, few_of};

#[inline(never)]
pub(crate) fn insert_many(
    few: &mut Few,
    blocks: &mut Vec<Block>,
    lo: u64,
    hi: u64,
) -> Result<(), NoMemory> {
    debug_assert!(lo < hi);
    debug_assert!(hi <= 1 << 62);
    let count = count_few(*few);
    if lengthen_last(blocks, lo, hi) {
        *few = Few::InBlocks(count);
        return Ok(());
    }
    insert_anywhere(few, blocks, lo, hi)
}

// Packet numbers mostly rise by one, so the last run gets longer most often: tried first, for it searches nothing and moves nothing.
#[inline]
fn lengthen_last(blocks: &mut Vec<Block>, lo: u64, hi: u64) -> bool {
    debug_assert!(lo < hi);
    debug_assert!(hi <= 1 << 62);
    let count = blocks.len();
    if count == 0 {
        return false;
    }
    let at = blocks[count - 1].len() - 1;
    let (start, end) = blocks[count - 1].run(at);
    if lo <= start || end < lo {
        return false;
    }
    blocks[count - 1].replace(at, at + 1, (start, hi.max(end)));
    true
}

fn insert_anywhere(few: &mut Few, blocks: &mut Vec<Block>, lo: u64, hi: u64) -> Result<(), NoMemory> {
    debug_assert!(lo < hi);
    debug_assert!(hi <= 1 << 62);
    let count = count_few(*few);
    *few = Few::InBlocks(count);
    let span = span_of(blocks, lo, hi + 1);
    if !span.some {
        insert_at(blocks, span.block, span.from, (lo, hi))?;
        *few = Few::InBlocks(count + 1);
        return Ok(());
    }
    let gone = runs_in(blocks, span);
    let start = blocks[span.block].run(span.from).0;
    let end = blocks[span.last].run(span.to - 1).1;
    replace(blocks, span, (lo.min(start), hi.max(end)));
    settle(few, blocks, count - gone + 1);
    Ok(())
}

#[inline(never)]
pub(crate) fn remove_many(
    few: &mut Few,
    blocks: &mut Vec<Block>,
    lo: u64,
    hi: u64,
) -> Result<(), NoMemory> {
    debug_assert!(lo < hi);
    debug_assert!(hi <= 1 << 62);
    let count = count_few(*few);
    match cut_blocks(blocks, count, lo, hi) {
        Ok(left) => {
            settle(few, blocks, left);
            Ok(())
        }
        Err(refused) => {
            settle(few, blocks, count);
            Err(refused)
        }
    }
}

// Answers how many runs are left, from which the caller knows whether they go back into the value.
fn cut_blocks(blocks: &mut Vec<Block>, count: usize, lo: u64, hi: u64) -> Result<usize, NoMemory> {
    debug_assert!(lo < hi);
    debug_assert!(hi <= 1 << 62);
    let span = span_of(blocks, lo + 1, hi);
    if !span.some {
        return Ok(count);
    }
    let rest = count - runs_in(blocks, span);
    let start = blocks[span.block].run(span.from).0;
    let end = blocks[span.last].run(span.to - 1).1;
    match (start < lo, hi < end) {
        (false, false) => {
            take_out(blocks, span);
            Ok(rest)
        }
        (true, false) => {
            replace(blocks, span, (start, lo));
            Ok(rest + 1)
        }
        (false, true) => {
            replace(blocks, span, (hi, end));
            Ok(rest + 1)
        }
        (true, true) => {
            split(blocks, span, (start, lo), (hi, end))?;
            Ok(rest + 2)
        }
    }
}

// At two runs or one the block is given back: a stream whose gaps were filled keeps nothing for them. Runs that come and go between two and
// three so take memory each time, which is rare.
fn settle(few: &mut Few, blocks: &mut Vec<Block>, count: usize) {
    *few = Few::InBlocks(count);
    if blocks.is_empty() {
        return;
    }
    if blocks.len() > 1 {
        return;
    }
    if let Some(runs) = few_of(&blocks[0]) {
        *few = runs;
        *blocks = Vec::new(*blocks.allocator());
    }
}

#[inline(never)]
pub(crate) fn copy_runs(blocks: &[Block], into: &mut [(u64, u64)]) -> usize {
    let mut count = 0;
    for block in blocks {
        copy_block(block, into, count);
        count += block.len();
    }
    count
}

fn copy_block(block: &Block, into: &mut [(u64, u64)], at: usize) {
    let end = at + block.len();
    block.copy_to(&mut into[at..end]);
}
