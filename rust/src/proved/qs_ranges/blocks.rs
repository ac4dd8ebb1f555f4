// Made from crates/qs_ranges/src/blocks.rt by rust/erase; not edited by hand.
//! Many runs, in blocks of neighbouring ones. What comes or goes moves the runs of its block, and the list of blocks only if a block is
//! split or goes.
use crate::shim::Vec;

use crate::proved::qs_ranges::NoMemory;
use crate::proved::qs_ranges::block::{Block, MOST_RUNS};

/// The runs from one place on and before another. An empty span still has a place: where a run would go in.
#[derive(Clone, Copy)]
pub(crate) struct Span {
    pub some: bool,
    pub block: usize,
    pub from: usize,
    pub last: usize,
    pub to: usize,
}

/// `NoMemory` leaves the runs as they were: a block that needs room gets it before anything moves.
#[inline]
pub(crate) fn insert_at(
    blocks: &mut Vec<Block>,
    block: usize,
    at: usize,
    run: (u64, u64),
) -> Result<(), NoMemory> {
    if block == blocks.len() {
        return insert_before(blocks, block, run);
    }
    if at == 0 && blocks[block].len() == MOST_RUNS {
        return insert_before(blocks, block, run);
    }
    let (roomy, spot) = make_room(blocks, block, at)?;
    blocks[roomy].insert(spot, run)
}

#[inline]
pub(crate) fn replace(blocks: &mut Vec<Block>, span: Span, run: (u64, u64)) {
    if span.block == span.last {
        blocks[span.block].replace(span.from, span.to, run);
        return;
    }
    end_with(blocks, span.block, span.from, run);
    let last = cut_front(blocks, span.last, span.to);
    drop_blocks(blocks, span.block + 1, last);
}

/// `NoMemory` leaves the runs as they were, and comes only for one run: of two or more one makes room for the new one.
#[inline]
pub(crate) fn split(
    blocks: &mut Vec<Block>,
    span: Span,
    left: (u64, u64),
    right: (u64, u64),
) -> Result<(), NoMemory> {
    if span.block < span.last {
        end_with(blocks, span.block, span.from, left);
        start_with(blocks, span.last, span.to, right);
        drop_blocks(blocks, span.block + 1, span.last);
        return Ok(());
    }
    if span.from + 1 < span.to {
        blocks[span.block].replace_by_two(span.from, span.to, left, right);
        return Ok(());
    }
    split_one(blocks, span.block, span.from, left, right)
}

/// One look at each block between, since a block knows its count.
#[inline]
pub(crate) fn runs_in(blocks: &[Block], span: Span) -> usize {
    if span.block == span.last {
        return span.to - span.from;
    }
    let mut count = blocks[span.block].len() - span.from;
    for at in span.block + 1..span.last {
        count += blocks[at].len();
    }
    count + span.to
}

fn split_one(
    blocks: &mut Vec<Block>,
    block: usize,
    at: usize,
    left: (u64, u64),
    right: (u64, u64),
) -> Result<(), NoMemory> {
    let (roomy, spot) = make_room(blocks, block, at)?;
    blocks[roomy].split(spot, left, right)
}

#[inline]
pub(crate) fn take_out(blocks: &mut Vec<Block>, span: Span) {
    if span.block < span.last {
        let first = cut_back(blocks, span.block, span.from);
        let last = cut_front(blocks, span.last, span.to);
        drop_blocks(blocks, first, last);
        return;
    }
    if span.from == 0 && span.to == blocks[span.block].len() {
        drop_blocks(blocks, span.block, span.block + 1);
        return;
    }
    blocks[span.block].take_out(span.from, span.to);
}

// Behind the runs of the block before, while that isn't full: so runs that come in order fill their blocks, and a full block at the end
// stays full.
#[inline(always)]
fn insert_before(blocks: &mut Vec<Block>, block: usize, run: (u64, u64)) -> Result<(), NoMemory> {
    if block > 0 {
        let len = blocks[block - 1].len();
        if len < MOST_RUNS {
            return blocks[block - 1].insert(len, run);
        }
    }
    let own = Block::of(*blocks.allocator(), run)?;
    blocks.insert(block, own)?;
    Ok(())
}

// A full block is split into two halves, so that the next runs beside it find room. `NoMemory` leaves the runs as they were.
fn make_room(blocks: &mut Vec<Block>, block: usize, at: usize) -> Result<(usize, usize), NoMemory> {
    let len = blocks[block].len();
    if len < MOST_RUNS {
        return Ok((block, at));
    }
    let half = len / 2;
    let upper = blocks[block].copy_from(*blocks.allocator(), half)?;
    blocks.insert(block + 1, upper)?;
    blocks[block].take_out(half, len);
    if at < half {
        return Ok((block, at));
    }
    Ok((block + 1, at - half))
}

fn end_with(blocks: &mut Vec<Block>, block: usize, from: usize, run: (u64, u64)) {
    let len = blocks[block].len();
    blocks[block].replace(from, len, run);
}

fn start_with(blocks: &mut Vec<Block>, block: usize, to: usize, run: (u64, u64)) {
    debug_assert!(0 < to);
    blocks[block].replace(0, to, run);
}

// Answers how many blocks stay up to it, so that the caller drops those between by one move.
fn cut_back(blocks: &mut Vec<Block>, block: usize, from: usize) -> usize {
    if from == 0 {
        return block;
    }
    let len = blocks[block].len();
    blocks[block].take_out(from, len);
    block + 1
}

// Answers from which block on they stay, so that the caller drops those between by one move.
fn cut_front(blocks: &mut Vec<Block>, block: usize, to: usize) -> usize {
    if to == blocks[block].len() {
        return block + 1;
    }
    blocks[block].take_out(0, to);
    block
}

fn drop_blocks(blocks: &mut Vec<Block>, first: usize, last: usize) {
    debug_assert!(first <= last);
    if first < last {
        blocks.drain(first..last);
    }
}

/// The runs that end at `low` or later and start below `high`. The last run and the first are looked at before any search: numbers mostly
/// rise, or fill the lowest gap.
#[inline(always)]
pub(crate) fn span_of(blocks: &[Block], low: u64, high: u64) -> Span {
    debug_assert!(low <= high);
    let (block, from) = first_from(blocks, low);
    let none = Span {
        some: false,
        block,
        from,
        last: block,
        to: from,
    };
    if block == blocks.len() {
        return none;
    }
    let (start, _) = blocks[block].run(from);
    if high <= start {
        return none;
    }
    let (last, to) = behind(blocks, block, from, high);
    Span {
        some: true,
        block,
        from,
        last,
        to,
    }
}

/// Both at once, since a gap lies between them.
#[inline(never)]
pub(crate) fn two_above(blocks: &[Block], n: u64) -> (Option<(u64, u64)>, Option<(u64, u64)>) {
    debug_assert!(n < 1 << 62);
    let (block, at) = first_from(blocks, n + 1);
    if block == blocks.len() {
        return (None, None);
    }
    (Some(blocks[block].run(at)), run_behind(blocks, block, at))
}

fn run_behind(blocks: &[Block], block: usize, at: usize) -> Option<(u64, u64)> {
    debug_assert!(block < blocks.len());
    if at < blocks[block].len() - 1 {
        return Some(blocks[block].run(at + 1));
    }
    if block == blocks.len() - 1 {
        return None;
    }
    Some(blocks[block + 1].first())
}

/// The last run and the first may decide it, which saves the search for numbers in order.
#[inline]
pub(crate) fn first_from(blocks: &[Block], low: u64) -> (usize, usize) {
    let count = blocks.len();
    if count == 0 {
        return (0, 0);
    }
    let (start, end) = blocks[count - 1].last();
    if end < low {
        return (count, 0);
    }
    if start < low {
        return (count - 1, blocks[count - 1].len() - 1);
    }
    if low <= blocks[0].first().1 {
        return (0, 0);
    }
    search_from(blocks, low)
}

#[inline(never)]
fn search_from(blocks: &[Block], low: u64) -> (usize, usize) {
    let block = block_from(blocks, low);
    if block == blocks.len() {
        return (block, 0);
    }
    (block, blocks[block].end_from(low))
}

fn block_from(blocks: &[Block], low: u64) -> usize {
    let mut from = 0;
    let mut to = blocks.len();
    while from < to {
        let middle = from + (to - from) / 2;
        if blocks[middle].last().1 < low {
            from = middle + 1;
        } else {
            to = middle;
        }
    }
    from
}

fn behind(blocks: &[Block], block: usize, from: usize, high: u64) -> (usize, usize) {
    debug_assert!(block < blocks.len());
    let after = block_behind(blocks, block + 1, high);
    if after == block + 1 {
        return (block, blocks[block].start_behind(from, high));
    }
    (after - 1, blocks[after - 1].start_behind(0, high))
}

#[inline]
fn block_behind(blocks: &[Block], at: usize, high: u64) -> usize {
    debug_assert!(at <= blocks.len());
    if at == blocks.len() || high <= blocks[at].first().0 {
        return at;
    }
    let mut from = at + 1;
    let mut to = blocks.len();
    while from < to {
        let middle = from + (to - from) / 2;
        if blocks[middle].first().0 < high {
            from = middle + 1;
        } else {
            to = middle;
        }
    }
    from
}
