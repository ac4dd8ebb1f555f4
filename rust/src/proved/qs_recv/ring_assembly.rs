// Made from crates/qs_recv/src/ring_assembly.rt by rust/erase; not edited by hand.
//! An assembly that keeps what arrived in one ring, whatever the order, and what lies far past it in pages.

use crate::proved::qs_recv::assembly::{Assembly, Peeking, Skipping};
use crate::proved::qs_recv::pages::{PAGE, Pages};
use crate::proved::qs_recv::ring::Ring;
use crate::proved::qs_ranges::{NoMemory, RangeSet};
use crate::shim::alloc::Global;

// One small message fits, and a stream that is only opened has no ring at all.
const LEAST_SIZE: u64 = 64;

// Up to here an empty ring stays until the stream's end was read, so that a steady flow takes no memory anew. Above it is given back: one
// that stayed would let a peer hold memory for bytes that were read.
const IDLE_SIZE: u64 = 4096;

// Below one stored byte in so many a ring would be nearly empty, and pages take less.
const THIN: u64 = 64;

/// A ring beside the set of every received offset. As bytes come that lie past it, it grows to reach them: to a power of two, and never
/// past the window, so one byte takes no whole window. If its offsets can't be noted then, it shrinks again, so that a refusal leaves what
/// was held.
///
/// As bytes are read and it is larger than 4,096 bytes and than three times what it has to reach, it shrinks in place, to half more at
/// least. A ring that followed each read and each frame could be made to move for a byte. This one can't: after it grew at least a sixth of
/// its bytes is read before it shrinks, after it shrank at least a third is free, and all its shrinking between two growths moves no more
/// bytes than it has. Once all was read, what comes next begins at its front: so it rarely goes around the end.
///
/// Bytes that begin a page or more past the ring's end, and would leave most of it empty, go to pages. As others come before them the ring
/// grows over all pages that follow without a gap, and these move into it. So a put pays one comparison where there are no pages, and a
/// read nothing.
///
/// A put searches the set once for each gap that it fills, and not at all for bytes past all that arrived; it copies the bytes of each gap,
/// and notes the offsets by one insert. A take is one search and one copy.
pub struct RingAssembly {
    alloc: Global,
    ring: Ring,
    apart: Pages,
    received: RangeSet,
    read_count: u64,
    // Pages begin here: a put of bytes below it, which is nearly each, looks no further.
    near: u64,
    // Bytes at or past it are new without a search, as most are.
    end: u64,
    stored: u64,
    window: u64,
    discarding: bool,
}

impl Assembly for RingAssembly {
    fn new(alloc: Global, window: u64) -> Self {
        RingAssembly {
            alloc,
            ring: Ring::none(alloc),
            apart: Pages::none(alloc),
            received: RangeSet::new(alloc),
            read_count: 0,
            near: 0,
            end: 0,
            stored: 0,
            window,
            discarding: false,
        }
    }

    fn at_rest(alloc: Global, window: u64, read_count: u64, end: u64, discarding: bool) -> Self {
        RingAssembly {
            alloc,
            ring: Ring::none(alloc),
            apart: Pages::none(alloc),
            received: RangeSet::below(alloc, end),
            read_count,
            near: read_count,
            end,
            stored: 0,
            window,
            discarding,
        }
    }

    fn put(&mut self, offset: u64, bytes: &[u8]) -> Result<(), NoMemory> {
        let end = offset + bytes.len() as u64;
        if offset == end {
            return Ok(());
        }
        if self.discarding {
            return self.received.insert(offset, end);
        }
        let start = offset.max(self.read_count);
        let (first, stop) = first_gap(&self.received, self.end, start, end);
        if first >= end {
            return Ok(());
        }
        if !self.apart.is_empty() || (self.ring.len() as u64) < end - self.read_count {
            return self.put_beyond(first, stop, offset, bytes);
        }
        let count = store(
            &mut self.ring,
            &mut self.received,
            first,
            stop,
            offset,
            bytes,
        )?;
        self.stored += count;
        self.near = self.near.max(end);
        self.end = self.end.max(end);
        Ok(())
    }

    fn take(&mut self, into: &mut [u8]) -> usize {
        if self.discarding {
            return 0;
        }
        let next = self.received.first_missing(self.read_count);
        let count = (next - self.read_count).min(into.len() as u64) as usize;
        self.ring.copy_out(self.read_count, &mut into[..count]);
        self.pass(count as u64);
        count
    }

    fn discard(&mut self) {
        self.ring = Ring::none(self.alloc);
        self.apart = Pages::none(self.alloc);
        self.stored = 0;
        self.discarding = true;
    }

    fn widen(&mut self, window: u64) {
        self.window = self.window.max(window);
    }

    fn give_back(&mut self) {
        if self.stored == 0 {
            self.ring = Ring::none(self.alloc);
        }
    }

    fn same(&self, offset: u64, bytes: &[u8]) -> bool {
        if self.discarding {
            return true;
        }
        let start = offset.max(self.read_count);
        if self.end <= start {
            return true;
        }
        is_kept(
            &self.ring,
            &self.apart,
            self.near,
            &self.received,
            start,
            offset,
            bytes,
        )
    }

    #[inline(always)]
    fn stored(&self) -> u64 {
        self.stored
    }

    fn held(&self) -> u64 {
        self.ring.len() as u64 + self.apart.count() * PAGE
    }

    #[inline(always)]
    fn received(&self) -> &RangeSet {
        &self.received
    }
}

impl RingAssembly {
    // The usual put stays small without it. The first missing offsets are those from `first` on and below `stop`.
    #[inline(never)]
    fn put_beyond(
        &mut self,
        first: u64,
        stop: u64,
        offset: u64,
        bytes: &[u8],
    ) -> Result<(), NoMemory> {
        let end = offset + bytes.len() as u64;
        let few = (end - self.read_count) / THIN;
        if self.near + PAGE <= first && self.stored < few && end - first < few {
            return self.put_apart(first, stop, offset, bytes);
        }
        self.draw(end)?;
        let from = self.read_count;
        let kept = self.near - from;
        let size = self.size_to_reach(end - from);
        reach(
            self.alloc,
            &mut self.ring,
            front_of(kept, first, from),
            kept,
            end - from,
            size,
        )?;
        match store(
            &mut self.ring,
            &mut self.received,
            first,
            stop,
            offset,
            bytes,
        ) {
            Ok(count) => {
                self.stored += count;
                self.near = self.near.max(end);
                self.end = self.end.max(end);
                Ok(())
            }
            Err(refused) => {
                shed(self.alloc, &mut self.ring, from, kept, self.window);
                Err(refused)
            }
        }
    }

    // A ring that went because it was large begins with as many bytes as one may keep: in a steady flow it soon has more.
    fn size_to_reach(&self, span: u64) -> u64 {
        let size = size_for(span, self.window);
        if self.ring.len() > 0 || self.read_count == 0 {
            return size;
        }
        size.max(IDLE_SIZE.min(self.window))
    }

    // The pages are taken first: if one is refused, nothing was written.
    fn put_apart(
        &mut self,
        first: u64,
        stop: u64,
        offset: u64,
        bytes: &[u8],
    ) -> Result<(), NoMemory> {
        let end = offset + bytes.len() as u64;
        match store_apart(
            self.alloc,
            &mut self.apart,
            &mut self.received,
            first,
            stop,
            offset,
            bytes,
        ) {
            Ok(count) => {
                self.stored += count;
                self.end = self.end.max(end);
                Ok(())
            }
            Err(refused) => {
                self.apart.give_back(self.end, end);
                Err(refused)
            }
        }
    }

    // Before new bytes are stored, so that each byte moves once, and what is next to be read always stands in the ring.
    fn draw(&mut self, end: u64) -> Result<(), NoMemory> {
        debug_assert!(end <= 0x3fff_ffff_ffff_ffff);
        if self.apart.is_empty() {
            return Ok(());
        }
        let from = self.read_count;
        let near = self.near;
        let next = self.apart.gap_past(near.max(end), self.end);
        let size = size_for(next - from, self.window);
        reach(
            self.alloc,
            &mut self.ring,
            from,
            near - from,
            next - from,
            size,
        )?;
        self.apart.move_into(&mut self.ring, near, next);
        self.near = next;
        Ok(())
    }

    #[inline(always)]
    fn pass(&mut self, count: u64) {
        self.read_count += count;
        self.stored -= count;
        let span = self.near - self.read_count;
        shed(
            self.alloc,
            &mut self.ring,
            self.read_count,
            span,
            self.window,
        );
    }
}

impl Skipping for RingAssembly {
    fn skip(&mut self, most: usize) -> usize {
        if self.discarding {
            return 0;
        }
        let next = self.received.first_missing(self.read_count);
        let count = (next - self.read_count).min(most as u64) as usize;
        self.pass(count as u64);
        count
    }
}

impl Peeking for RingAssembly {
    fn front(&self) -> (&[u8], &[u8]) {
        if self.discarding {
            return (&[], &[]);
        }
        let next = self.received.first_missing(self.read_count);
        let count = (next - self.read_count) as usize;
        if count == 0 {
            return (&[], &[]);
        }
        self.ring.front(self.read_count, count)
    }
}

// A power of two, so that the place of an offset is its low bits.
fn size_for(span: u64, window: u64) -> u64 {
    debug_assert!(window <= 1 << 30);
    debug_assert!(span <= window);
    let power = span.next_power_of_two();
    let least = power.max(LEAST_SIZE);
    least.min(window)
}

// An empty ring begins with the first byte that comes, so that none before it is filled.
#[inline(always)]
fn front_of(kept: u64, first: u64, from: u64) -> u64 {
    if kept == 0 { first } else { from }
}

fn reach(
    alloc: Global,
    ring: &mut Ring,
    from: u64,
    kept: u64,
    span: u64,
    size: u64,
) -> Result<(), NoMemory> {
    debug_assert!(size <= 1 << 30);
    debug_assert!(from <= 1 << 62);
    debug_assert!(span <= size);
    if span <= ring.len() as u64 {
        return Ok(());
    }
    ring.widen(alloc, from, kept as usize, size as usize)
}

// All was read: a small ring stays, and the next bytes begin at its front.
#[inline(always)]
fn clear(alloc: Global, ring: &mut Ring, from: u64) {
    debug_assert!(from <= 1 << 62);
    if ring.len() as u64 <= IDLE_SIZE {
        ring.begin_at(from);
        return;
    }
    *ring = Ring::none(alloc);
}

// All of it if nothing is stored. Else, if it is larger than three times the span of what is, to the least power of two that is half more
// than that span: so that growing and shrinking don't take turns.
#[inline(always)]
fn shed(alloc: Global, ring: &mut Ring, from: u64, span: u64, window: u64) {
    debug_assert!(window <= 1 << 30);
    debug_assert!(from <= 1 << 62);
    let len = ring.len() as u64;
    if span == 0 {
        clear(alloc, ring, from);
        return;
    }
    if len <= IDLE_SIZE.max(3 * span) {
        return;
    }
    let size = size_for(span + span / 2, window);
    ring.narrow(from, span as usize, size as usize);
}

// New bytes are written before their offsets are noted: a refusal then leaves the set as it was, and nobody sees the bytes.
#[inline(always)]
fn store(
    ring: &mut Ring,
    received: &mut RangeSet,
    first: u64,
    stop: u64,
    offset: u64,
    bytes: &[u8],
) -> Result<u64, NoMemory> {
    debug_assert!(offset <= first);
    debug_assert!(first < stop);
    let end = offset + bytes.len() as u64;
    let count = fill_gaps(ring, received, first, stop, offset, bytes);
    received.insert(offset, end)?;
    Ok(count)
}

#[inline(always)]
fn fill_gaps(
    ring: &mut Ring,
    received: &RangeSet,
    first: u64,
    stop: u64,
    offset: u64,
    bytes: &[u8],
) -> u64 {
    debug_assert!(offset <= first);
    debug_assert!(first < stop);
    let end = offset + bytes.len() as u64;
    if stop == end {
        ring.write(
            first,
            &bytes[(first - offset) as usize..(stop - offset) as usize],
        );
        return end - first;
    }
    let mut at = first;
    let mut to = stop;
    let mut count = 0;
    while at < end {
        ring.write(at, &bytes[(at - offset) as usize..(to - offset) as usize]);
        count += to - at;
        let (next, after) = next_gap(received, to, end);
        at = next;
        to = after;
    }
    count
}

// If memory is refused, pages that were taken may stay: they hold nothing that counts as received.
fn store_apart(
    alloc: Global,
    apart: &mut Pages,
    received: &mut RangeSet,
    first: u64,
    stop: u64,
    offset: u64,
    bytes: &[u8],
) -> Result<u64, NoMemory> {
    debug_assert!(offset <= first);
    debug_assert!(first < stop);
    let end = offset + bytes.len() as u64;
    apart.make(alloc, first, end)?;
    let count = fill_apart(apart, received, first, stop, offset, bytes);
    received.insert(offset, end)?;
    Ok(count)
}

fn fill_apart(
    apart: &mut Pages,
    received: &RangeSet,
    first: u64,
    stop: u64,
    offset: u64,
    bytes: &[u8],
) -> u64 {
    debug_assert!(offset <= first);
    debug_assert!(first < stop);
    let end = offset + bytes.len() as u64;
    let mut at = first;
    let mut to = stop;
    let mut count = 0;
    while at < end {
        apart.write(at, &bytes[(at - offset) as usize..(to - offset) as usize]);
        count += to - at;
        let (next, after) = next_gap(received, to, end);
        at = next;
        to = after;
    }
    count
}

// If there are none, the first is no less than the end.
fn next_gap(received: &RangeSet, at: u64, end: u64) -> (u64, u64) {
    if at >= end {
        return (at, at);
    }
    match received.first_gap(at, end) {
        Some((from, to)) => (from, to),
        None => (end, end),
    }
}

// Without a search past all that arrived, where most bytes go.
fn first_gap(received: &RangeSet, last: u64, at: u64, end: u64) -> (u64, u64) {
    if last <= at && at < end {
        return (at, end);
    }
    next_gap(received, at, end)
}

fn next_run(received: &RangeSet, at: u64, end: u64) -> (u64, u64) {
    debug_assert!(at < end);
    match received.run_from(at) {
        Some((start, after)) if start < end => (start, after.min(end)),
        _ => (end, end),
    }
}

fn is_gap(received: &RangeSet, start: u64, end: u64) -> bool {
    match received.run_from(start) {
        Some((first, _)) => end <= first,
        None => true,
    }
}

#[inline(never)]
fn is_kept(
    ring: &Ring,
    apart: &Pages,
    near: u64,
    received: &RangeSet,
    start: u64,
    offset: u64,
    bytes: &[u8],
) -> bool {
    debug_assert!(offset <= start);
    let end = offset + bytes.len() as u64;
    // Mostly they fill a gap, as those do that come in reverse.
    if is_gap(received, start, end) {
        return true;
    }
    let mut at = start;
    while at < end {
        let (from, to) = next_run(received, at, end);
        let run = &bytes[(from - offset) as usize..(to - offset) as usize];
        let there = if from < near {
            ring.are_at(from, run)
        } else {
            apart.are_at(from, run)
        };
        if !there {
            return false;
        }
        at = to;
    }
    true
}
