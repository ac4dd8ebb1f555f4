// Made from crates/qs_recv/src/assembly.rt by rust/erase; not edited by hand.
//! What an assembly of arrived bytes promises, however it keeps them (RFC 9000, section 2.2). `RecvHalf` is proved over these laws alone,
//! so a ring and a list of chunks serve alike.

use crate::proved::qs_ranges::{NoMemory, RangeSet};
use crate::shim::alloc::Global;

/// The bytes of a stream from the first unread one on, in whatever order they arrive.
pub trait Assembly {
    /// An assembly that stores at most `window` bytes past those that were read. It takes no memory, since most streams that are opened
    /// carry little.
    fn new(alloc: Global, window: u64) -> Self;

    /// An assembly that stores nothing, and has received the offsets below `end`: all of them were read, or bytes are discarded. It takes
    /// no memory, so that a half kept by its numbers can answer like any other.
    fn at_rest(alloc: Global, window: u64, read_count: u64, end: u64, discarding: bool) -> Self;

    /// Stores the bytes at offsets that weren't received before, and notes the offsets. NoMemory if a growth was refused.
    fn put(&mut self, offset: u64, bytes: &[u8]) -> Result<(), NoMemory>;

    /// Moves the next bytes to be read into the slice's front, and returns how many.
    fn take(&mut self, into: &mut [u8]) -> usize;

    /// Discards the stored bytes, and those that arrive from now on.
    fn discard(&mut self);

    /// From now on stores as many bytes past those read as the greater window has.
    fn widen(&mut self, window: u64);

    /// Frees memory in which nothing is stored. Its own call, so that a steady flow that empties the buffer again and again takes no memory
    /// anew.
    fn give_back(&mut self);

    /// Whether bytes are those that are stored at their offsets. Offsets without a stored byte don't count: they weren't received, were
    /// read, or are discarded, and there is nothing to compare.
    fn same(&self, offset: u64, bytes: &[u8]) -> bool;

    fn stored(&self) -> u64;

    /// How many bytes of memory it takes to store some: no more than 4,096, or while some are stored four times as many as lie between what
    /// was read and the end of what arrived. Four, though three are kept to, so that no proof above counts on the third.
    fn held(&self) -> u64;

    fn received(&self) -> &RangeSet;
}

/// The memory that a half takes for bytes that arrived: so many bytes, and the assembly that takes them. A half without one takes none.
#[derive(Clone, Copy)]
pub struct Memory<'a, A: Assembly> {
    pub bytes: u64,
    pub assembly: Option<&'a A>,
}

/// An assembly whose next bytes can be looked at where they are. Beside `Assembly`, because a list of chunks can't promise it.
pub trait Peeking: Skipping {
    /// The next bytes to be read, all up to the first missing one, in two pieces if a ring's edge lies between.
    fn front(&self) -> (&[u8], &[u8]);
}

/// An assembly whose next bytes can be passed over without a copy.
pub trait Skipping: Assembly {
    /// Takes the next bytes to be read, at most so many, and returns how many.
    fn skip(&mut self, most: usize) -> usize;
}
