// Made from crates/qs_recv/src/half.rt by rust/erase; not edited by hand.
//! The receiving half of a stream (RFC 9000, sections 2.2, 3.2, 3.5 and 4).
use crate::shim::Box;

use crate::proved::qs_recv::assembly::{Assembly, Memory, Peeking, Skipping};
use crate::proved::qs_recv::credit::Share;
use crate::proved::qs_recv::live::LiveHalf;
use crate::proved::qs_recv::over::Over;
use crate::proved::qs_recv::rest::Rest;
use crate::proved::qs_ranges::NoMemory;
use crate::shim::alloc::Global;

/// Why data or a reset is refused. The half stays as it was. Each but NoMemory is an error of the peer; ChangedByte comes from
/// `check_bytes` alone, since it is judged after the connection's limit.
#[derive(Debug, Clone, Copy, PartialEq, Eq)]
pub enum RecvFault {
    /// Another final size is named, or one below what came, or data past it: FINAL_SIZE_ERROR (section 4.5).
    FinalSize,
    /// The stream's limit is exceeded: FLOW_CONTROL_ERROR (section 4.1).
    StreamCredit,
    NoMemory,
    /// Another byte stands at an offset that is still stored: PROTOCOL_VIOLATION (section 2.2).
    ChangedByte,
}

/// The highest offset of a stream before and after a frame: the final size if known, else one more than the largest offset received, or 0.
/// Both, so that the caller holds the growth against the connection's limit.
#[derive(Debug, Clone, Copy, PartialEq, Eq)]
pub struct Highest {
    pub before: u64,
    pub after: u64,
}

/// What is said of a STREAM frame in one look: whether its offsets and its end may be taken, with what that does to the highest offset; and
/// whether its bytes are those that are stored.
#[derive(Debug, Clone, Copy, PartialEq, Eq)]
pub struct Judged {
    pub stream: Result<Highest, RecvFault>,
    pub bytes: Result<(), RecvFault>,
}

/// What a half adds to the sums over all of them: the highest offset; what counts as consumed; how many bytes are stored; into how many
/// runs the received offsets fall, none after a reset or once all was read; and whether it was stopped, so that what arrives counts as
/// consumed. Sums are kept by differences of these, since a walk over all streams at each call would cost with their count.
#[derive(Debug, Clone, Copy, PartialEq, Eq)]
pub struct Sizes {
    pub spent: u64,
    pub taken: u64,
    pub stored: u64,
    pub noted: u64,
    pub is_stopped: bool,
}

#[derive(Debug, Clone, Copy, PartialEq, Eq)]
pub struct Standing {
    pub is_readable: bool,
    pub has_ended: bool,
}

/// What a read returns: so many bytes were read, all data was read, the stream was reset with a code, or nothing is next.
#[derive(Debug, Clone, Copy, PartialEq, Eq)]
pub enum Read {
    Bytes(usize),
    End,
    Reset(u64),
    Wait,
}

/// What a look at a stream shows, without reading: the next bytes, in one piece of memory or two; that all data was read; that the stream
/// was reset with a code; or that nothing is next.
#[derive(Debug, Clone, Copy, PartialEq, Eq)]
pub enum Peek<'a> {
    Bytes(&'a [u8], &'a [u8]),
    End,
    Reset(u64),
    Wait,
}

#[derive(Debug, Clone, Copy, PartialEq, Eq)]
pub enum RecvState {
    Recv,
    SizeKnown,
    DataRecvd,
    DataRead,
    ResetRecvd,
    ResetRead,
}

/// The receiving half of a stream, over any assembly. Offsets and sizes count bytes from the start of the stream.
///
/// A half is kept until its connection ends, so what one takes that is over counts for every stream that ever was. Its record has 24 bytes.
/// One that was read to its end stands in it. One that was reset, and one that was stopped and has no gap, takes a box of 64 bytes beside;
/// and one that may store bytes a larger one, with its assembly.
pub struct RecvHalf<A: Assembly> {
    alloc: Global,
    parts: Parts<A>,
}

enum Parts<A: Assembly> {
    Kept(Kept),
    Live(Box<LiveHalf<A>>),
}

// An enum of its own, so that a half that may store bytes, the one of nearly each call, is found by one comparison.
enum Kept {
    Over(Over),
    Rest(Box<Rest>),
}

impl<A: Assembly> RecvHalf<A> {
    /// A half that grants `window` bytes beyond what was consumed, and moves its limit by such a share of these. Its box is taken at once,
    /// so that a reset never needs memory: `take_reset` has no error for it.
    #[inline]
    pub fn new(alloc: Global, window: u64, share: Share) -> Result<Self, NoMemory> {
        debug_assert!(1 <= window);
        debug_assert!(window <= 1 << 30);
        let rest = Rest::new(window, share);
        let fresh: LiveHalf<A> = LiveHalf::revived(alloc, &rest);
        let Ok(boxed) = Box::new(alloc, fresh) else {
            return Err(NoMemory);
        };
        Ok(RecvHalf {
            alloc,
            parts: Parts::Live(boxed),
        })
    }

    /// What is said of a STREAM frame by a half that received nothing: of a stream that the frame would open, before it opens. It takes no
    /// memory.
    #[inline]
    pub fn judge_first(alloc: Global, window: u64, offset: u64, bytes: &[u8], fin: bool) -> Judged {
        debug_assert!(1 <= window);
        debug_assert!(window <= 1 << 30);
        let rest = Rest::new(window, Share::Half);
        let fresh: LiveHalf<A> = LiveHalf::revived(alloc, &rest);
        fresh.judge(offset, bytes, fin)
    }

    /// Whether a half that received nothing may take a RESET_STREAM. It takes no memory.
    #[inline]
    pub fn check_first_reset(alloc: Global, window: u64, size: u64) -> Result<Highest, RecvFault> {
        debug_assert!(1 <= window);
        debug_assert!(window <= 1 << 30);
        debug_assert!(size <= 0x3fff_ffff_ffff_ffff);
        let rest = Rest::new(window, Share::Half);
        let fresh: LiveHalf<A> = LiveHalf::revived(alloc, &rest);
        fresh.check_reset(size)
    }

    /// Whether a STREAM frame may be taken, and what it does to the highest offset. The final size is tested before the limit.
    #[inline]
    pub fn check_stream(&self, offset: u64, len: u64, fin: bool) -> Result<Highest, RecvFault> {
        match &self.parts {
            Parts::Kept(Kept::Over(over)) => self
                .revived(&over.rest())
                .check_stream(offset, len, fin),
            Parts::Kept(Kept::Rest(rest)) => self.revived(rest).check_stream(offset, len, fin),
            Parts::Live(live) => live.check_stream(offset, len, fin),
        }
    }

    /// Whether a STREAM frame's bytes are those that are stored at their offsets, as far as some still are. It takes no memory.
    #[inline]
    pub fn check_bytes(&self, offset: u64, bytes: &[u8]) -> Result<(), RecvFault> {
        match &self.parts {
            Parts::Kept(Kept::Over(over)) => {
                over.is_over();
                Ok(())
            }
            Parts::Kept(Kept::Rest(rest)) => {
                let _none = rest.stored();
                Ok(())
            }
            Parts::Live(live) => live.check_bytes(offset, bytes),
        }
    }

    /// What is said of a STREAM frame: whether it may be taken, with the final size tested before the limit, and whether its bytes are
    /// those that are stored. A caller with a limit of its own tests that in between. It takes no memory.
    #[inline(always)]
    pub fn judge(&self, offset: u64, bytes: &[u8], fin: bool) -> Judged {
        match &self.parts {
            Parts::Kept(_) => Judged {
                stream: self.check_stream(offset, bytes.len() as u64, fin),
                bytes: self.check_bytes(offset, bytes),
            },
            Parts::Live(live) => live.judge(offset, bytes, fin),
        }
    }

    /// Whether a STREAM frame that passed both checks would change the half: it names the final size first, or brings a new offset, and no
    /// reset came.
    #[inline]
    pub fn stream_changes(&self, offset: u64, len: u64, fin: bool) -> bool {
        match &self.parts {
            Parts::Kept(Kept::Over(over)) => self
                .revived(&over.rest())
                .stream_changes(offset, len, fin),
            Parts::Kept(Kept::Rest(rest)) => self.revived(rest).stream_changes(offset, len, fin),
            Parts::Live(live) => live.stream_changes(offset, len, fin),
        }
    }

    /// Takes a STREAM frame that passed both checks. The only error is NoMemory. After a reset or a stop its bytes are counted and
    /// discarded.
    #[inline]
    pub fn take_stream(&mut self, offset: u64, bytes: &[u8], fin: bool) -> Result<(), RecvFault> {
        match &mut self.parts {
            Parts::Kept(Kept::Over(over)) => {
                over.is_over();
                Ok(())
            }
            Parts::Kept(Kept::Rest(rest)) => {
                if rest.takes(offset, bytes, fin) {
                    return Ok(());
                }
                let mut live: LiveHalf<A> = LiveHalf::revived(self.alloc, rest);
                live.take_stream(offset, bytes, fin)?;
                let Ok(boxed) = Box::new(self.alloc, live) else {
                    return Err(RecvFault::NoMemory);
                };
                self.parts = Parts::Live(boxed);
                Ok(())
            }
            Parts::Live(live) => {
                live.take_stream(offset, bytes, fin)?;
                self.settle();
                Ok(())
            }
        }
    }

    #[inline]
    pub fn check_reset(&self, size: u64) -> Result<Highest, RecvFault> {
        debug_assert!(size <= 0x3fff_ffff_ffff_ffff);
        match &self.parts {
            Parts::Kept(Kept::Over(over)) => self.revived(&over.rest()).check_reset(size),
            Parts::Kept(Kept::Rest(rest)) => self.revived(rest).check_reset(size),
            Parts::Live(live) => live.check_reset(size),
        }
    }

    /// Takes a RESET_STREAM frame that passed the check: what is stored is discarded, and so is what was noted of the received offsets, for
    /// which nothing asks any more. Once all data arrived, or after another reset, nothing changes.
    #[inline]
    pub fn take_reset(&mut self, code: u64, size: u64) {
        debug_assert!(size <= 0x3fff_ffff_ffff_ffff);
        match &mut self.parts {
            Parts::Kept(Kept::Over(over)) => over.is_over(),
            Parts::Kept(Kept::Rest(rest)) => rest.take_reset(code, size),
            Parts::Live(live) => {
                let Some(rest) = live.reset(code, size) else {
                    return;
                };
                live.let_go(self.alloc, &rest);
                if let Ok(boxed) = Box::new(self.alloc, rest) {
                    self.parts = Parts::Kept(Kept::Rest(boxed));
                }
            }
        }
    }

    /// Reads the next bytes into the slice's front, or says how the stream stands. The rest of the slice stays.
    #[inline]
    pub fn read(&mut self, into: &mut [u8]) -> Read {
        let answer = match &mut self.parts {
            Parts::Kept(Kept::Over(over)) => {
                over.is_over();
                Read::End
            }
            Parts::Kept(Kept::Rest(rest)) => rest.read(),
            Parts::Live(live) => live.read(into),
        };
        if matches!(answer, Read::End) {
            self.end();
        }
        answer
    }

    /// Discards the stored bytes, and those that arrive from now on (section 3.5). The first code stays; a code is at most 2^62 - 1, so
    /// that a frame can carry it. Once the end or a reset was read it changes nothing, so that a half that is over keeps no code.
    #[inline]
    pub fn stop(&mut self, code: u64) {
        debug_assert!(code <= 0x3fff_ffff_ffff_ffff);
        match &mut self.parts {
            Parts::Kept(Kept::Over(over)) => over.is_over(),
            Parts::Kept(Kept::Rest(rest)) => rest.stop(code),
            Parts::Live(live) => live.stop(code),
        }
    }

    /// Stops it for a reader that won't ask again: it counts as read to its end as soon as that or a reset comes (sections 3.2 and 3.5).
    #[inline]
    pub fn stop_and_discard(&mut self, code: u64) {
        debug_assert!(code <= 0x3fff_ffff_ffff_ffff);
        match &mut self.parts {
            Parts::Kept(Kept::Over(over)) => over.is_over(),
            Parts::Kept(Kept::Rest(rest)) => rest.stop_and_discard(code),
            Parts::Live(live) => live.stop_and_discard(code),
        }
    }

    /// Raises the limit by what was consumed, once that is the half's share of its window or more, and returns the new one if it rose
    /// (section 4.2). Once the final size is known it stays, since nobody needs it.
    #[inline]
    pub fn raise(&mut self) -> Option<u64> {
        match &mut self.parts {
            Parts::Kept(Kept::Over(over)) => {
                over.is_over();
                None
            }
            Parts::Kept(Kept::Rest(rest)) => rest.raise(),
            Parts::Live(live) => live.raise(),
        }
    }

    /// Whether `raise` would raise the limit.
    #[inline]
    pub fn rises(&self) -> bool {
        match &self.parts {
            Parts::Kept(Kept::Over(over)) => {
                over.is_over();
                false
            }
            Parts::Kept(Kept::Rest(rest)) => rest.limit() < rest.raised_limit(),
            Parts::Live(live) => live.limit() < live.raised_limit(),
        }
    }

    /// Sets another window (section 4.2): a greater one raises the limit at once, even by less than the half's share, and under a smaller
    /// one the limit stays until enough is consumed. Once the final size is known it stays.
    #[inline]
    pub fn set_window(&mut self, window: u64) {
        debug_assert!(1 <= window);
        debug_assert!(window <= 1 << 30);
        match &mut self.parts {
            Parts::Kept(Kept::Over(over)) => over.set_window(window),
            Parts::Kept(Kept::Rest(rest)) => rest.set_window(window),
            Parts::Live(live) => live.set_window(window),
        }
    }

    #[inline]
    pub fn sizes(&self) -> Sizes {
        match &self.parts {
            Parts::Kept(Kept::Over(over)) => over.rest().sizes(),
            Parts::Kept(Kept::Rest(rest)) => rest.sizes(),
            Parts::Live(live) => live.sizes(),
        }
    }

    /// Whether a read of one byte would return something new: bytes, or the end or a reset that wasn't read yet; and whether either was. Of
    /// a stopped half only the end and a reset are read (sections 2.2, 3.2 and 3.5). Both in one look, for the marks of all streams.
    #[inline(always)]
    pub fn standing(&self) -> Standing {
        match &self.parts {
            Parts::Kept(Kept::Over(over)) => over.rest().standing(),
            Parts::Kept(Kept::Rest(rest)) => rest.standing(),
            Parts::Live(live) => live.standing(),
        }
    }

    /// Whether the end or a reset was read: Data Read and Reset Read (section 3.2).
    #[inline]
    pub fn has_ended(&self) -> bool {
        match &self.parts {
            Parts::Kept(Kept::Over(over)) => over.rest().is_over(),
            Parts::Kept(Kept::Rest(rest)) => rest.is_over(),
            Parts::Live(live) => live.is_over(),
        }
    }

    #[inline]
    pub fn limit(&self) -> u64 {
        match &self.parts {
            Parts::Kept(Kept::Over(over)) => over.rest().limit(),
            Parts::Kept(Kept::Rest(rest)) => rest.limit(),
            Parts::Live(live) => live.limit(),
        }
    }

    /// How long the stream is, if that is known (section 4.5).
    #[inline]
    pub fn final_size(&self) -> Option<u64> {
        match &self.parts {
            Parts::Kept(Kept::Over(over)) => over.rest().final_size(),
            Parts::Kept(Kept::Rest(rest)) => rest.final_size(),
            Parts::Live(live) => live.final_size(),
        }
    }

    /// Whether its reader knows all there is: the end or a reset was read, or it was stopped and forgotten.
    #[inline]
    pub fn is_told(&self) -> bool {
        match &self.parts {
            Parts::Kept(Kept::Over(over)) => over.rest().is_told(),
            Parts::Kept(Kept::Rest(rest)) => rest.is_told(),
            Parts::Live(live) => live.is_told(),
        }
    }

    /// The state by what arrived and what was read (section 3.2).
    #[inline]
    pub fn state(&self) -> RecvState {
        match &self.parts {
            Parts::Kept(Kept::Over(over)) => over.rest().state(),
            Parts::Kept(Kept::Rest(rest)) => rest.state(),
            Parts::Live(live) => live.state(),
        }
    }

    /// Whether a read of one byte would return something new: bytes, or the end or a reset that wasn't read yet. Of a stopped half only the
    /// end and a reset are read (sections 2.2, 3.2 and 3.5).
    #[inline]
    pub fn is_readable(&self) -> bool {
        match &self.parts {
            Parts::Kept(Kept::Over(over)) => over.rest().standing().is_readable,
            Parts::Kept(Kept::Rest(rest)) => rest.standing().is_readable,
            Parts::Live(live) => live.standing().is_readable,
        }
    }

    /// How many bytes of memory it takes to store some, as the assembly counts them: at most 4,096, or while some are stored four times the
    /// highest offset less what was consumed; none once the end was read, or if bytes are discarded. The assembly stands beside, so
    /// that it is known whose memory this is.
    #[inline]
    pub fn held(&self) -> Memory<'_, A> {
        match &self.parts {
            Parts::Kept(Kept::Over(over)) => Memory {
                bytes: over.rest().stored(),
                assembly: None,
            },
            Parts::Kept(Kept::Rest(rest)) => Memory {
                bytes: rest.stored(),
                assembly: None,
            },
            Parts::Live(live) => live.held(),
        }
    }

    #[inline]
    pub fn read_count(&self) -> u64 {
        match &self.parts {
            Parts::Kept(Kept::Over(over)) => over.rest().read_count(),
            Parts::Kept(Kept::Rest(rest)) => rest.read_count(),
            Parts::Live(live) => live.read_count(),
        }
    }

    #[inline]
    pub fn stop_code(&self) -> Option<u64> {
        match &self.parts {
            Parts::Kept(Kept::Over(over)) => over.rest().stop_code(),
            Parts::Kept(Kept::Rest(rest)) => rest.stop_code(),
            Parts::Live(live) => live.stop_code(),
        }
    }

    #[inline]
    pub fn reset_code(&self) -> Option<u64> {
        match &self.parts {
            Parts::Kept(Kept::Over(over)) => over.rest().reset_code(),
            Parts::Kept(Kept::Rest(rest)) => rest.reset_code(),
            Parts::Live(live) => live.reset_code(),
        }
    }

    // Its box is freed: a half that is over stands in its record.
    #[inline(never)]
    fn end(&mut self) {
        let over = match &self.parts {
            Parts::Kept(Kept::Over(_)) => None,
            Parts::Kept(Kept::Rest(rest)) => rest.over(),
            Parts::Live(live) => live.over(),
        };
        if let Some(over) = over {
            self.parts = Parts::Kept(Kept::Over(over));
        }
    }

    // Without an assembly, if no offset is missing. If the smaller box is refused the larger one stays, and no answer shows it.
    fn settle(&mut self) {
        let Parts::Live(live) = &self.parts else {
            return;
        };
        if live.is_done() {
            self.settle_apart();
        }
    }

    // Seldom called, and apart so that the other is small.
    #[inline(never)]
    fn settle_apart(&mut self) {
        let Parts::Live(live) = &self.parts else {
            return;
        };
        let Some(rest) = live.rested() else {
            return;
        };
        if let Ok(boxed) = Box::new(self.alloc, rest) {
            self.parts = Parts::Kept(Kept::Rest(boxed));
        }
    }

    // Made on the stack for a question that needs one, so that a half at rest is defined once.
    fn revived(&self, rest: &Rest) -> LiveHalf<A> {
        LiveHalf::revived(self.alloc, rest)
    }
}

impl<A: Peeking> RecvHalf<A> {
    /// What a read with room enough would return, and changes nothing: the next bytes stay where they are, all of them, up to the first
    /// that is missing.
    #[inline]
    pub fn peek(&self) -> Peek<'_> {
        match &self.parts {
            Parts::Kept(Kept::Over(over)) => {
                over.is_over();
                Peek::End
            }
            Parts::Kept(Kept::Rest(rest)) => rest.peek(),
            Parts::Live(live) => live.peek(),
        }
    }
}

impl<A: Skipping> RecvHalf<A> {
    /// Takes the next bytes, as a read into a slice of so many bytes does, and copies none; or says how the stream stands.
    #[inline]
    pub fn skip(&mut self, most: usize) -> Read {
        let answer = match &mut self.parts {
            Parts::Kept(Kept::Over(over)) => {
                over.is_over();
                Read::End
            }
            Parts::Kept(Kept::Rest(rest)) => rest.read(),
            Parts::Live(live) => live.skip(most),
        };
        if matches!(answer, Read::End) {
            self.end();
        }
        answer
    }
}
