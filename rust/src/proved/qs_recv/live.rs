// Made from crates/qs_recv/src/live.rt by rust/erase; not edited by hand.
//! A receiving half that may store bytes.

use crate::proved::qs_recv::assembly::{Assembly, Memory, Peeking, Skipping};
use crate::proved::qs_recv::credit::{limit_with, next_limit};
use crate::proved::qs_recv::half::{Highest, Judged, Peek, Read, RecvFault, RecvState, Sizes, Standing};
use crate::proved::qs_recv::over::Over;
use crate::proved::qs_recv::rest::{Rest, given};
use crate::proved::qs_recv::window::Windows;
use crate::shim::alloc::Global;

/// Numbers and their flags apart: an `Option<u64>` takes twice the bytes. `RecvHalf` says what the calls do.
pub(crate) struct LiveHalf<A: Assembly> {
    assembly: A,
    read_count: u64,
    received_end: u64,
    limit: u64,
    size: u64,
    reset: u64,
    stop: u64,
    windows: Windows,
    is_sized: bool,
    is_reset: bool,
    is_stopped: bool,
    reader_done: bool,
}

impl<A: Assembly> LiveHalf<A> {
    /// For a question to a half at rest; it takes no memory.
    #[inline]
    pub(crate) fn revived(alloc: Global, rest: &Rest) -> Self {
        LiveHalf {
            assembly: Self::assembly_at_rest(alloc, rest),
            read_count: rest.read_count,
            received_end: rest.received_end,
            limit: rest.limit,
            size: rest.size,
            reset: rest.reset,
            stop: rest.stop,
            windows: rest.windows,
            is_sized: rest.is_sized,
            is_reset: rest.is_reset,
            is_stopped: rest.is_stopped,
            reader_done: rest.reader_done,
        }
    }

    #[inline]
    pub(crate) fn assembly_at_rest(alloc: Global, rest: &Rest) -> A {
        A::at_rest(
            alloc,
            rest.windows.widest as u64,
            rest.read_count,
            rest.received_end,
            rest.discards(),
        )
    }

    /// The box stays if a smaller one was refused, and goes on as a half at rest.
    #[inline]
    pub(crate) fn let_go(&mut self, alloc: Global, rest: &Rest) {
        *self = LiveHalf::revived(alloc, rest);
    }

    #[inline]
    pub(crate) fn is_done(&self) -> bool {
        self.reader_done || self.is_stopped
    }

    /// None while an offset is missing: a late frame could then want its assembly.
    #[inline]
    pub(crate) fn rested(&self) -> Option<Rest> {
        if !self.is_done() || !self.assembly.received().covers(0, self.received_end) {
            return None;
        }
        Some(Rest {
            read_count: self.read_count,
            received_end: self.received_end,
            limit: self.limit,
            size: self.size,
            reset: self.reset,
            stop: self.stop,
            windows: self.windows,
            is_sized: self.is_sized,
            is_reset: self.is_reset,
            is_stopped: self.is_stopped,
            reader_done: self.reader_done,
        })
    }

    #[inline]
    pub(crate) fn over(&self) -> Option<Over> {
        match self.rested() {
            Some(rest) => rest.over(),
            None => None,
        }
    }

    #[inline]
    pub(crate) fn check_stream(
        &self,
        offset: u64,
        len: u64,
        fin: bool,
    ) -> Result<Highest, RecvFault> {
        if self.breaks_final_size(offset, len, fin) {
            return Err(RecvFault::FinalSize);
        }
        let end = offset + len;
        let before = if self.is_sized {
            self.size
        } else {
            self.received_end
        };
        if before.max(end) > self.limit {
            return Err(RecvFault::StreamCredit);
        }
        let after = if fin {
            end
        } else if self.is_sized || len == 0 {
            before
        } else {
            before.max(end)
        };
        Ok(Highest { before, after })
    }

    #[inline]
    pub(crate) fn check_bytes(&self, offset: u64, bytes: &[u8]) -> Result<(), RecvFault> {
        if self.assembly.same(offset, bytes) {
            Ok(())
        } else {
            Err(RecvFault::ChangedByte)
        }
    }

    #[inline(always)]
    pub(crate) fn judge(&self, offset: u64, bytes: &[u8], fin: bool) -> Judged {
        Judged {
            stream: self.check_stream(offset, bytes.len() as u64, fin),
            bytes: self.check_bytes(offset, bytes),
        }
    }

    #[inline]
    pub(crate) fn take_stream(
        &mut self,
        offset: u64,
        bytes: &[u8],
        fin: bool,
    ) -> Result<(), RecvFault> {
        let end = offset + bytes.len() as u64;
        if !self.is_reset {
            if self.assembly.put(offset, bytes).is_err() {
                return Err(RecvFault::NoMemory);
            }
            self.received_end = end_with(self.received_end, offset, bytes.len() as u64);
        }
        if fin {
            self.is_sized = true;
            self.size = end;
        }
        Ok(())
    }

    #[inline]
    pub(crate) fn stream_changes(&self, offset: u64, len: u64, fin: bool) -> bool {
        if fin && !self.is_sized {
            return true;
        }
        if self.is_reset {
            return false;
        }
        !self.assembly.received().covers(offset, offset + len)
    }

    #[inline]
    pub(crate) fn check_reset(&self, size: u64) -> Result<Highest, RecvFault> {
        debug_assert!(size <= 0x3fff_ffff_ffff_ffff);
        if self.breaks_final_size(size, 0, true) {
            return Err(RecvFault::FinalSize);
        }
        if size > self.limit {
            return Err(RecvFault::StreamCredit);
        }
        Ok(Highest {
            before: self.highest(),
            after: size,
        })
    }

    /// What a reset that passed its check makes of it: a half at rest, which takes its place. None if nothing changes.
    #[inline]
    pub(crate) fn reset(&mut self, code: u64, size: u64) -> Option<Rest> {
        debug_assert!(size <= 0x3fff_ffff_ffff_ffff);
        if self.is_reset || self.is_whole() {
            return None;
        }
        Some(Rest {
            read_count: self.read_count,
            received_end: self.received_end,
            limit: self.limit,
            size,
            reset: code,
            stop: self.stop,
            windows: self.windows,
            is_sized: true,
            is_reset: true,
            is_stopped: self.is_stopped,
            reader_done: self.reader_done,
        })
    }

    #[inline]
    pub(crate) fn read(&mut self, into: &mut [u8]) -> Read {
        if self.is_reset {
            self.reader_done = true;
            return Read::Reset(self.reset);
        }
        if self.is_stopped {
            if self.is_whole() {
                self.reader_done = true;
                return Read::End;
            }
            return Read::Wait;
        }
        if self.is_at_end() {
            self.assembly.give_back();
            self.reader_done = true;
            return Read::End;
        }
        if !self.assembly.received().has(self.read_count) {
            return Read::Wait;
        }
        let count = self.assembly.take(into);
        self.read_count += count as u64;
        Read::Bytes(count)
    }

    #[inline]
    pub(crate) fn stop(&mut self, code: u64) {
        debug_assert!(code <= 0x3fff_ffff_ffff_ffff);
        if self.is_over() {
            return;
        }
        if !self.is_stopped {
            self.assembly.discard();
            self.is_stopped = true;
            self.stop = code;
        }
    }

    #[inline]
    pub(crate) fn stop_and_discard(&mut self, code: u64) {
        debug_assert!(code <= 0x3fff_ffff_ffff_ffff);
        self.stop(code);
        self.reader_done = true;
    }

    #[inline]
    pub(crate) fn raise(&mut self) -> Option<u64> {
        let next = self.raised_limit();
        if next <= self.limit {
            return None;
        }
        self.limit = next;
        Some(next)
    }

    #[inline]
    pub(crate) fn raised_limit(&self) -> u64 {
        if self.is_sized {
            return self.limit;
        }
        let windows = self.windows;
        next_limit(self.limit, self.taken(), windows.size as u64, windows.share)
    }

    #[inline]
    pub(crate) fn set_window(&mut self, window: u64) {
        debug_assert!(1 <= window);
        debug_assert!(window <= 1 << 30);
        let taken = self.taken();
        if !self.is_sized {
            self.limit = limit_with(self.windows.size as u64, self.limit, taken, window);
        }
        self.assembly.widen(window);
        self.windows = self.windows.with(window);
    }

    #[inline]
    pub(crate) fn sizes(&self) -> Sizes {
        let spent = if self.is_sized {
            self.size
        } else {
            self.received_end
        };
        let taken = if self.is_reset || self.is_stopped {
            spent
        } else {
            self.read_count
        };
        let noted = if self.is_reset || (self.reader_done && self.is_whole()) {
            0
        } else {
            self.assembly.received().count() as u64
        };
        Sizes {
            spent,
            taken,
            stored: self.assembly.stored(),
            noted,
            is_stopped: self.is_stopped,
        }
    }

    #[inline]
    pub(crate) fn standing(&self) -> Standing {
        if self.reader_done {
            return Standing {
                is_readable: false,
                has_ended: self.is_reset || self.is_whole(),
            };
        }
        let is_readable = if self.is_stopped && !self.is_reset {
            self.is_whole()
        } else {
            self.is_reset
                || (self.is_sized && self.read_count == self.size)
                || self.assembly.received().has(self.read_count)
        };
        Standing {
            is_readable,
            has_ended: false,
        }
    }

    #[inline]
    pub(crate) fn limit(&self) -> u64 {
        self.limit
    }

    #[inline]
    pub(crate) fn taken(&self) -> u64 {
        if self.is_reset || self.is_stopped {
            self.highest()
        } else {
            self.read_count
        }
    }

    #[inline]
    pub(crate) fn highest(&self) -> u64 {
        if self.is_sized {
            self.size
        } else {
            self.received_end
        }
    }

    #[inline]
    pub(crate) fn final_size(&self) -> Option<u64> {
        given(self.is_sized, self.size)
    }

    #[inline]
    pub(crate) fn is_told(&self) -> bool {
        self.reader_done
    }

    #[inline]
    pub(crate) fn state(&self) -> RecvState {
        if self.is_reset {
            if self.reader_done {
                RecvState::ResetRead
            } else {
                RecvState::ResetRecvd
            }
        } else if self.is_whole() {
            if self.reader_done {
                RecvState::DataRead
            } else {
                RecvState::DataRecvd
            }
        } else if self.is_sized {
            RecvState::SizeKnown
        } else {
            RecvState::Recv
        }
    }

    #[inline]
    pub(crate) fn held(&self) -> Memory<'_, A> {
        Memory {
            bytes: self.assembly.held(),
            assembly: Some(&self.assembly),
        }
    }

    #[inline]
    pub(crate) fn read_count(&self) -> u64 {
        self.read_count
    }

    #[inline]
    pub(crate) fn stop_code(&self) -> Option<u64> {
        given(self.is_stopped, self.stop)
    }

    #[inline]
    pub(crate) fn reset_code(&self) -> Option<u64> {
        given(self.is_reset, self.reset)
    }

    #[inline]
    pub(crate) fn is_over(&self) -> bool {
        self.reader_done && (self.is_reset || self.is_whole())
    }

    fn is_at_end(&self) -> bool {
        self.is_sized && self.read_count == self.size
    }

    // Seldom called, and apart so that its callers are small.
    #[inline(never)]
    fn is_whole(&self) -> bool {
        self.is_sized && self.assembly.received().covers(0, self.size)
    }

    fn breaks_final_size(&self, offset: u64, len: u64, fin: bool) -> bool {
        let end = offset + len;
        if self.is_sized {
            return (len > 0 && self.size < end) || (fin && end != self.size);
        }
        fin && end < self.received_end
    }
}

impl<A: Peeking> LiveHalf<A> {
    #[inline]
    pub(crate) fn peek(&self) -> Peek<'_> {
        if self.is_reset {
            return Peek::Reset(self.reset);
        }
        if self.is_stopped {
            if self.is_whole() {
                return Peek::End;
            }
            return Peek::Wait;
        }
        if self.is_at_end() {
            return Peek::End;
        }
        if !self.assembly.received().has(self.read_count) {
            return Peek::Wait;
        }
        let (front, back) = self.assembly.front();
        Peek::Bytes(front, back)
    }
}

impl<A: Skipping> LiveHalf<A> {
    #[inline]
    pub(crate) fn skip(&mut self, most: usize) -> Read {
        if self.is_reset {
            self.reader_done = true;
            return Read::Reset(self.reset);
        }
        if self.is_stopped {
            if self.is_whole() {
                self.reader_done = true;
                return Read::End;
            }
            return Read::Wait;
        }
        if self.is_at_end() {
            self.assembly.give_back();
            self.reader_done = true;
            return Read::End;
        }
        if !self.assembly.received().has(self.read_count) {
            return Read::Wait;
        }
        let count = self.assembly.skip(most);
        self.read_count += count as u64;
        Read::Bytes(count)
    }
}

fn end_with(before: u64, offset: u64, len: u64) -> u64 {
    if len == 0 {
        before
    } else {
        before.max(offset + len)
    }
}
