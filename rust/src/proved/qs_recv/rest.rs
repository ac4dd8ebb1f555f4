// Made from crates/qs_recv/src/rest.rt by rust/erase; not edited by hand.
//! A receiving half that stores nothing, in few bytes. A half is kept until its connection ends, so what one takes that is over counts for
//! every stream that ever was.

use crate::proved::qs_recv::credit::{Share, limit_with, next_limit};
use crate::proved::qs_recv::half::{Peek, Read, RecvState, Sizes, Standing};
use crate::proved::qs_recv::over::Over;
use crate::proved::qs_recv::window::Windows;

/// A receiving half that stores nothing, and has received exactly the offsets below `received_end`: one that never carried a byte, or that
/// is over. It could be so whenever all that came was read, but then a stream that is read as it arrives would take a box and a ring for
/// each frame. Numbers with a flag apart, since an `Option<u64>` takes twice the bytes.
pub(crate) struct Rest {
    pub(crate) read_count: u64,
    pub(crate) received_end: u64,
    pub(crate) limit: u64,
    pub(crate) size: u64,
    pub(crate) reset: u64,
    pub(crate) stop: u64,
    pub(crate) windows: Windows,
    pub(crate) is_sized: bool,
    pub(crate) is_reset: bool,
    pub(crate) is_stopped: bool,
    pub(crate) reader_done: bool,
}

impl Rest {
    #[inline]
    pub(crate) fn new(window: u64, share: Share) -> Self {
        debug_assert!(1 <= window);
        debug_assert!(window <= 1 << 30);
        Rest {
            read_count: 0,
            received_end: 0,
            limit: window,
            size: 0,
            reset: 0,
            stop: 0,
            windows: Windows {
                widest: window as u32,
                size: window as u32,
                share,
            },
            is_sized: false,
            is_reset: false,
            is_stopped: false,
            reader_done: false,
        }
    }

    /// Takes a frame that passed its check, if that stores no byte and leaves no gap. Else it answers false and changes nothing: the half
    /// needs its assembly, and so memory.
    #[inline]
    pub(crate) fn takes(&mut self, offset: u64, bytes: &[u8], fin: bool) -> bool {
        let Some(received_end) = self.end_with(offset, bytes) else {
            return false;
        };
        self.received_end = received_end;
        if fin {
            self.is_sized = true;
            self.size = offset + bytes.len() as u64;
        }
        true
    }

    #[inline]
    pub(crate) fn take_reset(&mut self, code: u64, size: u64) {
        debug_assert!(size <= 0x3fff_ffff_ffff_ffff);
        if self.is_reset || self.is_whole() {
            return;
        }
        self.is_sized = true;
        self.size = size;
        self.is_reset = true;
        self.reset = code;
    }

    /// There are no bytes, so it takes no slice.
    #[inline]
    pub(crate) fn read(&mut self) -> Read {
        if self.is_reset {
            self.reader_done = true;
            return Read::Reset(self.reset);
        }
        if self.ends() {
            self.reader_done = true;
            return Read::End;
        }
        Read::Wait
    }

    #[inline]
    pub(crate) fn peek(&self) -> Peek<'_> {
        if self.is_reset {
            return Peek::Reset(self.reset);
        }
        if self.ends() { Peek::End } else { Peek::Wait }
    }

    #[inline]
    pub(crate) fn is_told(&self) -> bool {
        self.reader_done
    }

    /// The first code stays, and what is over isn't stopped: so a half that is over keeps no code, and its numbers are few.
    #[inline]
    pub(crate) fn stop(&mut self, code: u64) {
        debug_assert!(code <= 0x3fff_ffff_ffff_ffff);
        if self.is_over() {
            return;
        }
        if !self.is_stopped {
            self.is_stopped = true;
            self.stop = code;
        }
    }

    /// Setting `told` with the stop is all: a half is over once its reader knows the end, and that reader doesn't ask.
    #[inline]
    pub(crate) fn stop_and_discard(&mut self, code: u64) {
        debug_assert!(code <= 0x3fff_ffff_ffff_ffff);
        self.stop(code);
        self.reader_done = true;
    }

    #[inline]
    pub(crate) fn raise(&mut self) -> Option<u64> {
        let next = self.raised_limit();
        if next <= self.limit {
            return None;
        }
        self.limit = next;
        Some(next)
    }

    #[inline]
    pub(crate) fn raised_limit(&self) -> u64 {
        if self.is_sized {
            return self.limit;
        }
        let windows = self.windows;
        next_limit(self.limit, self.taken(), windows.size as u64, windows.share)
    }

    #[inline]
    pub(crate) fn set_window(&mut self, window: u64) {
        debug_assert!(1 <= window);
        debug_assert!(window <= 1 << 30);
        let taken = self.taken();
        if !self.is_sized {
            self.limit = limit_with(self.windows.size as u64, self.limit, taken, window);
        }
        self.windows = self.windows.with(window);
    }

    #[inline]
    pub(crate) fn sizes(&self) -> Sizes {
        Sizes {
            spent: self.highest(),
            taken: self.taken(),
            stored: self.stored(),
            noted: self.noted(),
            is_stopped: self.is_stopped,
        }
    }

    #[inline]
    pub(crate) fn standing(&self) -> Standing {
        if self.reader_done {
            return Standing {
                is_readable: false,
                has_ended: self.is_over(),
            };
        }
        Standing {
            is_readable: self.is_reset || !matches!(self.peek(), Peek::Wait),
            has_ended: false,
        }
    }

    #[inline]
    pub(crate) fn limit(&self) -> u64 {
        self.limit
    }

    #[inline]
    pub(crate) fn taken(&self) -> u64 {
        if self.is_reset || self.is_stopped {
            self.highest()
        } else {
            self.read_count
        }
    }

    #[inline]
    pub(crate) fn highest(&self) -> u64 {
        if self.is_sized {
            self.size
        } else {
            self.received_end
        }
    }

    #[inline]
    pub(crate) fn noted(&self) -> u64 {
        if self.keeps_none() {
            return 0;
        }
        if self.received_end > 0 { 1 } else { 0 }
    }

    #[inline]
    pub(crate) fn final_size(&self) -> Option<u64> {
        given(self.is_sized, self.size)
    }

    #[inline]
    pub(crate) fn stored(&self) -> u64 {
        let _ = &self.limit;
        0
    }

    #[inline]
    pub(crate) fn read_count(&self) -> u64 {
        self.read_count
    }

    #[inline]
    pub(crate) fn stop_code(&self) -> Option<u64> {
        given(self.is_stopped, self.stop)
    }

    #[inline]
    pub(crate) fn reset_code(&self) -> Option<u64> {
        given(self.is_reset, self.reset)
    }

    #[inline]
    pub(crate) fn state(&self) -> RecvState {
        if self.is_reset {
            if self.reader_done {
                RecvState::ResetRead
            } else {
                RecvState::ResetRecvd
            }
        } else if self.is_whole() {
            if self.reader_done {
                RecvState::DataRead
            } else {
                RecvState::DataRecvd
            }
        } else if self.is_sized {
            RecvState::SizeKnown
        } else {
            RecvState::Recv
        }
    }

    #[inline]
    pub(crate) fn over(&self) -> Option<Over> {
        if !self.reader_done || self.is_reset || self.is_stopped || !self.is_sized {
            return None;
        }
        Some(Over {
            end: self.size,
            past: (self.limit - self.size) as u32,
            windows: self.windows,
        })
    }

    // None if one of its bytes would be stored, or the offsets would lie apart: only then an assembly is needed.
    fn end_with(&self, offset: u64, bytes: &[u8]) -> Option<u64> {
        let end = offset + bytes.len() as u64;
        if self.is_reset || end <= offset || end <= self.received_end {
            return Some(self.received_end);
        }
        if self.is_stopped && offset <= self.received_end {
            return Some(end);
        }
        None
    }

    fn ends(&self) -> bool {
        if self.is_stopped {
            self.is_whole()
        } else {
            self.is_sized && self.read_count == self.size
        }
    }

    #[inline]
    pub(crate) fn discards(&self) -> bool {
        self.is_reset || self.is_stopped
    }

    // After a reset, or once over: nothing asks any more which offsets came.
    fn keeps_none(&self) -> bool {
        (self.reader_done && self.is_whole()) || self.is_reset
    }

    #[inline]
    pub(crate) fn is_over(&self) -> bool {
        self.reader_done && (self.is_reset || self.is_whole())
    }

    fn is_whole(&self) -> bool {
        self.is_sized && self.size <= self.received_end
    }
}

#[inline]
pub(crate) fn given(is_there: bool, number: u64) -> Option<u64> {
    if is_there { Some(number) } else { None }
}
