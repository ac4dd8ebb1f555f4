// Made from crates/qs_recv/src/over.rt by rust/erase; not edited by hand.
//! A receiving half that was read to its end, in 24 bytes. Most streams that ever were are such: whole, read, neither reset nor stopped.

use crate::proved::qs_recv::rest::Rest;
use crate::proved::qs_recv::window::Windows;

/// Its length, how far its limit lies past that (at most the greatest window, so four bytes do), and its windows. Nothing that may still
/// come or be called changes any of it but another window, so it needs no box.
pub(crate) struct Over {
    pub(crate) end: u64,
    pub(crate) past: u32,
    pub(crate) windows: Windows,
}

impl Over {
    #[inline]
    pub(crate) fn rest(&self) -> Rest {
        Rest {
            read_count: self.end,
            received_end: self.end,
            limit: self.end + self.past as u64,
            size: self.end,
            reset: 0,
            stop: 0,
            windows: self.windows,
            is_sized: true,
            is_reset: false,
            is_stopped: false,
            reader_done: true,
        }
    }

    #[inline]
    pub(crate) fn set_window(&mut self, window: u64) {
        debug_assert!(1 <= window);
        debug_assert!(window <= 1 << 30);
        self.windows = self.windows.with(window);
    }

    #[inline]
    pub(crate) fn is_over(&self) {
        let _ = &self.end;
    }
}
