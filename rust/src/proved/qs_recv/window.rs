// Made from crates/qs_recv/src/window.rt by rust/erase; not edited by hand.
//! The windows of a receiving half and the share by which its limit moves, in 12 bytes. They stay with the half, so that no call hands them
//! in and no stream costs a look at the settings.

use crate::proved::qs_recv::credit::Share;

/// The greatest window that was set bounds what an assembly may hold, since credit that was granted stays.
#[derive(Clone, Copy)]
pub(crate) struct Windows {
    pub(crate) widest: u32,
    pub(crate) size: u32,
    pub(crate) share: Share,
}

impl Windows {
    #[inline]
    pub(crate) fn with(self, window: u64) -> Self {
        debug_assert!(window <= 1 << 30);
        let size = window as u32;
        Windows {
            widest: self.widest.max(size),
            size,
            share: self.share,
        }
    }
}
