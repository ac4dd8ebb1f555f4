// Made from crates/qs_send/src/offsets.rt by rust/erase; not edited by hand.
//! The written offsets of a half. Those that are all acknowledged take no memory.
use crate::shim::Box;

use crate::proved::qs_send::live_offsets::LiveOffsets;
use crate::proved::qs_ranges::NoMemory;
use crate::shim::alloc::Global;

/// Without a box as a half begins, and again once its last ACK has come: most streams are then over, and stay for the connection's life. In
/// between the box stays, since a stream that is written to again would take it anew.
pub struct Offsets {
    alloc: Global,
    written: u64,
    // None: each offset is acknowledged, and nothing is kept or due.
    live: Option<Box<LiveOffsets>>,
}

/// The memory that a half takes for the bytes that it keeps: so many bytes, and the offsets whose buffer takes them. A half that is over takes
/// none.
#[derive(Clone, Copy)]
pub struct Memory<'a> {
    pub bytes: u64,
    pub offsets: Option<&'a Offsets>,
}

impl Offsets {
    #[inline]
    pub(crate) fn new(alloc: Global) -> Self {
        Self {
            alloc,
            written: 0,
            live: None,
        }
    }

    #[inline(always)]
    pub(crate) fn written(&self) -> u64 {
        self.written
    }

    #[inline(always)]
    pub(crate) fn sent_end(&self) -> u64 {
        match &self.live {
            None => self.written,
            Some(live) => live.sent_end(),
        }
    }

    #[inline]
    pub(crate) fn unacked_from(&self) -> u64 {
        match &self.live {
            None => self.written,
            Some(live) => live.unacked_from(),
        }
    }

    #[inline(always)]
    pub(crate) fn kept_len(&self) -> usize {
        match &self.live {
            None => 0,
            Some(live) => live.kept_len(),
        }
    }

    #[inline]
    pub(crate) fn held(&self) -> usize {
        match &self.live {
            None => 0,
            Some(live) => live.held(),
        }
    }

    #[inline(always)]
    pub(crate) fn part(&self, from: usize, len: usize) -> (&[u8], &[u8]) {
        match &self.live {
            None => (&[], &[]),
            Some(live) => live.part(from, len),
        }
    }

    #[inline]
    pub(crate) fn write(&mut self, bytes: &[u8], most: usize) -> Result<(), NoMemory> {
        let Some(live) = &mut self.live else {
            return self.begin(bytes, most);
        };
        live.write(bytes, most)?;
        self.written += bytes.len() as u64;
        Ok(())
    }

    // The first bytes of a half take its box: the one allocation besides the buffer.
    fn begin(&mut self, bytes: &[u8], most: usize) -> Result<(), NoMemory> {
        let mut live = Box::new(self.alloc, LiveOffsets::at_rest(self.alloc, self.written))?;
        live.write(bytes, most)?;
        self.written += bytes.len() as u64;
        self.live = Some(live);
        Ok(())
    }

    #[inline(always)]
    pub(crate) fn sent(&mut self, end: u64) {
        let Some(live) = &mut self.live else {
            return;
        };
        live.sent(end);
    }

    /// With the last ACK the box goes. Unchanged if memory was refused.
    #[inline]
    pub(crate) fn acked(&mut self, lo: u64, hi: u64, is_over: bool) -> Result<(), NoMemory> {
        debug_assert!(lo <= hi);
        let Some(live) = &mut self.live else {
            return Ok(());
        };
        live.acked(lo, hi, is_over)?;
        if is_over && live.rests() {
            self.live = None;
        }
        Ok(())
    }

    /// What isn't acknowledged is due again. Unchanged if memory was refused.
    #[inline]
    pub(crate) fn lost(&mut self, lo: u64, hi: u64) -> Result<(), NoMemory> {
        debug_assert!(lo <= hi);
        let Some(live) = &mut self.live else {
            return Ok(());
        };
        live.lost(lo, hi)?;
        Ok(())
    }

    #[inline]
    pub(crate) fn let_all_go(&mut self) {
        let Some(live) = &mut self.live else {
            return;
        };
        live.let_all_go();
    }

    #[inline]
    pub(crate) fn due_run(&self) -> Option<(u64, u64)> {
        match &self.live {
            None => None,
            Some(live) => live.due_run(),
        }
    }
}
