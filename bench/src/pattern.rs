//! The bytes that all rows transfer: the byte at an offset is the offset modulo 251. A row's first run warms up and compares each byte
//! that is read. The second run is timed and compares nothing.

use std::sync::LazyLock;
use std::sync::atomic::{AtomicBool, Ordering};

const PERIOD: u64 = 251;

/// How many bytes are compared at once.
const AT_ONCE: usize = 1 << 16;

static IS_CHECKED: AtomicBool = AtomicBool::new(true);

/// Turns comparing off.
pub fn check_no_more() {
    IS_CHECKED.store(false, Ordering::Relaxed);
}

/// A buffer that holds, for each offset modulo 251, a piece of up to this length.
pub struct Source {
    bytes: Vec<u8>,
    each: usize,
}

impl Source {
    pub fn new(each: usize) -> Source {
        let bytes = (0..each as u64 + PERIOD).map(|i| (i % PERIOD) as u8);
        Source {
            bytes: bytes.collect(),
            each,
        }
    }

    pub fn each(&self) -> usize {
        self.each
    }

    /// The bytes of a stream at this offset.
    pub fn at(&self, offset: u64) -> &[u8] {
        let from = (offset % PERIOD) as usize;
        &self.bytes[from..from + self.each]
    }
}

/// Compares the bytes with those of a stream at this offset, if comparing is on.
#[inline]
pub fn check(offset: u64, bytes: &[u8]) {
    if IS_CHECKED.load(Ordering::Relaxed) {
        compare(offset, bytes);
    }
}

#[cold]
#[inline(never)]
fn compare(offset: u64, bytes: &[u8]) {
    static WANTED: LazyLock<Source> = LazyLock::new(|| Source::new(AT_ONCE));
    for (place, some) in bytes.chunks(AT_ONCE).enumerate() {
        let wanted = WANTED.at(offset + (place * AT_ONCE) as u64);
        assert!(some == &wanted[..some.len()], "the bytes differ");
    }
}
