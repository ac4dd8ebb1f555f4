// Made from crates/qs_recv/src/credit.rt by rust/erase; not edited by hand.
//! How much more a peer may send.

const MAX_VARINT: u64 = (1 << 62) - 1;

/// Shares are few, so that a step needs no division, and a half keeps its share in a byte.
#[derive(Clone, Copy, Debug, PartialEq, Eq)]
pub enum Share {
    Half,
    Quarter,
    Eighth,
    Sixteenth,
}

/// The limit that follows one after so much was consumed of a window: it moves once that is such a share more, so that not each read costs
/// a frame (RFC 9000, section 4.2).
#[inline]
pub fn next_limit(limit: u64, taken: u64, window: u64, share: Share) -> u64 {
    debug_assert!(limit <= 0x3fff_ffff_ffff_ffff);
    debug_assert!(taken <= 0x3fff_ffff_ffff_ffff);
    debug_assert!(window <= 1 << 40);
    let next = (taken + window).min(MAX_VARINT);
    let step = step_of(share, window);
    if limit + step <= next || (next == MAX_VARINT && limit < next) {
        next
    } else {
        limit
    }
}

/// The limit under another window. A greater one moves it at once: a step that is never reached would hide it. Under a smaller one it
/// stays, since no limit may fall (RFC 9000, section 4.1).
#[inline]
pub(crate) fn limit_with(old: u64, granted: u64, taken: u64, window: u64) -> u64 {
    debug_assert!(granted <= 0x3fff_ffff_ffff_ffff);
    debug_assert!(taken <= 0x3fff_ffff_ffff_ffff);
    debug_assert!(window <= 1 << 40);
    if old < window {
        granted.max((taken + window).min(MAX_VARINT))
    } else {
        granted
    }
}

/// A share rounds down, and is 1 at least: a limit that moves by 0 would never move.
#[inline]
pub fn step_of(share: Share, whole: u64) -> u64 {
    let part = match share {
        Share::Half => whole / 2,
        Share::Quarter => whole / 4,
        Share::Eighth => whole / 8,
        Share::Sixteenth => whole / 16,
    };
    part.max(1)
}
