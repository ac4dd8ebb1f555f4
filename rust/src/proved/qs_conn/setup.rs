// Made from crates/qs_conn/src/setup.rt by rust/erase; not edited by hand.
//! Whether an endpoint can be made.

use crate::proved::qs_calls::{MAX_VARINT, PeerLimits, Settings, SetupFault};

#[inline]
pub(crate) fn setup_fault(settings: &Settings, peer: &PeerLimits) -> Option<SetupFault> {
    fault_where(are_within(1 << 24, 1 << 20, 4096, 1 << 16, settings), peer)
}

#[inline]
pub(crate) fn wide_setup_fault(settings: &Settings, peer: &PeerLimits) -> Option<SetupFault> {
    fault_where(
        are_within(1 << 40, 1 << 30, 1 << 17, 1 << 21, settings),
        peer,
    )
}

// Own settings first: they are the caller's own fault.
fn fault_where(in_range: bool, peer: &PeerLimits) -> Option<SetupFault> {
    if in_range {
        limits_fault(peer)
    } else {
        Some(SetupFault::OutOfRange)
    }
}

#[inline]
pub(crate) fn limits_fault(peer: &PeerLimits) -> Option<SetupFault> {
    if !are_spellable(peer) {
        Some(SetupFault::OutOfRange)
    } else if !are_countable(peer) {
        Some(SetupFault::TooManyStreams)
    } else {
        None
    }
}

#[inline]
pub(crate) fn is_between(low: u64, high: u64, n: u64) -> bool {
    low <= n && n <= high
}

fn are_within(conn_window: u64, window: u64, grant: u64, lifetime: u64, s: &Settings) -> bool {
    is_between(1, conn_window, s.conn_window)
        && is_between(1, window, s.bidi_local)
        && is_between(1, window, s.bidi_remote)
        && is_between(1, window, s.uni)
        && is_between(1, window, s.send_buffer as u64)
        && s.grant_bidi <= grant
        && s.grant_uni <= grant
        && is_between(s.grant_bidi, lifetime, s.lifetime_bidi)
        && is_between(s.grant_uni, lifetime, s.lifetime_uni)
}

fn are_spellable(p: &PeerLimits) -> bool {
    p.max_data <= MAX_VARINT
        && p.bidi_local <= MAX_VARINT
        && p.bidi_remote <= MAX_VARINT
        && p.uni <= MAX_VARINT
}

fn are_countable(p: &PeerLimits) -> bool {
    p.streams_bidi <= 1 << 60 && p.streams_uni <= 1 << 60
}
