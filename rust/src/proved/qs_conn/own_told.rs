// Made from crates/qs_conn/src/own_told.rt by rust/erase; not edited by hand.
use crate::proved::qs_conn::outbox::Outbox;
use crate::proved::qs_send::Item;
use crate::proved::qs_wire::Dir;

/// A limit and two counts of streams for the peer, and what this endpoint lacks of its own three.
pub(crate) const OWN_ITEMS: usize = 6;

/// For each kind the value that went into a packet last, unless that was lost. A value instead of a mark, which would have to be set as a
/// limit rises: no packet told more than the present value, so nothing is due if that is the one that is kept.
pub(crate) struct OwnTold {
    values: [Option<u64>; 6],
}

impl OwnTold {
    #[inline]
    pub(crate) fn new() -> Self {
        OwnTold {
            values: [None, None, None, None, None, None],
        }
    }

    #[inline(always)]
    pub(crate) fn has(&self, item: &Item) -> bool {
        let place = place_of(item);
        if place >= OWN_ITEMS {
            return false;
        }
        matches!(self.values[place], Some(value) if value == value_of(item))
    }

    #[inline]
    pub(crate) fn is_told(&self, outbox: &Outbox, item: &Item) -> bool {
        if self.has(item) {
            return true;
        }
        outbox.is_acked(*item)
    }

    #[inline]
    pub(crate) fn insert(&mut self, item: &Item) {
        let place = place_of(item);
        if place < OWN_ITEMS {
            self.values[place] = Some(value_of(item));
        }
    }

    #[inline]
    pub(crate) fn remove(&mut self, item: &Item) {
        if self.has(item) {
            self.values[place_of(item)] = None;
        }
    }
}

#[inline(always)]
fn place_of(item: &Item) -> usize {
    match *item {
        Item::MaxData { .. } => 0,
        Item::MaxStreams { dir, .. } => 1 + number_of(dir),
        Item::DataBlocked { .. } => 3,
        Item::StreamsBlocked { dir, .. } => 4 + number_of(dir),
        _ => OWN_ITEMS,
    }
}

#[inline(always)]
fn value_of(item: &Item) -> u64 {
    match *item {
        Item::MaxData { maximum } => maximum,
        Item::DataBlocked { limit } => limit,
        Item::MaxStreams { count, .. } => count,
        Item::StreamsBlocked { count, .. } => count,
        _ => 0,
    }
}

#[inline(always)]
fn number_of(dir: Dir) -> usize {
    match dir {
        Dir::Bidi => 0,
        Dir::Uni => 1,
    }
}
