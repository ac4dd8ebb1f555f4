// Made from crates/qs_conn/src/told.rt by rust/erase; not edited by hand.
//! What was acknowledged of control items.

use crate::proved::qs_conn::by_dir::ByDir;
use crate::proved::qs_ranges::{NoMemory, RangeSet};
use crate::proved::qs_send::Item;
use crate::proved::qs_wire::StreamId;
use crate::shim::alloc::Global;
use crate::shim::collections::BTreeMap;

/// The greatest acknowledged value of each control item is enough: no item's value ever falls, so an older one is covered. A reset's is in
/// its half.
pub(crate) struct ToldItems {
    max_data: Option<u64>,
    max_stream_data: StreamValues,
    stop_sending: RangeSet,
    data_blocked: Option<u64>,
    stream_data_blocked: StreamValues,
    blocked: ByDir<Option<u64>>,
    streams: ByDir<Option<u64>>,
}

impl ToldItems {
    #[inline]
    pub(crate) fn new(alloc: Global) -> Self {
        ToldItems {
            max_data: None,
            max_stream_data: StreamValues::new(alloc),
            stop_sending: RangeSet::new(alloc),
            data_blocked: None,
            stream_data_blocked: StreamValues::new(alloc),
            blocked: ByDir::new(None, None),
            streams: ByDir::new(None, None),
        }
    }

    #[inline]
    pub(crate) fn note(&mut self, item: Item) -> Result<(), NoMemory> {
        match item {
            Item::MaxData { maximum } => {
                self.max_data = greatest(self.max_data, maximum);
                Ok(())
            }
            Item::MaxStreamData { stream, maximum } => {
                self.max_stream_data.raise(stream, maximum)
            }
            Item::MaxStreams { dir, count } => {
                self.streams.set(dir, greatest(self.streams.of(dir), count));
                Ok(())
            }
            Item::ResetStream { .. } => Ok(()),
            Item::StopSending { stream, .. } => add(&mut self.stop_sending, stream),
            Item::DataBlocked { limit } => {
                self.data_blocked = greatest(self.data_blocked, limit);
                Ok(())
            }
            Item::StreamDataBlocked { stream, limit } => {
                self.stream_data_blocked.raise(stream, limit)
            }
            Item::StreamsBlocked { dir, count } => {
                self.blocked.set(dir, greatest(self.blocked.of(dir), count));
                Ok(())
            }
        }
    }

    #[inline]
    pub(crate) fn is_acked(&self, item: Item) -> bool {
        match item {
            Item::MaxData { maximum } => self.max_data == Some(maximum),
            Item::MaxStreamData { stream, maximum } => {
                self.max_stream_data.is_greatest(stream, maximum)
            }
            Item::MaxStreams { dir, count } => self.streams.of(dir) == Some(count),
            Item::ResetStream { .. } => false,
            Item::StopSending { stream, .. } => self.stop_sending.has(stream.value()),
            Item::DataBlocked { limit } => self.data_blocked == Some(limit),
            Item::StreamDataBlocked { stream, limit } => {
                self.stream_data_blocked.is_greatest(stream, limit)
            }
            Item::StreamsBlocked { dir, count } => self.blocked.of(dir) == Some(count),
        }
    }
}

fn greatest(known: Option<u64>, value: u64) -> Option<u64> {
    match known {
        Some(before) => Some(before.max(value)),
        None => Some(value),
    }
}

fn add(streams: &mut RangeSet, stream: StreamId) -> Result<(), NoMemory> {
    let number = stream.value();
    streams.insert(number, number + 1)
}

pub(crate) struct StreamValues {
    values: BTreeMap<u64, u64>,
}

impl StreamValues {
    #[inline]
    pub(crate) fn new(alloc: Global) -> Self {
        StreamValues {
            values: BTreeMap::new(alloc),
        }
    }

    #[inline]
    pub(crate) fn raise(&mut self, stream: StreamId, value: u64) -> Result<(), NoMemory> {
        let number = stream.value();
        let known = self.values.get(&number).copied().unwrap_or(0);
        self.values.insert(number, known.max(value))?;
        Ok(())
    }

    #[inline]
    pub(crate) fn is_greatest(&self, stream: StreamId, value: u64) -> bool {
        self.values.get(&stream.value()).copied() == Some(value)
    }
}
