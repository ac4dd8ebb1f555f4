// Made from crates/qs_streams/src/places.rt by rust/erase; not edited by hand.
//! Where a stream stands in a table.

use crate::proved::qs_wire::StreamId;

/// A stream with its place in a table, which is worked out once for a frame and not at each look.
#[derive(Clone, Copy)]
pub struct Place {
    pub id: StreamId,
    pub stream_type: usize,
    pub index: usize,
}

impl Place {
    #[inline(always)]
    pub fn of(stream: StreamId) -> Place {
        let number = stream.value();
        Place {
            id: stream,
            stream_type: (number % 4) as usize,
            index: (number / 4) as usize,
        }
    }
}

#[inline(always)]
pub fn type_of(stream: StreamId) -> usize {
    (stream.value() % 4) as usize
}

#[inline(always)]
pub fn index_of(stream: StreamId) -> usize {
    (stream.value() / 4) as usize
}

#[inline]
pub fn index_from(stream_type: usize, from: u64) -> usize {
    debug_assert!(stream_type < 4);
    debug_assert!(from <= 1 << 62);
    ((from + 3 - stream_type as u64) / 4) as usize
}

/// `None` is as a number past all streams.
#[inline(always)]
pub fn lesser(a: Option<u64>, b: Option<u64>) -> Option<StreamId> {
    StreamId::new(a.unwrap_or(u64::MAX).min(b.unwrap_or(u64::MAX)))
}

/// One for each type, since tables are by type and a search goes by number.
#[inline(always)]
pub fn least_stream(
    a: Option<u64>,
    b: Option<u64>,
    c: Option<u64>,
    d: Option<u64>,
) -> Option<StreamId> {
    // None as a number past all streams': so three minima are all.
    let bidi = a.unwrap_or(u64::MAX).min(b.unwrap_or(u64::MAX));
    let uni = c.unwrap_or(u64::MAX).min(d.unwrap_or(u64::MAX));
    StreamId::new(bidi.min(uni))
}
