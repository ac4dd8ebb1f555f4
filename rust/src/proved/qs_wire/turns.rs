// Made from crates/qs_wire/src/turns.rt by rust/erase; not edited by hand.
//! The last stream of which a payload carries something.

use crate::proved::qs_wire::frame::Frame;
use crate::proved::qs_wire::frames::Frames;
use crate::proved::qs_wire::stream_id::StreamId;

/// The stream of the last STREAM frame in a payload, up to its end or its first fault; `None` if there is none. For round-robin, the next
/// packet goes on behind it.
#[inline]
pub fn last_stream(payload: &[u8]) -> Option<StreamId> {
    let mut frames = Frames::new(payload);
    let mut last = None;
    loop {
        match frames.next() {
            Ok(Some(placed)) => last = stream_or(last, &placed.frame),
            _ => return last,
        }
    }
}

fn stream_or(last: Option<StreamId>, frame: &Frame<'_>) -> Option<StreamId> {
    match frame {
        Frame::Stream { stream, .. } => Some(*stream),
        _ => last,
    }
}
