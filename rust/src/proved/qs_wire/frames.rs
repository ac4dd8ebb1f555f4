// Made from crates/qs_wire/src/frames.rt by rust/erase; not edited by hand.
//! The frames of a payload, one after the other.

use crate::proved::qs_wire::fault::{FaultKind, WireFault};
use crate::proved::qs_wire::frame::Placed;
use crate::proved::qs_wire::reading::{Broken, frame_at, stream_frame_at};

/// Gives the frames of a payload in order. It ends at the payload's end, or at the first fault.
#[derive(Debug)]
pub struct Frames<'a> {
    place: usize,
    rest: &'a [u8],
}

fn fault_at(place: usize, broken: Broken) -> WireFault {
    WireFault {
        kind: broken.kind,
        place,
        code: broken.kind.code(),
        frame_type: broken.frame_type,
    }
}

impl<'a> Frames<'a> {
    /// The frames of the payload.
    #[inline]
    pub fn new(payload: &'a [u8]) -> Frames<'a> {
        Frames {
            place: 0,
            rest: payload,
        }
    }

    /// The next frame, if it is a STREAM frame without a fault: most are, and this way to them is short. Else `None`, and nothing changes.
    #[inline(always)]
    pub fn next_stream(&mut self) -> Option<Placed<'a>> {
        let place = self.place;
        match stream_frame_at(self.rest) {
            Some((frame_type, frame, rest)) => {
                self.place += self.rest.len() - rest.len();
                self.rest = rest;
                Some(Placed {
                    place,
                    frame,
                    frame_type,
                })
            }
            None => None,
        }
    }

    /// The next frame, `None` after the last, or the fault that stands in place of a frame. After a
    /// fault it gives that fault again, and after the end `None`.
    #[inline]
    pub fn next(&mut self) -> Result<Option<Placed<'a>>, WireFault> {
        let place = self.place;
        if self.rest.is_empty() {
            if place > 0 {
                return Ok(None);
            }
            return Err(fault_at(
                place,
                Broken {
                    kind: FaultKind::Empty,
                    frame_type: 0,
                },
            ));
        }
        match frame_at(self.rest) {
            Ok((frame_type, frame, rest)) => {
                self.place += self.rest.len() - rest.len();
                self.rest = rest;
                Ok(Some(Placed {
                    place,
                    frame,
                    frame_type,
                }))
            }
            Err(broken) => Err(fault_at(place, broken)),
        }
    }
}
