// Made from crates/qs_text/src/payload.rt by rust/erase; not edited by hand.
//! The frames of a payload, a line for each.

use crate::shim::{String, Vec};

use crate::proved::qs_text::frame_text::{push_fault, push_frame};
use crate::proved::qs_text::words::push_hex;
use crate::proved::qs_wire::{Frame, Frames, Full, Placed, WireFault, put};
use crate::shim::alloc::{AllocError, Global};

/// The text of a payload, and whether it has a fault.
pub fn payload_text(alloc: Global, payload: &[u8]) -> Result<(String, bool), AllocError> {
    let mut text = String::new(alloc);
    let mut canonical = Vec::new(alloc);
    let fault = push_frames(alloc, &mut text, &mut canonical, payload)?;
    match fault {
        Some(fault) => push_fault(&mut text, fault)?,
        None => {
            text.push_str("canonical ")?;
            push_hex(alloc, &mut text, &canonical)?;
            text.push_str("\n")?;
        }
    }
    Ok((text, fault.is_some()))
}

/// Both at once, so that the payload is read once.
fn push_frames(
    alloc: Global,
    text: &mut String,
    canonical: &mut Vec<u8>,
    payload: &[u8],
) -> Result<Option<WireFault>, AllocError> {
    let mut frames = Frames::new(payload);
    let mut room = Vec::new(alloc);
    loop {
        match frames.next() {
            Ok(Some(placed)) => {
                push_line(alloc, text, &placed)?;
                push_canonical(canonical, &mut room, &placed.frame)?;
            }
            Ok(None) => return Ok(None),
            Err(fault) => return Ok(Some(fault)),
        }
    }
}

fn push_line(alloc: Global, text: &mut String, placed: &Placed) -> Result<(), AllocError> {
    let place = placed.place;
    write!(text, "{place} ")?;
    push_frame(alloc, text, &placed.frame)?;
    text.push_str("\n")
}

/// It is put together in `room`, which serves all frames and grows only if it has to.
fn push_canonical(bytes: &mut Vec<u8>, room: &mut Vec<u8>, frame: &Frame) -> Result<(), AllocError> {
    loop {
        match put(frame, room) {
            Ok(len) => return bytes.extend_from_slice(&room[..len]),
            Err(Full) => {
                let more = room.len() / 2 + 64;
                room.resize(room.len() + more, 0)?;
            }
        }
    }
}
