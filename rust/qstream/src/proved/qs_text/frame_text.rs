// Made from crates/qs_text/src/frame_text.rt by rust/erase; not edited by hand.
//! A frame as a line of text.

use crate::shim::String;

use crate::proved::qs_text::fields::{fields_of, push_fields};
use crate::proved::qs_text::words::push_code;
use crate::proved::qs_wire::{Frame, WireFault};
use crate::shim::alloc::{AllocError, Global};

fn name_of(frame: &Frame) -> &'static str {
    match frame {
        Frame::Padding => "PADDING",
        Frame::Ping => "PING",
        Frame::Ack { .. } => "ACK",
        Frame::ResetStream { .. } => "RESET_STREAM",
        Frame::StopSending { .. } => "STOP_SENDING",
        Frame::Crypto { .. } => "CRYPTO",
        Frame::NewToken { .. } => "NEW_TOKEN",
        Frame::Stream { .. } => "STREAM",
        Frame::MaxData { .. } => "MAX_DATA",
        Frame::MaxStreamData { .. } => "MAX_STREAM_DATA",
        Frame::MaxStreams { .. } => "MAX_STREAMS",
        Frame::DataBlocked { .. } => "DATA_BLOCKED",
        Frame::StreamDataBlocked { .. } => "STREAM_DATA_BLOCKED",
        Frame::StreamsBlocked { .. } => "STREAMS_BLOCKED",
        Frame::NewConnectionId { .. } => "NEW_CONNECTION_ID",
        Frame::RetireConnectionId { .. } => "RETIRE_CONNECTION_ID",
        Frame::PathChallenge { .. } => "PATH_CHALLENGE",
        Frame::PathResponse { .. } => "PATH_RESPONSE",
        Frame::ConnectionClose { .. } => "CONNECTION_CLOSE",
        Frame::ApplicationClose { .. } => "APPLICATION_CLOSE",
        Frame::HandshakeDone => "HANDSHAKE_DONE",
    }
}

/// Appends what a frame is and holds.
pub fn push_frame(alloc: Global, text: &mut String, frame: &Frame) -> Result<(), AllocError> {
    text.push_str(name_of(frame))?;
    let fields = fields_of(frame);
    push_fields(alloc, text, &fields)
}

/// Appends the line of a fault.
pub fn push_fault(text: &mut String, fault: WireFault) -> Result<(), AllocError> {
    let kind = fault.kind.number();
    let place = fault.place;
    write!(text, "fault {kind} place {place} code ")?;
    push_code(text, fault.code)?;
    text.push_str(" type ")?;
    push_code(text, fault.frame_type)?;
    text.push_str("\n")
}
