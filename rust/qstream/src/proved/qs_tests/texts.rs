// Made from tests/units/qs_tests/src/texts.rattle by rust/erase; not edited by hand.
//! The text of each error: what went wrong, with the numbers that it names.
use crate::shim::{HostRuntime, format};
use crate::proved::qs_wire::{FaultKind, Full, WireFault};
use crate::proved::qs_world::{LostFault, MakeFault, OpenFault, PlayFault, SetupFault, UseFault};
use crate::shim::alloc::Global;
use crate::shim::fmt::Display;
use crate::shim::test::Fail;

/// The error's text is the stated one.
fn says<E: Display>(alloc: Global, error: &E, text: &str) -> Result<(), Fail> {
    let said = format!(in alloc; "{error}")?;
    if said.as_str() == text {
        Ok(())
    } else {
        Err(Fail::new(format_args!("{text}\nis said as {error}")))
    }
}

// Three numbers that are told apart: the type, the place and the code.
#[test]
fn a_payloads_fault_names_type_place_and_code() -> Result<(), Fail> {
    let rt = HostRuntime::new();
    let fault = WireFault {
        kind: FaultKind::Truncated,
        place: 12,
        code: 7,
        frame_type: 26,
    };
    says(
        rt.alloc(),
        &fault,
        "a frame of type 0x1a at 12 breaks code 0x7",
    )?;
    says(rt.alloc(), &Full, "the frame does not fit")
}

#[test]
fn why_no_end_was_made() -> Result<(), Fail> {
    let rt = HostRuntime::new();
    let alloc = rt.alloc();
    says(
        alloc,
        &SetupFault::OutOfRange,
        "a setting is out of its range",
    )?;
    says(
        alloc,
        &SetupFault::TooManyStreams,
        "the peer allows too many streams",
    )
}

#[test]
fn why_no_stream_was_opened() -> Result<(), Fail> {
    let rt = HostRuntime::new();
    let alloc = rt.alloc();
    says(alloc, &OpenFault::Blocked(3), "the peer allows 3 streams")?;
    says(alloc, &OpenFault::Closed, "the connection is closed")?;
    says(alloc, &OpenFault::NoMemory, "out of memory")
}

#[test]
fn why_a_stream_was_not_used() -> Result<(), Fail> {
    let rt = HostRuntime::new();
    let alloc = rt.alloc();
    says(alloc, &UseFault::NoSuchStream, "the stream is not open")?;
    says(
        alloc,
        &UseFault::WrongDirection,
        "the stream goes the other way",
    )?;
    says(alloc, &UseFault::Finished, "the stream was finished")?;
    says(alloc, &UseFault::WasReset, "the stream was reset")?;
    says(alloc, &UseFault::Closed, "the connection is closed")?;
    says(alloc, &UseFault::NoMemory, "out of memory")
}

#[test]
fn why_no_packet_was_made() -> Result<(), Fail> {
    let rt = HostRuntime::new();
    let alloc = rt.alloc();
    says(alloc, &MakeFault::Closed, "the connection is closed")?;
    says(alloc, &MakeFault::NoMemory, "out of memory")?;
    says(
        alloc,
        &MakeFault::Exhausted,
        "there is no packet number left",
    )
}

#[test]
fn why_a_packet_was_not_lost() -> Result<(), Fail> {
    let rt = HostRuntime::new();
    let alloc = rt.alloc();
    says(
        alloc,
        &LostFault::NotOutstanding,
        "no such packet is outstanding",
    )?;
    says(alloc, &LostFault::NoMemory, "out of memory")?;
    says(alloc, &LostFault::Closed, "the connection is closed")
}

#[test]
fn why_a_script_was_not_played() -> Result<(), Fail> {
    let rt = HostRuntime::new();
    let alloc = rt.alloc();
    says(alloc, &PlayFault::NoMemory, "out of memory")?;
    says(
        alloc,
        &PlayFault::NoSuchPacket { event: 4 },
        "no such packet at event 4",
    )?;
    says(
        alloc,
        &PlayFault::Setup(SetupFault::OutOfRange),
        "the ends cannot be made",
    )
}
