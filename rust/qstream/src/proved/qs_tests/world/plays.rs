// Made from tests/units/qs_tests/src/world/plays.rattle by rust/erase; not edited by hand.
//! Scripts that are played, and what comes of them. Where memory was refused, a script that should succeed is played once more.
use crate::shim::{HostRuntime, assert};
use crate::proved::qs_world::{
    Answer, EndTotals, LaneTotals, LostFault, MakeFault, OpenFault, PlayFault, Received, Report,
    Settings, SetupFault, Side, StreamId, UseFault, parse_script, play, standard_settings,
};
use crate::shim::alloc::Global;
use crate::shim::process::Abort;
use crate::shim::test::Fail;

fn play_once(alloc: Global, script: &[u8]) -> Result<Report, PlayFault> {
    match parse_script(alloc, script) {
        Ok(events) => play(alloc, standard_settings(), standard_settings(), &events),
        Err(_) => Err(PlayFault::NoMemory),
    }
}

/// An end found no memory.
pub(super) fn ran_short(answer: &Answer) -> bool {
    matches!(
        answer,
        Answer::OpenStream(Err(OpenFault::NoMemory))
            | Answer::Write(Err(UseFault::NoMemory))
            | Answer::Make(Err(MakeFault::NoMemory), _)
            | Answer::Lose(Err(LostFault::NoMemory))
            | Answer::Deliver(Ok(Received::NoMemory))
    )
}

fn played(alloc: Global, script: &[u8]) -> Result<Report, PlayFault> {
    let first = play_once(alloc, script);
    let again = match &first {
        Ok(report) => report.log.iter().any(|(_, answer)| ran_short(answer)),
        // Where an end found no memory for a packet, none can be delivered.
        Err(_) => true,
    };
    if again {
        return play_once(alloc, script);
    }
    first
}

pub(super) fn id(number: u64) -> Result<StreamId, Fail> {
    match StreamId::new(number) {
        Some(id) => Ok(id),
        None => Err(Fail::new("no stream has that number")),
    }
}

pub(super) fn unused(sender: Side, id: StreamId) -> LaneTotals {
    LaneTotals {
        sender,
        id,
        written: 0,
        read: 0,
        received: false,
        declared: None,
        known: None,
    }
}

pub(super) fn end(spent: u64) -> EndTotals {
    EndTotals {
        spent,
        granted: 4096,
        stored: 0,
        closing: None,
    }
}

/// A packet is lost, and its bytes are sent again (RFC 9000, section 13.3).
pub(super) const LOST_AND_SENT_AGAIN: &[u8] = b"\
open A bidi
write A 0 68656c6c6f
finish A 0
make A 1200
lose A 0
make A 1200
deliver A 1
deliver A 0
accept B
read B 0 16
read B 0 16
make B 1200
deliver B 0
";

#[test]
fn a_packet_is_lost_and_sent_again() -> Result<(), Fail> {
    let rt = HostRuntime::new();
    let report = played(rt.alloc(), LOST_AND_SENT_AGAIN)?;
    assert!(rt; report.log.len() == 13);
    let sent = LaneTotals {
        written: 5,
        read: 5,
        received: true,
        declared: Some(5),
        known: Some(5),
        ..unused(Side::A, id(0)?)
    };
    let lanes = [sent, unused(Side::B, id(0)?)];
    assert!(rt; report.lanes.as_slice() == lanes.as_slice());
    assert!(rt; report.ends == [end(0), end(5)]);
    Ok(())
}

/// A number is claimed, and its PING comes twice; the ACK names it, and it isn't outstanding (RFC 9000, sections 12.3 and 13.1).
const CLAIMED: &[u8] = b"\
claim A
open A bidi
write A 0 6869
make A 1200
deliver A 1
deliver A 0
deliver A 0
make B 1200
deliver B 0
lose A 0
";

#[test]
fn a_claimed_number_is_acknowledged() -> Result<(), Fail> {
    let rt = HostRuntime::new();
    let report = played(rt.alloc(), CLAIMED)?;
    let answer = |event: usize| report.log.get(event).map(|(_, answer)| answer);
    assert!(rt; answer(0) == Some(&Answer::Claim(Ok(0))));
    assert!(rt; answer(5) == Some(&Answer::Deliver(Ok(Received::Done))));
    assert!(rt; answer(6) == Some(&Answer::Deliver(Ok(Received::Duplicate))));
    assert!(rt; answer(8) == Some(&Answer::Deliver(Ok(Received::Done))));
    assert!(rt; answer(9) == Some(&Answer::Lose(Err(LostFault::NotOutstanding))));
    assert!(rt; report.ends[0] == end(0));
    Ok(())
}

// A stream that one end alone has opened has its lanes, and a unidirectional one has one (RFC 9000, section 2.1).
#[test]
fn lanes_come_by_stream_number() -> Result<(), Fail> {
    let rt = HostRuntime::new();
    let report = played(rt.alloc(), b"open A uni\nopen B bidi\nopen A uni\n")?;
    let lanes = [
        unused(Side::A, id(1)?),
        unused(Side::B, id(1)?),
        unused(Side::A, id(2)?),
        unused(Side::A, id(6)?),
    ];
    assert!(rt; report.lanes.as_slice() == lanes.as_slice());
    Ok(())
}

#[test]
fn no_events_come_to_nothing() -> Result<(), Fail> {
    let rt = HostRuntime::new();
    let report = played(rt.alloc(), b"")?;
    assert!(rt; report.log.is_empty());
    assert!(rt; report.lanes.is_empty());
    assert!(rt; report.ends == [end(0), end(0)]);
    Ok(())
}

/// A run ends because no packet stands at that event, counted from 1.
fn is_missing(alloc: Global, script: &[u8], event: usize) -> bool {
    match play_once(alloc, script) {
        Err(fault) => fault == PlayFault::NoSuchPacket { event },
        Ok(_) => false,
    }
}

/// No packet stands at that event; a run that found no memory says nothing of it.
fn misses(rt: &impl Abort, alloc: Global, script: &[u8], event: usize) {
    let found = is_missing(alloc, script, event) || is_missing(alloc, script, event);
    assert!(rt; found, "{script:?}");
}

#[test]
fn a_packet_that_was_not_made_is_missing() {
    let rt = HostRuntime::new();
    misses(&rt, rt.alloc(), b"deliver A 0", 1);
    misses(
        &rt,
        rt.alloc(),
        b"open A bidi\nmake A 1200\n# none was due\ndeliver A 0\naccept B",
        3,
    );
    misses(
        &rt,
        rt.alloc(),
        b"open A bidi\nwrite A 0 61\nmake A 1200\ndeliver B 0",
        4,
    );
}

fn without_window() -> Settings {
    Settings {
        conn_window: 0,
        ..standard_settings()
    }
}

#[test]
fn ends_need_lawful_settings() {
    let rt = HostRuntime::new();
    let alloc = rt.alloc();
    let refused = Err(PlayFault::Setup(SetupFault::OutOfRange));
    assert!(rt; play(alloc, without_window(), standard_settings(), &[]) == refused);
    assert!(rt; play(alloc, standard_settings(), without_window(), &[]) == refused);
}
