// Made from tests/units/qs_tests/src/world/refusals.rattle by rust/erase; not edited by hand.
//! Two ends where memory is refused: nothing is lost, and the call that is made again succeeds. With each allocation refused in turn, these
//! tests meet every refusal of a run.
use crate::shim::{HostRuntime, assert};
use super::plays::{LOST_AND_SENT_AGAIN, end, id, ran_short, unused};
use super::worlds::{NewWorld, made, new_world};
use crate::proved::qs_world::{
    Answer, Event, LaneTotals, PlayFault, Report, Side, World, parse_script, standard_settings,
};
use crate::shim::alloc::Global;
use crate::shim::test::Fail;

/// An event that keeps to its bounds happens; no other one does.
fn step_if_it_fits(world: &mut World, event: Event) -> Result<Answer, PlayFault> {
    if event.fits() {
        world.step(event)
    } else {
        Err(PlayFault::NoSuchPacket { event: 0 })
    }
}

/// The event of a line happens.
fn step_once(alloc: Global, world: &mut World, line: &[u8]) -> Result<Answer, PlayFault> {
    let Ok(mut events) = parse_script(alloc, line) else {
        return Err(PlayFault::NoMemory);
    };
    match events.pop() {
        Some(event) => step_if_it_fits(world, event),
        None => Err(PlayFault::NoSuchPacket { event: 0 }),
    }
}

/// The log or the answer's copy found no memory, or an end found none.
fn found_no_memory(stepped: &Result<Answer, PlayFault>) -> bool {
    match stepped {
        Ok(answer) => ran_short(answer),
        Err(fault) => *fault == PlayFault::NoMemory,
    }
}

/// The event of a line happens, once more where memory was refused.
fn step_twice(alloc: Global, world: &mut World, line: &[u8]) -> Result<Answer, PlayFault> {
    let stepped = step_once(alloc, world, line);
    if found_no_memory(&stepped) {
        return step_once(alloc, world, line);
    }
    stepped
}

/// The event of a line happens, its answer is that of the log, and memory isn't refused twice.
fn step(alloc: Global, world: &mut World, line: &[u8]) -> Result<(), Fail> {
    let stepped = step_twice(alloc, world, line);
    if found_no_memory(&stepped) {
        return Err(Fail::new("memory was refused twice"));
    }
    let answer = stepped?;
    match world.log().last() {
        Some((_, last)) if *last == answer => Ok(()),
        _ => Err(Fail::new("the answer isn't that of the log")),
    }
}

fn report(world: &World) -> Result<Report, PlayFault> {
    match world.report() {
        Ok(report) => Ok(report),
        Err(_) => world.report(),
    }
}

/// The lines of a script happen, each read on its own.
fn step_each(alloc: Global, world: &mut World, script: &[u8]) -> Result<(), Fail> {
    for line in script.split(|byte| *byte == b'\n') {
        if !line.is_empty() {
            step(alloc, world, line)?;
        }
    }
    Ok(())
}

/// What came of the lines of a script in a new world.
fn found_after(alloc: Global, new: &mut NewWorld, script: &[u8]) -> Result<Report, Fail> {
    let world = made(new)?;
    step_each(alloc, world, script)?;
    Ok(report(world)?)
}

fn played(alloc: Global, script: &[u8]) -> Result<Report, Fail> {
    found_after(alloc, &mut new_world(alloc), script)
}

/// Five bytes went from A to B and were acknowledged; nothing went back.
fn lanes_of_five() -> Result<[LaneTotals; 2], Fail> {
    let sent = LaneTotals {
        written: 5,
        read: 5,
        received: true,
        declared: Some(5),
        known: Some(5),
        ..unused(Side::A, id(0)?)
    };
    Ok([sent, unused(Side::B, id(0)?)])
}

#[test]
fn bytes_survive_refused_memory() -> Result<(), Fail> {
    let rt = HostRuntime::new();
    let report = played(rt.alloc(), LOST_AND_SENT_AGAIN)?;
    assert!(rt; report.lanes.as_slice() == lanes_of_five()?.as_slice());
    assert!(rt; report.ends == [end(0), end(5)]);
    Ok(())
}

/// The packet that was declared lost arrives, and its acknowledgement counts; the one that repeated it never does.
pub(super) const ACKNOWLEDGED_LATE: &[u8] = b"\
open A bidi
write A 0 68656c6c6f
finish A 0
make A 1200
lose A 0
make A 1200
deliver A 0
accept B
read B 0 16
read B 0 16
make B 1200
deliver B 0
";

#[test]
fn a_late_ack_survives_refused_memory() -> Result<(), Fail> {
    let rt = HostRuntime::new();
    let report = played(rt.alloc(), ACKNOWLEDGED_LATE)?;
    assert!(rt; report.lanes.as_slice() == lanes_of_five()?.as_slice());
    assert!(rt; report.ends == [end(0), end(5)]);
    Ok(())
}

/// The reset overtakes the bytes that were sent before it.
pub(super) const OVERTAKING: &[u8] = b"\
open A bidi
write A 0 616263
make A 1200
reset A 0 7
make A 1200
deliver A 1
deliver A 0
read B 0 16
make B 1200
deliver B 0
";

#[test]
fn a_reset_survives_refused_memory() -> Result<(), Fail> {
    let rt = HostRuntime::new();
    let report = played(rt.alloc(), OVERTAKING)?;
    let broken_off = LaneTotals {
        written: 3,
        declared: Some(3),
        known: Some(3),
        ..unused(Side::A, id(0)?)
    };
    let lanes = [broken_off, unused(Side::B, id(0)?)];
    assert!(rt; report.lanes.as_slice() == lanes.as_slice());
    assert!(rt; report.ends == [end(0), end(3)]);
    Ok(())
}
