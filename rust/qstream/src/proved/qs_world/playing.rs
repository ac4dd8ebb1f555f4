// Made from crates/qs_world/src/playing.rt by rust/erase; not edited by hand.
//! Events are played.
use crate::shim::Vec;

use crate::proved::qs_world::copies::copy_event;
use crate::proved::qs_world::report::{PlayFault, Report};
use crate::proved::qs_world::world::World;
use crate::proved::qs_calls::Event;
use crate::proved::qs_conn::Settings;
use crate::shim::alloc::Global;

/// Plays events between two new endpoints, in order, and reports what came of it. Each event goes into the log as a copy.
///
/// What happened is a run of the two that agrees: what is read is a prefix of what was written, and all of it once a reader that hadn't
/// stopped got the end; a repeat spends no credit; a stream that counts as received was taken in whole; final sizes that are known are the
/// sender's; and neither endpoint closes.
///
/// Refused: `Setup` as [`crate::proved::qs_world::World::new`]; `NoSuchPacket` at the first event that delivers a packet which wasn't made; and `NoMemory` if
/// the log or a copy found none.
pub fn play(alloc: Global, a: Settings, b: Settings, events: &[Event]) -> Result<Report, PlayFault> {
    let mut world = match World::new(alloc, a, b) {
        Ok(world) => world,
        Err(fault) => return Err(PlayFault::Setup(fault)),
    };
    match play_copies(alloc, &mut world, events) {
        Ok(()) => world.into_report(),
        Err(fault) => {
            world.discard();
            Err(fault)
        }
    }
}

/// Plays the events themselves, as [`play`] does copies of them: they go into the log as they are, so that nothing is copied.
///
/// Refused as there, but `NoMemory` comes if the log found none.
pub fn play_all(
    alloc: Global,
    a: Settings,
    b: Settings,
    events: Vec<Event>,
) -> Result<Report, PlayFault> {
    let mut world = match World::new(alloc, a, b) {
        Ok(world) => world,
        Err(fault) => return Err(PlayFault::Setup(fault)),
    };
    match play_each(&mut world, events) {
        Ok(()) => world.into_report(),
        Err(fault) => {
            world.discard();
            Err(fault)
        }
    }
}

fn play_copies(alloc: Global, world: &mut World, events: &[Event]) -> Result<(), PlayFault> {
    for event in events {
        let Ok(copy) = copy_event(alloc, event) else {
            return Err(PlayFault::NoMemory);
        };
        if let Err(fault) = world.happen(copy) {
            return Err(fault);
        }
    }
    Ok(())
}

pub(crate) fn play_each(world: &mut World, events: Vec<Event>) -> Result<(), PlayFault> {
    for event in events {
        if let Err(fault) = world.happen(event) {
            return Err(fault);
        }
    }
    Ok(())
}
