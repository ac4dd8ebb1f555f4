// Made from crates/qs_world/src/drained.rt by rust/erase; not edited by hand.
//! Events are played, and then what is left is played to its end.
use crate::shim::Vec;

use crate::proved::qs_world::playing::play_each;
use crate::proved::qs_world::report::{PlayFault, Report};
use crate::proved::qs_world::world::{Drained, World};
use crate::proved::qs_calls::Event;
use crate::proved::qs_conn::Settings;
use crate::shim::alloc::Global;

/// Plays the events between two new endpoints, as [`crate::proved::qs_world::play`] does, and then plain rounds until both are at rest, or that many more
/// events happened, as [`World::drain`] does. The report has all of it, as of one run.
///
/// Refused as [`crate::proved::qs_world::play`] is.
pub fn play_drained(
    alloc: Global,
    a: Settings,
    b: Settings,
    events: Vec<Event>,
    most: u64,
) -> Result<(Report, Drained), PlayFault> {
    let mut world = match World::new(alloc, a, b) {
        Ok(world) => world,
        Err(fault) => return Err(PlayFault::Setup(fault)),
    };
    match play_each(&mut world, events) {
        Ok(()) => drain_and_report(world, most),
        Err(fault) => {
            world.discard();
            Err(fault)
        }
    }
}

fn drain_and_report(mut world: World, most: u64) -> Result<(Report, Drained), PlayFault> {
    match world.drain(most) {
        Ok(drained) => match world.into_report() {
            Ok(report) => Ok((report, drained)),
            Err(fault) => Err(fault),
        },
        Err(fault) => {
            world.discard();
            Err(fault)
        }
    }
}
