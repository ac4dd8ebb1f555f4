// Made from crates/qs_world/src/random.rt by rust/erase; not edited by hand.
//! Scripts of random events.
use crate::shim::{IteratorCalls, Vec};

use crate::proved::qs_world::draws::{draw_act, draw_side};
use crate::proved::qs_world::report::PlayFault;
use crate::proved::qs_world::world::World;
use crate::proved::qs_calls::{Answer, Event};
use crate::proved::qs_script::standard_settings;
use crate::shim::rand_pcg::Lcg64Xsh32;
use crate::shim::alloc::Global;

/// So many random events between two endpoints of the standard settings. Each is drawn from the words of a generator that the seed
/// determines, and from how many packets its endpoint has made by then.
///
/// Refused: `NoMemory`.
pub fn random_script(alloc: Global, seed: u64, n: usize) -> Result<Vec<Event>, PlayFault> {
    let settings = standard_settings();
    let mut world = match World::new(alloc, settings, settings) {
        Ok(world) => world,
        Err(_) => unreachable!(),
    };
    let mut words = Lcg64Xsh32::new(seed, 0);
    for _ in 0..n {
        if let Err(fault) = draw_step(alloc, &mut world, &mut words) {
            world.discard();
            return Err(fault);
        }
    }
    events_of(alloc, world.into_log())
}

/// The event is played as it is drawn, since the next draw depends on the packets that were made.
fn draw_step(alloc: Global, world: &mut World, words: &mut Lcg64Xsh32) -> Result<(), PlayFault> {
    let end = draw_side(words);
    let made = world.made(end);
    match draw_act(alloc, words, made) {
        Ok(act) => {
            world.happen(Event { end, act })?;
            Ok(())
        }
        Err(_) => Err(PlayFault::NoMemory),
    }
}

fn events_of(alloc: Global, log: Vec<(Event, Answer)>) -> Result<Vec<Event>, PlayFault> {
    match log.into_iter().map(|(event, _)| event).collected_in(alloc) {
        Ok(events) => Ok(events),
        Err(_) => Err(PlayFault::NoMemory),
    }
}
