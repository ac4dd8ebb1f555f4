// Made from tests/units/qs_tests/src/world/worlds.rattle by rust/erase; not edited by hand.
//! A world to begin with.

use crate::proved::qs_world::{SetupFault, World, standard_settings};
use crate::shim::alloc::Global;

/// A world, or why there is none. It is handed on by reference, so that few proofs follow how it is dropped.
pub(super) type NewWorld = Result<World, SetupFault>;

pub(super) fn new_world(alloc: Global) -> NewWorld {
    World::new(alloc, standard_settings(), standard_settings())
}

/// What was made.
pub(super) fn made<T>(new: &mut Result<T, SetupFault>) -> Result<&mut T, SetupFault> {
    match new {
        Ok(made) => Ok(made),
        Err(fault) => Err(*fault),
    }
}
