// Made from crates/qs_c/src/starts.rt by rust/erase; not edited by hand.
//! Making an endpoint.
use crate::shim::Box;

use crate::proved::qs_c::answers::{INVALID, NO_MEMORY, OK, of_setup};
use crate::proved::qs_c::handle::Handle;
use crate::proved::qs_c::structs::{GvLimits, GvSettings, GvTuning};
use crate::proved::qs_c::thing::Thing;
use crate::proved::qs_conn::{Endpoint, PeerLimits, Settings};
use crate::proved::qs_wire::Role;
use crate::shim::alloc::Global;

/// The least settings: an endpoint of them holds the memory until the right one takes its place.
const LEAST: Settings = Settings {
    conn_window: 1,
    bidi_local: 1,
    bidi_remote: 1,
    uni: 1,
    send_buffer: 1,
    grant_bidi: 0,
    grant_uni: 0,
    lifetime_bidi: 0,
    lifetime_uni: 0,
};

const NOTHING_GRANTED: PeerLimits = PeerLimits {
    max_data: 0,
    bidi_local: 0,
    bidi_remote: 0,
    uni: 0,
    streams_bidi: 0,
    streams_uni: 0,
};

pub(crate) fn reserve(alloc: Global, end: &mut Handle) -> u32 {
    let Ok(least) = Endpoint::new(alloc, Role::Client, LEAST, NOTHING_GRANTED) else {
        return NO_MEMORY;
    };
    let Ok(boxed) = Box::new(alloc, Thing { end: least }) else {
        return NO_MEMORY;
    };
    end.put(boxed);
    OK
}

impl Thing {
    pub(crate) fn start(
        &mut self,
        alloc: Global,
        role: u32,
        settings: &GvSettings,
        tuning: &GvTuning,
        peer: &GvLimits,
    ) -> u32 {
        let Some(side) = role_of(role) else {
            return INVALID;
        };
        let Some(chosen) = tuning.tuning() else {
            return INVALID;
        };
        match Endpoint::with_tuning(alloc, side, settings.settings(), chosen, peer.limits()) {
            Ok(made) => self.begin(made),
            Err(fault) => of_setup(fault),
        }
    }

    fn begin(&mut self, made: Endpoint) -> u32 {
        self.end = made;
        OK
    }
}

fn role_of(role: u32) -> Option<Role> {
    match role {
        0 => Some(Role::Client),
        1 => Some(Role::Server),
        _ => None,
    }
}
