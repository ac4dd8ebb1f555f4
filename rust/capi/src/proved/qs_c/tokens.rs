// Made from crates/qs_c/src/tokens.rt by rust/erase; not edited by hand.
//! The tokens of packets: three numbers each.

use crate::proved::qs_c::answers::{INVALID, NONE, OK, of_token};
use crate::proved::qs_c::handle::Handle;
use crate::proved::qs_c::structs::GvToken;
use crate::proved::qs_c::thing::Thing;
use crate::shim::alloc::Global;

pub fn gvp_token_of(
    alloc: Global,
    end: &mut Handle,
    number: u64,
    token: &mut GvToken,
) -> u32 {
    let Some(thing) = end.take(alloc) else {
        return INVALID;
    };
    *token = GvToken::of(thing.end.token_of(number));
    end.put(thing);
    OK
}

pub fn gvp_token_and(token: &GvToken, next: &GvToken, both: &mut GvToken) -> u32 {
    match token.token().and(next.token()) {
        Some(one) => {
            *both = GvToken::of(one);
            OK
        }
        None => NONE,
    }
}

pub fn gvp_token_acked(alloc: Global, end: &mut Handle, token: &GvToken) -> u32 {
    let Some(mut thing) = end.take(alloc) else {
        return INVALID;
    };
    let status = thing.acked(token);
    end.put(thing);
    status
}

pub fn gvp_token_lost(alloc: Global, end: &mut Handle, token: &GvToken) -> u32 {
    let Some(mut thing) = end.take(alloc) else {
        return INVALID;
    };
    let status = thing.lost(token);
    end.put(thing);
    status
}

impl Thing {
    pub(crate) fn acked(&mut self, token: &GvToken) -> u32 {
        of_token(self.end.acked(token.token()))
    }

    pub(crate) fn lost(&mut self, token: &GvToken) -> u32 {
        of_token(self.end.lost(token.token()))
    }
}
