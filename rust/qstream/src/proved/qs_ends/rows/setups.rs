// Made from tests/units/qs_ends/src/rows/setups.rattle by rust/erase; not edited by hand.
//! The row that makes an end.

use super::RowFault;
use super::words::{any_number, next_word, size};
use crate::proved::qs_ends::ends::{USUAL, USUAL_PEER};
use crate::proved::qs_conn::{Endpoint, PeerLimits, Settings, SetupFault};
use crate::proved::qs_wire::Role;
use crate::shim::alloc::Global;

/// An end, or why there is none.
pub(super) type Made = Result<Endpoint, SetupFault>;

/// What an end is made of.
#[derive(Clone, Copy)]
pub(super) struct Setup {
    role: Role,
    settings: Settings,
    peer: PeerLimits,
}

impl Setup {
    pub(super) fn parse(text: &[u8]) -> Result<Setup, RowFault> {
        let (first, mut rest) = next_word(text);
        let mut setup = Setup {
            role: role(first)?,
            settings: USUAL,
            peer: USUAL_PEER,
        };
        for _ in 0..MOST_CHANGES {
            let (word, after) = next_word(rest);
            if !word.is_empty() {
                setup.change(word)?;
            }
            rest = after;
        }
        Ok(setup)
    }

    fn change(&mut self, word: &[u8]) -> Result<(), RowFault> {
        let Some(place) = word.iter().position(|byte| *byte == b'=') else {
            return Err(RowFault::Unreadable);
        };
        let (name, value) = word.split_at(place);
        let (_, value) = value.split_at(1);
        match name {
            [b'p', b'e', b'e', b'r', b'_', limit @ ..] => change_peer(&mut self.peer, limit, value),
            b"send_buffer" => {
                self.settings.send_buffer = size(value)?;
                Ok(())
            }
            _ => change_settings(&mut self.settings, name, value),
        }
    }

    pub(super) fn end(&self, alloc: Global) -> Made {
        Endpoint::new(alloc, self.role, self.settings, self.peer)
    }
}

/// There are so many settings and limits.
const MOST_CHANGES: usize = 15;

fn role(word: &[u8]) -> Result<Role, RowFault> {
    match word {
        b"client" => Ok(Role::Client),
        b"server" => Ok(Role::Server),
        _ => Err(RowFault::Unreadable),
    }
}

fn change_settings(settings: &mut Settings, name: &[u8], value: &[u8]) -> Result<(), RowFault> {
    let value = any_number(value)?;
    if name == b"conn_window".as_slice() {
        settings.conn_window = value;
    } else if name == b"bidi_local".as_slice() {
        settings.bidi_local = value;
    } else if name == b"bidi_remote".as_slice() {
        settings.bidi_remote = value;
    } else if name == b"uni".as_slice() {
        settings.uni = value;
    } else if name == b"grant_bidi".as_slice() {
        settings.grant_bidi = value;
    } else if name == b"grant_uni".as_slice() {
        settings.grant_uni = value;
    } else if name == b"lifetime_bidi".as_slice() {
        settings.lifetime_bidi = value;
    } else if name == b"lifetime_uni".as_slice() {
        settings.lifetime_uni = value;
    } else {
        return Err(RowFault::Unreadable);
    }
    Ok(())
}

fn change_peer(peer: &mut PeerLimits, name: &[u8], value: &[u8]) -> Result<(), RowFault> {
    let value = any_number(value)?;
    if name == b"max_data".as_slice() {
        peer.max_data = value;
    } else if name == b"bidi_local".as_slice() {
        peer.bidi_local = value;
    } else if name == b"bidi_remote".as_slice() {
        peer.bidi_remote = value;
    } else if name == b"uni".as_slice() {
        peer.uni = value;
    } else if name == b"streams_bidi".as_slice() {
        peer.streams_bidi = value;
    } else if name == b"streams_uni".as_slice() {
        peer.streams_uni = value;
    } else {
        return Err(RowFault::Unreadable);
    }
    Ok(())
}

/// What the making of an end answers.
pub(super) fn setup_word(made: &Made) -> &'static str {
    match made {
        Ok(_) => "made",
        Err(SetupFault::OutOfRange) => "out-of-range",
        Err(SetupFault::TooManyStreams) => "too-many-streams",
    }
}
