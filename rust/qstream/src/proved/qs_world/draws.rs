// Made from crates/qs_world/src/draws.rt by rust/erase; not edited by hand.
//! Events drawn at random. The table is the specification's, so that a seed means the same script everywhere.

use crate::shim::Vec;

use crate::proved::qs_calls::{Act, MIN_ROOM, Side};
use crate::proved::qs_wire::{Dir, StreamId};
use crate::shim::rand_core::utils::NextWord;
use crate::shim::rand_pcg::Lcg64Xsh32;
use crate::shim::alloc::{AllocError, Global};

#[derive(Clone, Copy)]
pub enum Kind {
    Open,
    Accept,
    Write,
    /// By a finish, a reset or a stop.
    End,
    Read,
    Make,
    Lose,
    Deliver,
}

impl Kind {
    fn of(draw: u64) -> Kind {
        match draw {
            0 => Kind::Open,
            1 => Kind::Accept,
            2..=4 => Kind::Write,
            5 => Kind::End,
            6..=8 => Kind::Read,
            9..=11 => Kind::Make,
            12 => Kind::Lose,
            _ => Kind::Deliver,
        }
    }
}

pub(crate) fn draw(words: &mut Lcg64Xsh32, count: u64) -> u64 {
    debug_assert!(0 < count);
    u64::from(words.next_word()) % count
}

pub fn draw_side(words: &mut Lcg64Xsh32) -> Side {
    if draw(words, 2) == 0 {
        Side::A
    } else {
        Side::B
    }
}

fn draw_dir(words: &mut Lcg64Xsh32) -> Dir {
    if draw(words, 2) == 0 {
        Dir::Bidi
    } else {
        Dir::Uni
    }
}

/// Of the first eight, so that streams meet.
fn draw_stream(words: &mut Lcg64Xsh32) -> StreamId {
    match StreamId::new(draw(words, 8)) {
        Some(id) => id,
        None => unreachable!(),
    }
}

fn draw_size(words: &mut Lcg64Xsh32) -> usize {
    1 + draw(words, 64) as usize
}

fn draw_bytes(alloc: Global, words: &mut Lcg64Xsh32, count: usize) -> Result<Vec<u8>, AllocError> {
    let mut bytes = Vec::with_capacity(alloc, count)?;
    while bytes.len() < count {
        bytes.push(draw(words, 256) as u8)?;
    }
    Ok(bytes)
}

fn draw_end(words: &mut Lcg64Xsh32) -> Act {
    let id = draw_stream(words);
    match draw(words, 8) {
        0 => Act::Reset(id, draw(words, 8)),
        1 => Act::Stop(id, draw(words, 8)),
        _ => Act::Finish(id),
    }
}

/// Only packets that were made are lost or delivered.
pub fn draw_act(alloc: Global, words: &mut Lcg64Xsh32, made: u64) -> Result<Act, AllocError> {
    let kind = Kind::of(draw(words, 16));
    draw_of_kind(alloc, words, kind, made)
}

fn draw_of_kind(
    alloc: Global,
    words: &mut Lcg64Xsh32,
    kind: Kind,
    made: u64,
) -> Result<Act, AllocError> {
    match kind {
        Kind::Open => Ok(Act::OpenStream(draw_dir(words))),
        Kind::Accept => Ok(Act::Accept),
        Kind::Write => {
            let id = draw_stream(words);
            let count = draw_size(words);
            Ok(Act::Write(id, draw_bytes(alloc, words, count)?))
        }
        Kind::End => Ok(draw_end(words)),
        Kind::Read => {
            let id = draw_stream(words);
            Ok(Act::ReadUpTo(id, draw_size(words)))
        }
        Kind::Make => Ok(Act::Make(MIN_ROOM + draw(words, 256) as usize)),
        Kind::Lose if made == 0 => Ok(Act::Make(MIN_ROOM)),
        Kind::Lose => Ok(Act::Lose(draw(words, made))),
        Kind::Deliver if made == 0 => Ok(Act::Make(MIN_ROOM)),
        Kind::Deliver => Ok(Act::Deliver(draw(words, made))),
    }
}
