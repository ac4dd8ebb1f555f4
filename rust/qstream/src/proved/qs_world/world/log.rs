// Made from crates/qs_world/src/world/log.rt by rust/erase; not edited by hand.
//! The log of a world, in which a payload is found by its number.
use crate::shim::Vec;

use crate::proved::qs_calls::{Act, Answer, Event, Side};
use crate::shim::alloc::{AllocError, Global};

/// The places of payloads are kept beside, so that a payload stands in memory once and is found in constant time.
///
/// Contracts see the log, the newest first, and whether there is room for one event more.
pub(crate) struct Log {
    entries: Vec<(Event, Answer)>,
    made_a: Vec<usize>,
    made_b: Vec<usize>,
}

impl Log {
    pub(crate) fn new(alloc: Global) -> Log {
        Log {
            entries: Vec::new(alloc),
            made_a: Vec::new(alloc),
            made_b: Vec::new(alloc),
        }
    }

    pub(crate) fn len(&self) -> usize {
        self.entries.len()
    }

    pub(crate) fn made(&self, end: Side) -> u64 {
        self.places(end).len() as u64
    }

    pub(crate) fn payload(&self, end: Side, number: u64) -> Option<&[u8]> {
        let Some(place) = self.place(end, number) else {
            return None;
        };
        text_of(&self.entries[place].1)
    }

    fn place(&self, end: Side, number: u64) -> Option<usize> {
        nth(self.places(end), number)
    }

    fn places(&self, end: Side) -> &[usize] {
        match end {
            Side::A => &self.made_a,
            Side::B => &self.made_b,
        }
    }

    /// It stays until the next `push`, so that what happened is always logged.
    pub(crate) fn make_room(&mut self) -> Result<(), AllocError> {
        self.entries.reserve(1)?;
        self.made_a.reserve(1)?;
        self.made_b.reserve(1)?;
        Ok(())
    }

    /// It takes no memory: `make_room` did.
    pub(crate) fn push(&mut self, event: Event, answer: Answer) {
        let place = self.entries.len();
        let by_a = makes(Side::A, &event, &answer);
        let by_b = makes(Side::B, &event, &answer);
        note(&mut self.made_a, by_a, place);
        note(&mut self.made_b, by_b, place);
        add(&mut self.entries, event, answer);
    }

    pub(crate) fn entries(&self) -> &[(Event, Answer)] {
        &self.entries
    }

    pub(crate) fn into_entries(self) -> Vec<(Event, Answer)> {
        self.entries
    }
}

fn nth(numbers: &[usize], place: u64) -> Option<usize> {
    numbers.get(place as usize).copied()
}

// Under a claimed number the transport sends a packet of its own: a PING.
fn ping_text() -> &'static [u8] {
    b"\x01"
}

fn text_of(answer: &Answer) -> Option<&[u8]> {
    match answer {
        Answer::Make(_, text) => Some(text),
        Answer::Claim(_) => Some(ping_text()),
        _ => None,
    }
}

fn makes(end: Side, event: &Event, answer: &Answer) -> bool {
    if same_side(end, event.end) {
        makes_by(&event.act, answer)
    } else {
        false
    }
}

fn makes_by(act: &Act, answer: &Answer) -> bool {
    match (act, answer) {
        (Act::Make(_), Answer::Make(Ok(Some(_)), _)) => true,
        (Act::Claim, Answer::Claim(Ok(_))) => true,
        _ => false,
    }
}

pub(super) fn same_side(a: Side, b: Side) -> bool {
    match (a, b) {
        (Side::A, Side::A) => true,
        (Side::B, Side::B) => true,
        _ => false,
    }
}

fn note(places: &mut Vec<usize>, made: bool, place: usize) {
    if made {
        let _ = places.push(place);
    }
}

fn add(entries: &mut Vec<(Event, Answer)>, event: Event, answer: Answer) {
    let _ = entries.push((event, answer));
}
