// Made from crates/qs_world/src/world/draining.rt by rust/erase; not edited by hand.
//! Plain rounds, until nothing is left to do.

use super::World;
use super::log::same_side;
use crate::proved::qs_world::report::PlayFault;
use crate::proved::qs_calls::{Act, Answer, Event, MAX_VARINT, Side};
use crate::proved::qs_conn::Endpoint;
use crate::proved::qs_wire::StreamId;

const ROOM: usize = 1200;

const SIZE: usize = 1024;

/// What plain rounds came to.
#[derive(Clone, Copy, Debug, PartialEq, Eq)]
pub enum Drained {
    /// Both are at rest: nothing but an ACK may go out, no packet is outstanding, and no stream has news for its reader.
    AtRest,
    /// As many events happened as were allowed, and not both are at rest. A bound, since a call may be refused memory for ever.
    UsedUp,
}

#[derive(Clone, Copy)]
pub enum Turn {
    Lose(Side),
    /// Each is delivered at once, so none is lost in a round.
    Make(Side),
    Read(Side),
}

impl Turn {
    /// A round has six, and begins with A's losses: what was under way goes out again.
    fn after(self) -> Turn {
        match self {
            Turn::Lose(end) => Turn::Make(end),
            Turn::Make(Side::A) => Turn::Lose(Side::B),
            Turn::Make(Side::B) => Turn::Read(Side::A),
            Turn::Read(Side::A) => Turn::Read(Side::B),
            Turn::Read(Side::B) => Turn::Lose(Side::A),
        }
    }
}

impl World {
    /// Plays plain rounds until both ends are at rest, or until that many events happened. In a round each end in turn declares lost all
    /// that it has outstanding and makes packets until none is made, each of which is delivered at once; then the owner of each reads all
    /// that there is to read. Each event stands in [`World::log`] with its answer, as by [`World::happen`].
    ///
    /// Where no call is refused they come to rest, and a number bounds the events: one for each packet that is outstanding, eight for each
    /// thing that can be done for good, and thirteen. Another bounds the rounds: two for each window less its step that is filled, and six.
    ///
    /// At rest all is done: what was written was read, unless its stream was reset or stopped, all credit is back, and resets and stops
    /// have come to their end.
    ///
    /// Refused: `NoMemory` if the log found none. What happened until then stays.
    pub fn drain(&mut self, most: u64) -> Result<Drained, PlayFault> {
        let mut left = most;
        let mut turn = Turn::Lose(Side::A);
        while !self.is_idle() {
            if left == 0 {
                return Ok(Drained::UsedUp);
            }
            match self.next_event(turn) {
                Some(event) => {
                    if let Err(fault) = self.happen(event) {
                        return Err(fault);
                    }
                    left -= 1;
                    if self.has_made_none() {
                        turn = turn.after();
                    }
                }
                None => turn = turn.after(),
            }
        }
        Ok(Drained::AtRest)
    }

    fn is_idle(&self) -> bool {
        is_idle(&self.a) && is_idle(&self.b)
    }

    fn next_event(&self, turn: Turn) -> Option<Event> {
        match turn {
            Turn::Lose(end) => self.next_loss(end),
            Turn::Make(end) => Some(self.next_making(end)),
            Turn::Read(end) => self.next_read(end),
        }
    }

    fn next_loss(&self, end: Side) -> Option<Event> {
        match self.end(end).next_outstanding(0) {
            Some(number) if number <= MAX_VARINT => Some(Event {
                end,
                act: Act::Lose(number),
            }),
            _ => None,
        }
    }

    fn next_making(&self, end: Side) -> Event {
        match self.just_made(end) {
            Some(number) => Event {
                end,
                act: Act::Deliver(number),
            },
            None => Event {
                end,
                act: Act::Make(ROOM),
            },
        }
    }

    fn next_read(&self, end: Side) -> Option<Event> {
        match next_news(self.end(end)) {
            Some(stream) => Some(Event {
                end,
                act: Act::ReadUpTo(stream, SIZE),
            }),
            None => None,
        }
    }

    fn just_made(&self, end: Side) -> Option<u64> {
        let Some((event, answer)) = self.log.entries().last() else {
            return None;
        };
        if same_side(end, event.end) {
            number_made(answer)
        } else {
            None
        }
    }

    fn has_made_none(&self) -> bool {
        match self.log.entries().last() {
            Some((_, Answer::Make(Ok(Some(_)), _))) => false,
            Some((_, Answer::Make(_, _))) => true,
            _ => false,
        }
    }

    fn end(&self, side: Side) -> &Endpoint {
        match side {
            Side::A => &self.a,
            Side::B => &self.b,
        }
    }
}

fn number_made(answer: &Answer) -> Option<u64> {
    match answer {
        Answer::Make(Ok(Some(made)), _) => Some(made.number),
        _ => None,
    }
}

fn is_idle(end: &Endpoint) -> bool {
    if end.is_sendable() {
        return false;
    }
    match end.next_outstanding(0) {
        Some(_) => false,
        None => has_no_news(end),
    }
}

fn has_no_news(end: &Endpoint) -> bool {
    match next_news(end) {
        Some(_) => false,
        None => true,
    }
}

fn next_news(end: &Endpoint) -> Option<StreamId> {
    end.next_readable(first_stream())
}

fn first_stream() -> StreamId {
    match StreamId::new(0) {
        Some(id) => id,
        None => unreachable!(),
    }
}
