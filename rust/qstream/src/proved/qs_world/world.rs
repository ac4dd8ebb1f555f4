// Made from crates/qs_world/src/world.rt by rust/erase; not edited by hand.
use crate::shim::Vec;

use crate::proved::qs_world::copies::copy_into;
use crate::proved::qs_world::report::{PlayFault, Report};
use crate::proved::qs_world::reporting::{all_lanes, end_totals, report_of};
use calls::room_of;
pub use draining::Drained;
use happening::{buffer_of, happen, is_missing};
use log::Log;
use crate::proved::qs_calls::{Answer, Event, Side};
use crate::proved::qs_conn::{Endpoint, Settings, SetupFault};
use crate::proved::qs_wire::Role;
use crate::shim::alloc::Global;

mod calls;
mod draining;
mod happening;
mod log;

/// Two endpoints, each made with the other's limits, and the log of what happened to them.
///
/// Contracts see the log, the newest first, and the two ends.
pub struct World {
    alloc: Global,
    a: Endpoint,
    b: Endpoint,
    log: Log,
}

impl World {
    /// Two new endpoints, A the client, each given the other's limits. It takes no memory.
    ///
    /// Refused as [`Endpoint::new`] is, A first.
    pub fn new(alloc: Global, a: Settings, b: Settings) -> Result<World, SetupFault> {
        let client = Endpoint::new(alloc, Role::Client, a, b.limits())?;
        let server = Endpoint::new(alloc, Role::Server, b, a.limits())?;
        Ok(World {
            alloc,
            a: client,
            b: server,
            log: Log::new(alloc),
        })
    }

    /// One event happens, as by [`World::happen`], and its answer is returned, with bytes of its own.
    ///
    /// Refused, and then nothing changed: `NoSuchPacket` as there; and `NoMemory` if the log or those bytes found none.
    pub fn step(&mut self, event: Event) -> Result<Answer, PlayFault> {
        let Ok(room) = Vec::with_capacity(self.alloc, room_of(&event.act)) else {
            return Err(PlayFault::NoMemory);
        };
        match self.happen(event) {
            Ok(()) => Ok(self.last_answer(room)),
            Err(fault) => Err(fault),
        }
    }

    // Its bytes have room already: what a copy needs is taken before the event happens, so that a refusal leaves the world as it was.
    fn last_answer(&self, room: Vec<u8>) -> Answer {
        match self.log.entries().last() {
            Some((_, answer)) => copy_into(room, answer),
            None => unreachable!(),
        }
    }

    /// One event happens, and stands with its answer last in [`World::log`], where it is read: so nothing is copied. A refusal of memory by
    /// an endpoint is an answer.
    ///
    /// Refused, and then nothing changed: `NoSuchPacket` if a packet is to be delivered that wasn't made, with one more than the events so
    /// far; and `NoMemory` if the log found none.
    pub fn happen(&mut self, event: Event) -> Result<(), PlayFault> {
        if is_missing(&self.log, &event) {
            return Err(PlayFault::NoSuchPacket {
                event: self.log.len() + 1,
            });
        }
        let Ok(buffer) = buffer_of(self.alloc, room_of(&event.act)) else {
            return Err(PlayFault::NoMemory);
        };
        if let Err(_refused) = self.log.make_room() {
            return Err(PlayFault::NoMemory);
        }
        let answer = happen(&self.log, &mut self.a, &mut self.b, &event, buffer);
        self.log.push(event, answer);
        Ok(())
    }

    /// What happened so far, in order: each event with its answer.
    pub fn log(&self) -> &[(Event, Answer)] {
        self.log.entries()
    }

    /// How many packets an endpoint has made, with those of the numbers that it claimed. Their numbers begin at 0.
    pub fn made(&self, end: Side) -> u64 {
        self.log.made(end)
    }

    /// The payload of a packet that the endpoint made, or a PING if it claimed the number.
    pub fn payload(&self, end: Side, number: u64) -> Option<&[u8]> {
        self.log.payload(end, number)
    }

    /// What happened, each stream that either has opened, and the credit of both. The world stays.
    pub fn report(&self) -> Result<Report, PlayFault> {
        report_of(self.alloc, self.log.entries(), &self.a, &self.b)
    }

    /// With the log itself in place of a copy.
    pub(crate) fn into_report(self) -> Result<Report, PlayFault> {
        let lanes = all_lanes(self.alloc, &self.a, &self.b);
        let ends = [end_totals(&self.a), end_totals(&self.b)];
        let log = self.into_log();
        match lanes {
            Ok(lanes) => Ok(Report { log, lanes, ends }),
            Err(_refused) => Err(PlayFault::NoMemory),
        }
    }

    /// Lets it go. (What drops it in place takes it apart into all that two ends hold, and has to prove that: one function alone does.)
    pub fn discard(self) {
        self.into_log();
    }

    pub(crate) fn into_log(self) -> Vec<(Event, Answer)> {
        self.log.into_entries()
    }
}
