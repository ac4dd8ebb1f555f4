// Made from crates/qs_cli/src/carrying.rt by rust/erase; not edited by hand.
//! Plays events and scripts over a wire that may fail.

use crate::shim::{String, Vec};

use crate::proved::qs_cli::report_text::play_text;
use crate::proved::qs_cli::scripts::{show, show_missing, show_script_fault, status_of, written};
use crate::proved::qs_cli::status::Status;
use crate::proved::qs_cli::wire::{Wire, one_more, other_side};
use crate::proved::qs_world::{
    Act, Event, PlayFault, Report, Side, World, copy_event, parse_script, standard_settings,
};
use crate::shim::alloc::{AllocError, Global};
use crate::shim::io;

/// A longer datagram is a stranger's: a number of eight bytes and the largest payload are fewer.
const MAX_DATAGRAM: usize = 16_392;

/// Plays a script between two ends of the standard settings over a wire, and writes the report as [`udp_events`] does. The fault of a
/// script that can't be read is named in place of it all.
pub fn run_udp<Wi: Wire, W: io::Write>(
    alloc: Global,
    script: &[u8],
    wire: &mut Wi,
    out: &mut W,
) -> Status {
    status_of(report_udp(alloc, script, wire, out))
}

/// As [`run_udp`], and it returns the report that it wrote, so that a trace is of the very log that was printed and nothing is played
/// twice.
pub fn report_udp<Wi: Wire, W: io::Write>(
    alloc: Global,
    script: &[u8],
    wire: &mut Wi,
    out: &mut W,
) -> Result<Report, Status> {
    match parse_script(alloc, script) {
        Ok(events) => report_carried(alloc, &events, wire, out),
        Err(fault) => Err(show_script_fault(alloc, fault, out)),
    }
}

/// Plays events between two ends of the standard settings, whose packets go over a wire. It writes the report of what took place, as
/// [`crate::proved::qs_cli::scripts::run_events`] does, and then how many calls of the wire failed and how many datagrams were a stranger's, and answers
/// the exit status.
///
/// To deliver a packet its datagram is sent, which is the number in eight bytes and then the payload, and one datagram is received at the
/// other end. Where sending fails the packet is declared lost. Where receiving fails nothing happens. A datagram that is no packet which
/// the sender made is a stranger's and is dropped, and any other is delivered under the number that it bears.
pub fn udp_events<Wi: Wire, W: io::Write>(
    alloc: Global,
    events: &[Event],
    wire: &mut Wi,
    out: &mut W,
) -> Status {
    status_of(report_carried(alloc, events, wire, out))
}

/// As [`udp_events`], and it answers the report that it wrote.
pub fn report_carried<Wi: Wire, W: io::Write>(
    alloc: Global,
    events: &[Event],
    wire: &mut Wi,
    out: &mut W,
) -> Result<Report, Status> {
    let Ok(mut world) = World::new(alloc, standard_settings(), standard_settings()) else {
        unreachable!()
    };
    let answer = carry_and_show(alloc, events, wire, &mut world, out);
    world.discard();
    answer
}

fn carry_and_show<Wi: Wire, W: io::Write>(
    alloc: Global,
    events: &[Event],
    wire: &mut Wi,
    world: &mut World,
    out: &mut W,
) -> Result<Report, Status> {
    let before = wire.failures();
    match carry_events(alloc, events, wire, world) {
        Ok(strangers) => {
            let failures = wire.failures() - before;
            show_world(alloc, world, failures, strangers, out)
        }
        Err(PlayFault::NoSuchPacket { event }) => Err(show_missing(alloc, event, out)),
        Err(PlayFault::NoMemory) => Err(Status::NoMemory),
        Err(PlayFault::Setup(_)) => unreachable!(),
    }
}

fn show_world<W: io::Write>(
    alloc: Global,
    world: &World,
    failures: u64,
    strangers: u64,
    out: &mut W,
) -> Result<Report, Status> {
    match world.report() {
        Ok(report) => {
            let status = show_report(alloc, &report, failures, strangers, out);
            written(report, status)
        }
        Err(_) => Err(Status::NoMemory),
    }
}

fn show_report<W: io::Write>(
    alloc: Global,
    report: &Report,
    failures: u64,
    strangers: u64,
    out: &mut W,
) -> Status {
    match carried_text(alloc, report, failures, strangers) {
        Ok(text) => show(&text, Status::Success, out),
        Err(_) => Status::NoMemory,
    }
}

fn carried_text(
    alloc: Global,
    report: &Report,
    failures: u64,
    strangers: u64,
) -> Result<String, AllocError> {
    let mut text = play_text(alloc, report)?;
    push_wire_line(&mut text, failures, strangers)?;
    Ok(text)
}

fn push_wire_line(text: &mut String, failures: u64, strangers: u64) -> Result<(), AllocError> {
    write!(text, "wire failures {failures} strangers {strangers}\n")
}

/// What comes of the events over the wire takes place in the world. Answers how many datagrams were a stranger's.
fn carry_events<Wi: Wire>(
    alloc: Global,
    events: &[Event],
    wire: &mut Wi,
    world: &mut World,
) -> Result<u64, PlayFault> {
    let Ok(mut room) = Room::new(alloc) else {
        return Err(PlayFault::NoMemory);
    };
    carry_each(alloc, events, wire, world, &mut room)
}

fn carry_each<Wi: Wire>(
    alloc: Global,
    events: &[Event],
    wire: &mut Wi,
    world: &mut World,
    room: &mut Room,
) -> Result<u64, PlayFault> {
    let mut strangers = 0;
    for event in events {
        match carry_event(alloc, world, event, wire, room) {
            Ok(stranger) => strangers = counted(stranger, strangers),
            Err(fault) => return Err(fault),
        }
    }
    Ok(strangers)
}

fn counted(stranger: bool, count: u64) -> u64 {
    if stranger { one_more(count) } else { count }
}

/// Taken once, so that memory is refused before anything is played, and not amid a run.
struct Room {
    sent: Vec<u8>,
    received: Vec<u8>,
}

impl Room {
    fn new(alloc: Global) -> Result<Room, AllocError> {
        Ok(Room {
            sent: Vec::with_capacity(alloc, MAX_DATAGRAM)?,
            received: Vec::from_elem(alloc, 0, MAX_DATAGRAM)?,
        })
    }

    fn put(&mut self, number: u64, payload: &[u8]) -> Result<(), AllocError> {
        self.sent.clear();
        self.sent.extend_from_slice(&number.to_be_bytes())?;
        self.sent.extend_from_slice(payload)
    }
}

fn carry_event<Wi: Wire>(
    alloc: Global,
    world: &mut World,
    event: &Event,
    wire: &mut Wi,
    room: &mut Room,
) -> Result<bool, PlayFault> {
    match &event.act {
        Act::Deliver(number) => carry_packet(world, event.end, *number, wire, room),
        _ => match copy_event(alloc, event) {
            Ok(copy) => step(world, copy),
            Err(_) => Err(PlayFault::NoMemory),
        },
    }
}

fn carry_packet<Wi: Wire>(
    world: &mut World,
    end: Side,
    number: u64,
    wire: &mut Wi,
    room: &mut Room,
) -> Result<bool, PlayFault> {
    let Some(payload) = world.payload(end, number) else {
        return step(world, deliver(end, number));
    };
    let Ok(()) = room.put(number, payload) else {
        return Err(PlayFault::NoMemory);
    };
    let Ok(()) = wire.send(end, &room.sent) else {
        return step(world, lose(end, number));
    };
    let Ok(count) = wire.recv(other_side(end), &mut room.received) else {
        return Ok(false);
    };
    match borne(world, end, &room.received[..count]) {
        Some(number) => step(world, deliver(end, number)),
        None => Ok(true),
    }
}

fn deliver(end: Side, number: u64) -> Event {
    Event {
        end,
        act: Act::Deliver(number),
    }
}

fn lose(end: Side, number: u64) -> Event {
    Event {
        end,
        act: Act::Lose(number),
    }
}

fn step(world: &mut World, event: Event) -> Result<bool, PlayFault> {
    match world.happen(event) {
        Ok(()) => Ok(false),
        Err(fault) => Err(fault),
    }
}

/// Who sent it doesn't matter: a datagram counts by what it holds.
fn borne(world: &World, end: Side, datagram: &[u8]) -> Option<u64> {
    let (head, text) = datagram.split_first_chunk::<8>()?;
    let number = u64::from_be_bytes(*head);
    let payload = world.payload(end, number)?;
    if deliver(end, number).fits() && payload == text {
        Some(number)
    } else {
        None
    }
}
