//! Scripts are played with the Nth allocation refused, N counted up until a run meets no refusal: a lost packet that is sent again, its late
//! arrival, and a reset that overtakes its bytes. What `play` answers then is checked on the short run itself; and where each call that
//! found no memory is made once more, all ends as if none had been refused.

#[rustfmt::skip]
mod proved;
mod listed;
mod pieces;
#[path = "../../../tests/support/refusing.rs"]
mod refusing;
#[allow(dead_code, unused_imports, unused_macros)]
#[path = "../../src/shim/mod.rs"]
mod shim;
mod short;

use proved::qs_world::{
    Act, Answer, EndTotals, Event, LaneTotals, LostFault, MakeFault, OpenFault, PlayFault, Reason,
    Received, Report, Side, StreamId, UseFault, World, copy_event, parse_script, play,
    standard_settings,
};
use refusing::{asked, refuse, watched};
use shim::alloc::Global;

const LOST_AND_SENT_AGAIN: &str = "\
open A bidi
write A 0 68656c6c6f
finish A 0
make A 1200
lose A 0
make A 1200
deliver A 1
deliver A 0
accept B
read B 0 16
read B 0 16
make B 1200
deliver B 0
";

/// The packet that was declared lost arrives, and the one that repeated it doesn't.
const LATE: &str = "\
open A bidi
write A 0 68656c6c6f
finish A 0
make A 1200
lose A 0
make A 1200
deliver A 0
accept B
read B 0 16
read B 0 16
make B 1200
deliver B 0
";

const OVERTAKING: &str = "\
open A bidi
write A 0 616263
make A 1200
reset A 0 7
make A 1200
deliver A 1
deliver A 0
read B 0 16
make B 1200
deliver B 0
";

const SCRIPTS: [&str; 3] = [LOST_AND_SENT_AGAIN, LATE, OVERTAKING];

fn events_of(script: &str) -> shim::Vec<Event> {
    parse_script(Global, script.as_bytes()).expect("it is a script")
}

fn copied(event: &Event) -> Event {
    copy_event(Global, event).expect("none is refused here")
}

/// What comes of the events where an allocation is refused to `play` alone.
fn played(events: &[Event]) -> Result<Report, PlayFault> {
    watched(|| play(Global, standard_settings(), standard_settings(), events))
}

/// An end found no memory.
fn ran_short(answer: &Answer) -> bool {
    matches!(
        answer,
        Answer::OpenStream(Err(OpenFault::NoMemory))
            | Answer::Write(Err(UseFault::NoMemory))
            | Answer::Make(Err(MakeFault::NoMemory), _)
            | Answer::Lose(Err(LostFault::NoMemory))
            | Answer::Deliver(Ok(Received::NoMemory))
    )
}

/// What the lanes and the ends of stream 0 come to where A wrote so many bytes, and `read` of them were read.
fn come_to(written: u64, read: u64) -> ([LaneTotals; 2], [EndTotals; 2]) {
    let id = StreamId::new(0).expect("it has a number");
    let unused = LaneTotals {
        sender: Side::B,
        id,
        written: 0,
        read: 0,
        received: false,
        declared: None,
        known: None,
    };
    let used = LaneTotals {
        sender: Side::A,
        written,
        read,
        received: read == written,
        declared: Some(written),
        known: Some(written),
        ..unused
    };
    let end = |spent| EndTotals {
        spent,
        granted: 4096,
        stored: 0,
        closing: None,
    };
    ([used, unused], [end(0), end(written)])
}

/// What each script comes to where no memory is refused.
fn expected(script: &str) -> ([LaneTotals; 2], [EndTotals; 2]) {
    if script == OVERTAKING {
        return come_to(3, 0);
    }
    come_to(5, 5)
}

fn is_as_expected(report: &Report, script: &str) -> bool {
    let (lanes, ends) = expected(script);
    *report.lanes == lanes && report.ends == ends
}

/// How often `play` answered so.
#[derive(Debug, Default)]
struct Told {
    no_memory: usize,
    no_packet: usize,
    short: usize,
    whole: usize,
}

/// A run ended at an event as a packet was to be delivered that wasn't made: a call before it found no memory.
fn lacks_packet(events: &[Event], refused: u64, event: usize) {
    let Some((Event { end, act }, before)) = events[..event].split_last() else {
        panic!("events are counted from 1");
    };
    let Act::Deliver(number) = act else {
        panic!("event {event} is {act:?}");
    };
    refuse(refused);
    let report = played(before).expect("the events before it are played");
    assert_eq!(count_short(&report), 1);
    let makes = |(event, answer): &&(Event, Answer)| {
        event.end == *end && matches!(answer, Answer::Make(Ok(Some(_)), _))
    };
    assert!(report.log.iter().filter(makes).count() as u64 <= *number);
    short::agrees(&report);
}

fn count_short(report: &Report) -> usize {
    let answers = report.log.iter().map(|(_, answer)| answer);
    answers.filter(|answer| ran_short(answer)).count()
}

/// What a run came to in which an allocation was refused.
fn judge(script: &str, refused: u64, result: &Result<Report, PlayFault>, told: &mut Told) {
    let events = events_of(script);
    match result {
        Err(PlayFault::NoMemory) => told.no_memory += 1,
        Err(PlayFault::NoSuchPacket { event }) => {
            lacks_packet(&events, refused, *event);
            told.no_packet += 1;
        }
        Err(fault) => panic!("{fault}"),
        Ok(report) => {
            assert!(report.log.iter().map(|(event, _)| event).eq(events.iter()));
            short::agrees(report);
            match count_short(report) {
                // The growth was one that a call does without.
                0 => {
                    assert!(is_as_expected(report, script));
                    told.whole += 1;
                }
                count => {
                    assert_eq!(count, 1);
                    told.short += 1;
                }
            }
        }
    }
}

/// Plays the script with each allocation refused in turn. How many there were.
fn plays_with_refusals(script: &str, told: &mut Told) -> u64 {
    let events = events_of(script);
    for refused in 0.. {
        refuse(refused);
        let result = played(&events);
        if asked() <= refused {
            let report = result.expect("no memory was refused");
            assert_eq!(count_short(&report), 0);
            assert!(is_as_expected(&report, script));
            short::agrees(&report);
            return refused;
        }
        judge(script, refused, &result, told);
    }
    unreachable!()
}

#[test]
fn short_runs_agree() {
    let (mut all, mut told) = (0, Told::default());
    for script in SCRIPTS {
        all += plays_with_refusals(script, &mut told);
    }
    println!("{all} allocations of scripts were refused in turn: {told:?}");
    assert!(all > 100);
    assert!(told.no_memory > 20 && told.no_packet > 5 && told.short > 20);
}

/// An event happens, and once more where memory was refused.
fn step_twice(world: &mut World, event: &Event) -> bool {
    for again in [false, true] {
        let event = copied(event);
        match watched(|| world.step(event)) {
            Err(PlayFault::NoMemory) => {}
            Err(fault) => panic!("{fault}"),
            Ok(answer) => {
                let newest = world.log().last().map(|(_, answer)| answer);
                assert_eq!(newest, Some(&answer));
                if !ran_short(&answer) {
                    return again;
                }
            }
        }
    }
    panic!("memory was refused twice");
}

fn report_twice(world: &World) -> (Report, bool) {
    match watched(|| world.report()) {
        Ok(report) => (report, false),
        Err(_) => (
            watched(|| world.report()).expect("it was refused once"),
            true,
        ),
    }
}

/// Plays the script, each refused call twice. How many were.
fn played_on(script: &str) -> usize {
    let new = watched(|| World::new(Global, standard_settings(), standard_settings()));
    let mut world = new.expect("it takes no memory");
    let events = events_of(script);
    let calls = events.iter().map(|event| step_twice(&mut world, event));
    let refusals = calls.filter(|was_refused| *was_refused).count();
    let (report, was_refused) = report_twice(&world);
    assert!(is_as_expected(&report, script));
    short::agrees(&report);
    refusals + usize::from(was_refused)
}

#[test]
fn a_call_that_is_made_again_makes_up_for_it() {
    let (mut all, mut told) = (0, 0);
    for script in SCRIPTS {
        for refused in 0.. {
            refuse(refused);
            let refusals = played_on(script);
            assert!(refusals <= 1);
            if asked() <= refused {
                assert_eq!(refusals, 0);
                break;
            }
            all += 1;
            told += refusals;
        }
    }
    println!("{all} allocations of steps were refused in turn: {told} times a call told so");
    assert!(all > 100 && told > 90);
}

#[test]
fn a_script_is_read_or_finds_no_memory() {
    for script in SCRIPTS {
        let events = events_of(script);
        for refused in 0.. {
            refuse(refused);
            let result = watched(|| parse_script(Global, script.as_bytes()));
            if asked() <= refused {
                assert!(result == Ok(events) && refused > 0);
                break;
            }
            let fault = result.expect_err("memory was refused");
            assert!(fault.reason == Reason::NoMemory, "{fault}");
        }
    }
}
