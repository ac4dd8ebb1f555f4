// Made from crates/qs_tool/src/tests/play_text.rt by rust/erase; not edited by hand.
//! The texts of reports and of scripts.

use crate::shim::{HostRuntime, Vec, assert, format, panic};
use crate::proved::qs_cli::{play_text, script_text};
use crate::proved::qs_world::{
    Act, Answer, Closing, EndTotals, Event, LostFault, MakeFault, OpenFault, Read, Received,
    Report, Side, UseFault, parse_script,
};
use crate::shim::alloc::Global;
use crate::shim::process::Abort;
use crate::shim::test::Fail;

fn end(spent: u64, closing: Option<Closing>) -> EndTotals {
    EndTotals {
        spent,
        granted: 4096,
        stored: 0,
        closing,
    }
}

/// The answer stands behind its event.
fn shows(rt: &impl Abort, alloc: Global, answer: Answer, text: &str) -> Result<(), Fail> {
    let event = Event {
        end: Side::B,
        act: Act::Lose(7),
    };
    let report = Report {
        log: Vec::from_array(alloc, [(event, answer)])?,
        lanes: Vec::new(alloc),
        ends: [end(0, None), end(0, None)],
    };
    let line = format!(in alloc; "lose B 7 -> {text}\nend A ")?;
    let shown = play_text(alloc, &report)?;
    assert!(rt; shown.as_str().starts_with(line.as_str()), "{text}");
    Ok(())
}

/// The answers to what is done with streams, counted from 0.
fn stream_answer(alloc: Global, number: usize) -> (Answer, &'static str) {
    match number {
        0 => (Answer::OpenStream(Err(OpenFault::Blocked(8))), "blocked 8"),
        1 => (Answer::Accept(None), "none"),
        2 => (Answer::Write(Err(UseFault::NoSuchStream)), "no-such-stream"),
        3 => (
            Answer::Finish(Err(UseFault::WrongDirection)),
            "wrong-direction",
        ),
        4 => (Answer::Reset(Err(UseFault::WasReset)), "was-reset"),
        5 => (Answer::Stop(Err(UseFault::Finished)), "finished"),
        _ => (
            Answer::ReadUpTo(Ok(Read::Reset(7)), Vec::new(alloc)),
            "reset 7",
        ),
    }
}

/// The answers to what is done with packets, counted from 0.
fn packet_answer(alloc: Global, number: usize) -> (Answer, &'static str) {
    let closing = Closing {
        code: 3,
        frame_type: 0x0a,
        place: 11,
    };
    match number {
        0 => (Answer::Make(Ok(None), Vec::new(alloc)), "nothing"),
        1 => (
            Answer::Make(Err(MakeFault::Exhausted), Vec::new(alloc)),
            "exhausted",
        ),
        2 => (
            Answer::Lose(Err(LostFault::NotOutstanding)),
            "not-outstanding",
        ),
        3 => (Answer::Deliver(Ok(Received::BelowFloor)), "below-floor"),
        4 => (Answer::Claim(Ok(7)), "number 7"),
        5 => (Answer::Claim(Err(MakeFault::Exhausted)), "exhausted"),
        6 => (
            Answer::Deliver(Ok(Received::PeerClosed(16))),
            "peer-closed 16",
        ),
        _ => (Answer::Deliver(Err(closing)), "closing 0x03 0x0a 11"),
    }
}

/// Answers that may come at several calls, counted from 0.
fn any_answer(alloc: Global, number: usize) -> (Answer, &'static str) {
    match number {
        0 => (Answer::OpenStream(Err(OpenFault::Closed)), "closed"),
        1 => (Answer::Write(Err(UseFault::NoMemory)), "no-memory"),
        2 => (Answer::Finish(Err(UseFault::Closed)), "closed"),
        3 => (Answer::Deliver(Ok(Received::Duplicate)), "duplicate"),
        4 => (Answer::Deliver(Ok(Received::NoMemory)), "no-memory"),
        5 => (Answer::Lose(Err(LostFault::Closed)), "closed"),
        _ => (Answer::ReadUpTo(Ok(Read::Wait), Vec::new(alloc)), "wait"),
    }
}

#[test]
fn answers_of_streams() -> Result<(), Fail> {
    let rt = HostRuntime::new();
    for number in 0..7 {
        let (answer, text) = stream_answer(rt.alloc(), number);
        shows(&rt, rt.alloc(), answer, text)?;
    }
    Ok(())
}

#[test]
fn answers_of_packets() -> Result<(), Fail> {
    let rt = HostRuntime::new();
    for number in 0..8 {
        let (answer, text) = packet_answer(rt.alloc(), number);
        shows(&rt, rt.alloc(), answer, text)?;
    }
    Ok(())
}

#[test]
fn answers_of_any_call() -> Result<(), Fail> {
    let rt = HostRuntime::new();
    for number in 0..7 {
        let (answer, text) = any_answer(rt.alloc(), number);
        shows(&rt, rt.alloc(), answer, text)?;
    }
    Ok(())
}

#[test]
fn an_end_tells_why_it_closed() -> Result<(), Fail> {
    let rt = HostRuntime::new();
    let closing = Closing {
        code: 3,
        frame_type: 16_384,
        place: 11,
    };
    let report = Report {
        log: Vec::new(rt.alloc()),
        lanes: Vec::new(rt.alloc()),
        ends: [end(0, None), end(4, Some(closing))],
    };
    let text =
        "end A spent 0 granted 4096 stored 0\nend B spent 4 granted 4096 stored 0 closing 0x03 0x4000 11\n";
    assert!(rt; play_text(rt.alloc(), &report)?.as_str() == text);
    Ok(())
}

#[test]
fn a_printed_script_is_read_as_its_events() -> Result<(), Fail> {
    let rt = HostRuntime::new();
    let script = b"write A 4 AB\n\nwrite B 1 -\nstop  A 1 0007\nopen B uni\n";
    let events = match parse_script(rt.alloc(), script) {
        Ok(events) => events,
        Err(fault) => panic!(rt; "{fault}"),
    };
    let text = script_text(rt.alloc(), &events)?;
    assert!(rt; text.as_str() == "write A 4 ab\nwrite B 1 -\nstop A 1 7\nopen B uni\n");
    assert!(rt; parse_script(rt.alloc(), text.as_bytes()) == Ok(events));
    Ok(())
}
