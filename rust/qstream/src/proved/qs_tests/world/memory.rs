// Made from tests/units/qs_tests/src/world/memory.rattle by rust/erase; not edited by hand.
//! Where no allocation is refused, no call answers that memory was. A run that ran short is made once more, since a test may be run with one
//! allocation refused.
use crate::shim::{HostRuntime, String, assert, format};
use super::plays::{LOST_AND_SENT_AGAIN, ran_short};
use super::refusals::{ACKNOWLEDGED_LATE, OVERTAKING};
use crate::proved::qs_world::{PlayFault, Report, Settings, parse_script, play, random_script, standard_settings};
use crate::shim::alloc::Global;
use crate::shim::test::Fail;

/// No end ran short.
fn found_memory(report: &Report) -> bool {
    !report.log.iter().any(|(_, answer)| ran_short(answer))
}

fn drawn_once(alloc: Global, seed: u64) -> Result<bool, PlayFault> {
    let events = random_script(alloc, seed, 400)?;
    let report = play(alloc, standard_settings(), standard_settings(), &events)?;
    Ok(found_memory(&report))
}

fn drawn(alloc: Global, seed: u64) -> Result<bool, PlayFault> {
    match drawn_once(alloc, seed) {
        Ok(true) => Ok(true),
        _ => drawn_once(alloc, seed),
    }
}

#[test]
fn random_runs_find_memory() -> Result<(), Fail> {
    let rt = HostRuntime::new();
    for seed in 1000..1200 {
        assert!(rt; drawn(rt.alloc(), seed)?);
    }
    Ok(())
}

fn played_once(alloc: Global, settings: Settings, script: &[u8]) -> Result<bool, PlayFault> {
    match parse_script(alloc, script) {
        Ok(events) => Ok(found_memory(&play(alloc, settings, settings, &events)?)),
        Err(_) => Err(PlayFault::NoMemory),
    }
}

fn played(alloc: Global, settings: Settings, script: &[u8]) -> Result<bool, PlayFault> {
    match played_once(alloc, settings, script) {
        Ok(true) => Ok(true),
        _ => played_once(alloc, settings, script),
    }
}

#[test]
fn short_runs_find_memory() -> Result<(), Fail> {
    let rt = HostRuntime::new();
    for script in [LOST_AND_SENT_AGAIN, ACKNOWLEDGED_LATE, OVERTAKING] {
        assert!(rt; played(rt.alloc(), standard_settings(), script)?);
    }
    Ok(())
}

// More than the buffer keeps is written, and more than the limit allows; then nothing is accepted.
#[test]
fn writes_past_a_bound_find_memory() -> Result<(), Fail> {
    let rt = HostRuntime::new();
    let long = longer(rt.alloc(), "open A bidi\n", "write A 0 ", 3000)?;
    assert!(rt; played(rt.alloc(), standard_settings(), long.as_bytes())?);
    let narrow = Settings {
        bidi_remote: 1,
        ..standard_settings()
    };
    let past = b"open A bidi\nwrite A 0 61\nwrite A 0 62\nmake A 1200\nwrite A 0 63\n";
    assert!(rt; played(rt.alloc(), narrow, past)?);
    Ok(())
}

/// Lines, and then one with so many bytes behind its words.
fn longer(alloc: Global, lines: &str, words: &str, count: u64) -> Result<String, Fail> {
    let mut script = String::new(alloc);
    script.push_str(lines)?;
    script.push_str(words)?;
    for _ in 0..count {
        script.push_str("61")?;
    }
    script.push_str("\n")?;
    Ok(script)
}

/// So many packets of two streams are lost, one after the other, and then each is acknowledged late.
fn losing(alloc: Global, count: u64) -> Result<String, Fail> {
    let mut script = String::new(alloc);
    script.push_str("open A bidi\nopen A bidi\n")?;
    for number in 0..count {
        let round = format!(in alloc; "write A 0 61\nwrite A 4 62\nmake A 200\nlose A {number}\n")?;
        script.push_str(round.as_str())?;
    }
    for number in 0..count {
        let late = format!(in alloc; "deliver A {number}\n")?;
        script.push_str(late.as_str())?;
    }
    script.push_str("make B 1200\ndeliver B 0\n")?;
    Ok(script)
}

// The oldest of more than 256 lost packets make room for the latest.
#[test]
fn many_lost_packets_find_memory() -> Result<(), Fail> {
    let rt = HostRuntime::new();
    let script = losing(rt.alloc(), 300)?;
    assert!(rt; played(rt.alloc(), standard_settings(), script.as_bytes())?);
    Ok(())
}

// The greatest window has a ring of its own.
#[test]
fn the_greatest_window_finds_memory() -> Result<(), Fail> {
    let rt = HostRuntime::new();
    let wide = Settings {
        conn_window: 1 << 20,
        bidi_local: 1 << 20,
        bidi_remote: 1 << 20,
        uni: 1 << 20,
        ..standard_settings()
    };
    assert!(rt; played(rt.alloc(), wide, LOST_AND_SENT_AGAIN)?);
    Ok(())
}
