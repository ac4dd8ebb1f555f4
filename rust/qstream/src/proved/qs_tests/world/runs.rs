// Made from tests/units/qs_tests/src/world/runs.rattle by rust/erase; not edited by hand.
//! Long runs of two ends: random scripts, and busy ones that use up every limit.
use crate::shim::{HostRuntime, assert, vec};

use super::worlds::{NewWorld, made, new_world};
use crate::proved::qs_wire::{Frame, Frames};
use crate::proved::qs_world::{
    Act, Answer, Dir, Event, Report, Side, StreamId, World, play, random_script, standard_settings,
};
use crate::shim::rand_core::utils::NextWord;
use crate::shim::rand_pcg::Lcg64Xsh32;
use crate::shim::alloc::Global;
use crate::shim::process::Abort;
use crate::shim::test::Fail;

/// Neither end closed.
fn stayed_open(report: &Report) -> bool {
    report.ends.iter().all(|end| end.closing.is_none())
}

#[test]
fn random_scripts_play_to_their_end() -> Result<(), Fail> {
    let rt = HostRuntime::new();
    for seed in 0..100 {
        let events = random_script(rt.alloc(), seed, 500)?;
        let report = play(
            rt.alloc(),
            standard_settings(),
            standard_settings(),
            &events,
        )?;
        assert!(rt; report.log.len() == 500);
        assert!(rt; stayed_open(&report));
    }
    Ok(())
}

#[test]
fn no_random_events() -> Result<(), Fail> {
    let rt = HostRuntime::new();
    let events = random_script(rt.alloc(), 1, 0)?;
    assert!(rt; events.is_empty());
    Ok(())
}

/// How many frames on limits were made, of each kind.
#[derive(Clone, Copy, Default)]
struct Limits {
    data_blocked: usize,
    stream_data_blocked: usize,
    bidi_blocked: usize,
    uni_blocked: usize,
    data_raised: usize,
    stream_data_raised: usize,
}

/// A number below the count, which isn't 0.
fn draw(words: &mut Lcg64Xsh32, count: u64) -> u64 {
    debug_assert!(0 < count);
    u64::from(words.next_word()) % count
}

fn one_more(count: &mut usize) {
    *count = count.saturating_add(1);
}

fn note_frame(frame: &Frame<'_>, made: &mut Limits) {
    match frame {
        Frame::DataBlocked { .. } => one_more(&mut made.data_blocked),
        Frame::StreamDataBlocked { .. } => one_more(&mut made.stream_data_blocked),
        Frame::StreamsBlocked { dir: Dir::Bidi, .. } => one_more(&mut made.bidi_blocked),
        Frame::StreamsBlocked { dir: Dir::Uni, .. } => one_more(&mut made.uni_blocked),
        Frame::MaxData { .. } => one_more(&mut made.data_raised),
        Frame::MaxStreamData { .. } => one_more(&mut made.stream_data_raised),
        _ => (),
    }
}

fn note_payload(payload: &[u8], made: &mut Limits) {
    let mut frames = Frames::new(payload);
    for _ in 0..payload.len() {
        let Ok(Some(placed)) = frames.next() else {
            return;
        };
        note_frame(&placed.frame, made);
    }
}

fn note_log(log: &[(Event, Answer)], made: &mut Limits) {
    for (_, answer) in log {
        if let Answer::Make(Ok(Some(_)), payload) = answer {
            note_payload(payload, made);
        }
    }
}

/// One of the first 24 streams.
fn some_stream(words: &mut Lcg64Xsh32) -> Result<StreamId, Fail> {
    match StreamId::new(draw(words, 24)) {
        Some(id) => Ok(id),
        None => Err(Fail::new("no stream has that number")),
    }
}

fn some_dir(words: &mut Lcg64Xsh32) -> Dir {
    if draw(words, 2) == 0 {
        Dir::Bidi
    } else {
        Dir::Uni
    }
}

/// One of the latest packets, where some were made.
fn some_packet(words: &mut Lcg64Xsh32, made: u64) -> Option<u64> {
    if made == 0 {
        return None;
    }
    Some(made - 1 - draw(words, made.min(6)))
}

fn long_write(alloc: Global, words: &mut Lcg64Xsh32) -> Result<Act, Fail> {
    let id = some_stream(words)?;
    let count = 1 + draw(words, 2000) as usize;
    Ok(Act::Write(id, vec![in alloc; 0x61; count]?))
}

/// What an end does that made so many packets.
fn busy_act(alloc: Global, words: &mut Lcg64Xsh32, made: u64) -> Result<Act, Fail> {
    let room = 128 + draw(words, 1200) as usize;
    match draw(words, 32) {
        0..=1 => Ok(Act::OpenStream(some_dir(words))),
        2 => Ok(Act::Finish(some_stream(words)?)),
        3..=9 => long_write(alloc, words),
        10..=15 => Ok(Act::ReadUpTo(some_stream(words)?, 3000)),
        16..=17 => match some_packet(words, made) {
            Some(number) => Ok(Act::Lose(number)),
            None => Ok(Act::Make(room)),
        },
        18..=25 => match some_packet(words, made) {
            Some(number) => Ok(Act::Deliver(number)),
            None => Ok(Act::Make(room)),
        },
        _ => Ok(Act::Make(room)),
    }
}

fn busy_event(alloc: Global, words: &mut Lcg64Xsh32, world: &World) -> Result<Event, Fail> {
    let end = if draw(words, 2) == 0 {
        Side::A
    } else {
        Side::B
    };
    let act = busy_act(alloc, words, world.made(end))?;
    Ok(Event { end, act })
}

/// One more event happens; each busy event fits.
fn busy_step(alloc: Global, words: &mut Lcg64Xsh32, world: &mut World) -> Result<(), Fail> {
    let event = busy_event(alloc, words, world)?;
    if event.fits() {
        world.step(event)?;
    }
    Ok(())
}

/// What came of 2,000 busy events in a new world.
fn busy_report(alloc: Global, seed: u64, new: &mut NewWorld) -> Result<Report, Fail> {
    let world = made(new)?;
    let mut words = Lcg64Xsh32::new(seed, 0);
    for _ in 0..2000 {
        busy_step(alloc, &mut words, world)?;
    }
    Ok(world.report()?)
}

fn busy_run(alloc: Global, seed: u64) -> Result<Report, Fail> {
    busy_report(alloc, seed, &mut new_world(alloc))
}

/// A run of 2,000 events comes to its end, and neither end closes.
fn runs_on(rt: &impl Abort, alloc: Global, seed: u64, made: &mut Limits) -> Result<(), Fail> {
    let report = busy_run(alloc, seed)?;
    assert!(rt; report.log.len() == 2000);
    assert!(rt; stayed_open(&report));
    note_log(&report.log, made);
    Ok(())
}

#[test]
fn busy_runs_use_up_every_limit() -> Result<(), Fail> {
    let rt = HostRuntime::new();
    let mut made = Limits::default();
    for seed in 0..20 {
        runs_on(&rt, rt.alloc(), seed, &mut made)?;
    }
    assert!(rt; made.data_blocked > 0);
    assert!(rt; made.stream_data_blocked > 0);
    assert!(rt; made.bidi_blocked > 0);
    assert!(rt; made.uni_blocked > 0);
    assert!(rt; made.data_raised > 0);
    assert!(rt; made.stream_data_raised > 0);
    Ok(())
}
