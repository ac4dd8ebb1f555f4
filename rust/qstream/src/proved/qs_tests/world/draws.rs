// Made from tests/units/qs_tests/src/world/draws.rattle by rust/erase; not edited by hand.
//! Events drawn at random.
use crate::shim::{HostRuntime, assert, panic};
use crate::proved::qs_world::{Act, Event, Side, parse_script, random_script};
use crate::shim::test::Fail;

/// Which kinds came, and at which ends.
#[derive(Clone, Copy, Default)]
struct Seen {
    sides: [bool; 2],
    kinds: [bool; 10],
}

fn note(seen: &mut Seen, event: &Event) {
    match event.end {
        Side::A => seen.sides[0] = true,
        Side::B => seen.sides[1] = true,
    }
    let kind = match event.act {
        Act::OpenStream(_) => 0,
        Act::Accept => 1,
        Act::Write(_, _) => 2,
        Act::Finish(_) => 3,
        Act::Reset(_, _) => 4,
        Act::Stop(_, _) => 5,
        Act::ReadUpTo(_, _) => 6,
        Act::Make(_) => 7,
        Act::Lose(_) => 8,
        Act::Deliver(_) => 9,
        // No claim is drawn.
        Act::Claim => return,
    };
    seen.kinds[kind] = true;
}

#[test]
fn every_kind_comes() -> Result<(), Fail> {
    let rt = HostRuntime::new();
    let mut seen = Seen::default();
    for event in &random_script(rt.alloc(), 1, 500)? {
        note(&mut seen, event);
    }
    assert!(rt; seen.sides == [true; 2]);
    assert!(rt; seen.kinds == [true; 10]);
    Ok(())
}

#[test]
fn without_packets_one_is_made() -> Result<(), Fail> {
    let rt = HostRuntime::new();
    for seed in 0..200 {
        for event in &random_script(rt.alloc(), seed, 1)? {
            match event.act {
                Act::Lose(_) | Act::Deliver(_) => panic!(rt; "no packet has a number"),
                _ => (),
            }
        }
    }
    Ok(())
}

/// The first events of a seed, as a program apart from this one drew them.
const FIRST_EVENTS: &[u8] = b"\
read B 6 51
make A 128
make A 298
open A bidi
make A 128
make A 128
write A 0 f372d7676a92965a3cc43f718dad35535e9c01d6f01d76630301bf43ab8e7139aa1307b797836ad7497e8bab54b3c67cfa70109a57d47f04726da3b4
make B 137
finish A 1
make A 239
make B 128
write B 7 aabbb1faa4dc2508b011636dbf6ddf15c323bd3a8ae69c
lose A 0
deliver A 0
";

#[test]
fn events_of_a_seed() -> Result<(), Fail> {
    let rt = HostRuntime::new();
    let Ok(events) = parse_script(rt.alloc(), FIRST_EVENTS) else {
        return Err(Fail::new("the script is faulty"));
    };
    assert!(rt; events.len() == 14);
    let drawn = random_script(rt.alloc(), 1460, 14)?;
    assert!(rt; drawn.as_slice() == events.as_slice());
    Ok(())
}
