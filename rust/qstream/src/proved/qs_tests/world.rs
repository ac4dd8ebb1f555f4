// Made from tests/units/qs_tests/src/world.rattle by rust/erase; not edited by hand.
//! Which events fit, and what worlds do.

use crate::shim::{HostRuntime, Vec, assert, assert_eq};
mod draws;
mod memory;
mod plays;
mod refusals;
mod runs;
mod script;
mod worlds;

use crate::proved::qs_world::{Act, Dir, Event, Side, StreamId};
use crate::shim::test::Fail;

fn fits(act: Act) -> bool {
    let event = Event { end: Side::A, act };
    event.fits()
}

#[test]
fn rooms_have_bounds() -> Result<(), Fail> {
    let rt = HostRuntime::new();
    for (room, want) in [(127, false), (128, true), (16_383, true), (16_384, false)] {
        assert_eq!(rt; fits(Act::Make(room)), want);
    }
    Ok(())
}

#[test]
fn codes_and_numbers_have_bounds() -> Result<(), Fail> {
    let rt = HostRuntime::new();
    let Some(id) = StreamId::new(4) else {
        return Ok(());
    };
    let most = (1 << 62) - 1;
    assert!(rt; fits(Act::Reset(id, most)));
    assert!(rt; !fits(Act::Reset(id, most + 1)));
    assert!(rt; !fits(Act::Stop(id, most + 1)));
    assert!(rt; !fits(Act::Lose(most + 1)));
    assert!(rt; !fits(Act::Deliver(most + 1)));
    assert!(rt; fits(Act::ReadUpTo(id, 65_535)));
    assert!(rt; !fits(Act::ReadUpTo(id, 65_536)));
    assert!(rt; fits(Act::OpenStream(Dir::Uni)));
    assert!(rt; fits(Act::Claim));
    Ok(())
}

#[test]
fn writes_of_few_bytes_fit() -> Result<(), Fail> {
    let rt = HostRuntime::new();
    let Some(id) = StreamId::new(0) else {
        return Ok(());
    };
    let Ok(bytes) = Vec::from_array(rt.alloc(), [97, 98, 99]) else {
        return Ok(());
    };
    assert!(rt; fits(Act::Write(id, bytes)));
    Ok(())
}
