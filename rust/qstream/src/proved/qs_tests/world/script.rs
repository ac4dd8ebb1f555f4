// Made from tests/units/qs_tests/src/world/script.rattle by rust/erase; not edited by hand.
//! Which events a script means, and where it is faulty.
use crate::shim::{HostRuntime, Vec, assert, panic};
use crate::proved::qs_world::{Act, Dir, Event, Reason, ScriptFault, Side, StreamId, parse_script};
use crate::shim::alloc::Global;
use crate::shim::process::Abort;
use crate::shim::test::Fail;

/// A script in which memory was refused, which has a reason of its own, is read once more. So the tests pass
/// with each allocation refused in turn.
fn parse(alloc: Global, script: &[u8]) -> Result<Vec<Event>, ScriptFault> {
    match parse_script(alloc, script) {
        Err(fault) if fault.reason == Reason::NoMemory => parse_script(alloc, script),
        result => result,
    }
}

/// The script means these events.
fn means(rt: &impl Abort, alloc: Global, script: &[u8], events: &[Event]) {
    match parse(alloc, script) {
        Ok(parsed) => assert!(rt; parsed.as_slice() == events, "events of {script:?}"),
        Err(fault) => panic!(rt; "{script:?}: {fault}"),
    }
}

/// The script is faulty at that line.
fn faulty(rt: &impl Abort, alloc: Global, script: &[u8], line: usize, reason: u64) {
    match parse(alloc, script) {
        Ok(_) => panic!(rt; "{script:?} has no fault"),
        Err(fault) => {
            assert!(rt; fault.line == line, "line of {script:?}");
            assert!(rt; fault.reason.number() == reason, "reason of {script:?}");
        }
    }
}

/// An empty vector with room for so many bytes. It asks for memory a second time.
fn with_room(alloc: Global, count: usize) -> Result<Vec<u8>, Fail> {
    match Vec::with_capacity(alloc, count) {
        Ok(bytes) => Ok(bytes),
        Err(_) => Ok(Vec::with_capacity(alloc, count)?),
    }
}

fn vec_of(alloc: Global, items: &[u8]) -> Result<Vec<u8>, Fail> {
    let mut bytes = with_room(alloc, items.len())?;
    bytes.extend_from_slice(items)?;
    Ok(bytes)
}

fn on(end: Side, act: Act) -> Event {
    Event { end, act }
}

fn id(rt: &impl Abort, number: u64) -> StreamId {
    match StreamId::new(number) {
        Some(id) => id,
        None => panic!(rt; "no stream has the number {number}"),
    }
}

#[test]
fn each_reason() {
    let rt = HostRuntime::new();
    let scripts: [(&[u8], u64); 15] = [
        (b"jump A", 1),
        (b" # x", 1),
        (b"read A 0", 2),
        (b"accept A 0", 2),
        (b"write A 0 61 62 63", 2),
        (b"claim", 2),
        (b"claim A 0", 2),
        (b"open C bidi", 3),
        (b"claim C", 3),
        (b"open A both", 4),
        (b"lose A x", 5),
        (b"make A 127", 6),
        (b"make A 16384", 6),
        (b"read A 0 65536", 6),
        (b"write A 0 abc", 7),
    ];
    for (script, reason) in scripts {
        faulty(&rt, rt.alloc(), script, 1, reason);
    }
}

#[test]
fn numbers_have_bounds() {
    let rt = HostRuntime::new();
    let scripts: [(&[u8], u64); 7] = [
        (b"lose A +5", 5),
        (b"lose A -5", 5),
        (b"lose A 5\r", 5),
        (b"lose A 00000000000000000001", 5),
        (b"lose A 4611686018427387904", 6),
        (b"lose A 9999999999999999999", 6),
        (b"finish A 4611686018427387904", 6),
    ];
    for (script, reason) in scripts {
        faulty(&rt, rt.alloc(), script, 1, reason);
    }
    let most = [on(Side::A, Act::Lose((1 << 62) - 1))];
    means(&rt, rt.alloc(), b"lose A 4611686018427387903", &most);
    let padded = [on(Side::B, Act::Deliver(7))];
    means(&rt, rt.alloc(), b"deliver B 0000000000000000007", &padded);
}

#[test]
fn words_are_looked_at_from_left_to_right() {
    let rt = HostRuntime::new();
    let scripts: [(&[u8], u64); 6] = [
        (b"jump", 1),
        (b"reset C x y z", 2),
        (b"reset C x y", 3),
        (b"reset A x y", 5),
        (b"reset A 4611686018427387904 y", 6),
        (b"write A 0 6g", 7),
    ];
    for (script, reason) in scripts {
        faulty(&rt, rt.alloc(), script, 1, reason);
    }
}

#[test]
fn lines_are_counted_from_one() {
    let rt = HostRuntime::new();
    faulty(
        &rt,
        rt.alloc(),
        b"accept A\n\n# jump\njump A\njump B\n",
        4,
        1,
    );
    faulty(&rt, rt.alloc(), b"\naccept A\r\r\n", 2, 3);
    faulty(&rt, rt.alloc(), b"\r", 1, 1);
}

#[test]
fn lines_without_an_event() {
    let rt = HostRuntime::new();
    let scripts: [&[u8]; 6] = [
        b"",
        b"\n",
        b"   ",
        b"#",
        b"# open A bidi\n",
        b"  \r\n\r\n#\r\n",
    ];
    for script in scripts {
        means(&rt, rt.alloc(), script, &[]);
    }
}

#[test]
fn spaces_and_line_ends() {
    let rt = HostRuntime::new();
    let events = [
        on(Side::A, Act::OpenStream(Dir::Bidi)),
        on(Side::B, Act::OpenStream(Dir::Uni)),
    ];
    means(&rt, rt.alloc(), b"open A bidi\nopen B uni\n", &events);
    means(
        &rt,
        rt.alloc(),
        b"  open   A bidi \r\n\nopen B   uni",
        &events,
    );
}

#[test]
fn hex_of_either_case() -> Result<(), Fail> {
    let rt = HostRuntime::new();
    let writes = [
        on(
            Side::A,
            Act::Write(id(&rt, 0), vec_of(rt.alloc(), b"\xab\xcd")?),
        ),
        on(Side::A, Act::Write(id(&rt, 4), Vec::new(rt.alloc()))),
    ];
    means(&rt, rt.alloc(), b"write A 0 aBcD\nwrite A 4 -\n", &writes);
    faulty(&rt, rt.alloc(), b"write A 0 --", 1, 7);
    Ok(())
}

/// A write of so many bytes 61.
fn long_write(alloc: Global, count: u32) -> Result<Vec<u8>, Fail> {
    let mut script = with_room(alloc, 2 * count as usize + 11)?;
    script.extend_from_slice(b"write A 0 ")?;
    for _ in 0..count {
        script.extend_from_slice(b"61")?;
    }
    Ok(script)
}

#[test]
fn a_write_has_at_most_65535_bytes() -> Result<(), Fail> {
    let rt = HostRuntime::new();
    let script = long_write(rt.alloc(), 65_535)?;
    assert!(rt; parse(rt.alloc(), &script).is_ok());
    let mut script = long_write(rt.alloc(), 65_536)?;
    faulty(&rt, rt.alloc(), &script, 1, 8);
    script.push(b'g')?;
    faulty(&rt, rt.alloc(), &script, 1, 7);
    Ok(())
}

#[test]
fn a_packet_is_lost_and_sent_again() -> Result<(), Fail> {
    let rt = HostRuntime::new();
    let (a, b, stream) = (Side::A, Side::B, id(&rt, 0));
    let bytes = vec_of(rt.alloc(), b"hello")?;
    let script =
        b"open A bidi\nwrite A 0 68656c6c6f\nfinish A 0\nmake A 1200\nlose A 0\nmake A 1200\n\
        deliver A 1\ndeliver A 0\naccept B\nread B 0 16\nread B 0 16\nmake B 1200\ndeliver B 0\n";
    let events = [
        on(a, Act::OpenStream(Dir::Bidi)),
        on(a, Act::Write(stream, bytes)),
        on(a, Act::Finish(stream)),
        on(a, Act::Make(1200)),
        on(a, Act::Lose(0)),
        on(a, Act::Make(1200)),
        on(a, Act::Deliver(1)),
        on(a, Act::Deliver(0)),
        on(b, Act::Accept),
        on(b, Act::ReadUpTo(stream, 16)),
        on(b, Act::ReadUpTo(stream, 16)),
        on(b, Act::Make(1200)),
        on(b, Act::Deliver(0)),
    ];
    means(&rt, rt.alloc(), script, &events);
    Ok(())
}

#[test]
fn numbers_are_claimed() {
    let rt = HostRuntime::new();
    let events = [
        on(Side::A, Act::Claim),
        on(Side::A, Act::Deliver(0)),
        on(Side::B, Act::Claim),
    ];
    means(&rt, rt.alloc(), b"claim A\ndeliver A 0\nclaim  B", &events);
}

#[test]
fn a_reset_overtakes_its_bytes() -> Result<(), Fail> {
    let rt = HostRuntime::new();
    let (a, b, stream) = (Side::A, Side::B, id(&rt, 0));
    let bytes = vec_of(rt.alloc(), b"abc")?;
    let script = b"open A bidi\nwrite A 0 616263\nmake A 1200\nreset A 0 7\nmake A 1200\n\
        deliver A 1\ndeliver A 0\nread B 0 16\nstop B 0 70\nmake B 1200\ndeliver B 0";
    let events = [
        on(a, Act::OpenStream(Dir::Bidi)),
        on(a, Act::Write(stream, bytes)),
        on(a, Act::Make(1200)),
        on(a, Act::Reset(stream, 7)),
        on(a, Act::Make(1200)),
        on(a, Act::Deliver(1)),
        on(a, Act::Deliver(0)),
        on(b, Act::ReadUpTo(stream, 16)),
        on(b, Act::Stop(stream, 70)),
        on(b, Act::Make(1200)),
        on(b, Act::Deliver(0)),
    ];
    means(&rt, rt.alloc(), script, &events);
    Ok(())
}
