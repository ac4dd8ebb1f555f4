// Made from crates/qs_tool/src/tests/wires.rt by rust/erase; not edited by hand.
//! What scripts come to over a wire.

use crate::shim::{HostRuntime, String, Vec, assert};
use crate::proved::qs_cli::{MemoryWire, Status, UdpWire, Wire, run_udp};
use crate::proved::qs_world::Side;
use crate::shim::alloc::{AllocError, Global};
use crate::shim::process::Abort;
use crate::shim::test::Fail;

/// A packet is lost, and its bytes are sent again (RFC 9000, section 13.3).
const SCRIPT: &[u8] = b"\
open A bidi
write A 0 68656c6c6f
finish A 0
make A 1200
lose A 0
make A 1200
deliver A 1
deliver A 0
accept B
read B 0 16
read B 0 16
make B 1200
deliver B 0
";

/// What the script comes to with these two deliveries to B, and the ACK that B sends then.
#[derive(Clone, Copy)]
struct Outcome {
    deliveries: &'static str,
    ack: &'static str,
    received: &'static str,
    last: &'static str,
}

const BOTH: &str = "deliver A 1 -> done\ndeliver A 0 -> done\n";

const HONEST: Outcome = Outcome {
    deliveries: BOTH,
    ack: "0201000001",
    received: "yes",
    last: "wire failures 0 strangers 0",
};

/// B got packet 1 alone.
const FIRST_ALONE: Outcome = Outcome {
    deliveries: "deliver A 1 -> done\n",
    ack: "0201000000",
    received: "yes",
    last: "wire failures 1 strangers 0",
};

impl Outcome {
    fn text(&self, alloc: Global) -> Result<String, AllocError> {
        let Outcome {
            deliveries,
            ack,
            received,
            last,
        } = self;
        let mut text = String::new(alloc);
        text.push_str("open A bidi -> stream 0\n")?;
        text.push_str("write A 0 68656c6c6f -> wrote 5\n")?;
        text.push_str("finish A 0 -> ok\n")?;
        text.push_str("make A 1200 -> packet 0 0b000568656c6c6f\n")?;
        text.push_str("lose A 0 -> ok\n")?;
        text.push_str("make A 1200 -> packet 1 0b000568656c6c6f\n")?;
        text.push_str(deliveries)?;
        text.push_str("accept B -> stream 0\n")?;
        text.push_str("read B 0 16 -> bytes 68656c6c6f\n")?;
        text.push_str("read B 0 16 -> end\n")?;
        write!(text, "make B 1200 -> packet 0 {ack}\n")?;
        text.push_str("deliver B 0 -> done\n")?;
        write!(
            text,
            "lane A 0 written 5 read 5 received {received} declared 5 known 5\n"
        )?;
        text.push_str("lane B 0 written 0 read 0 received no declared none known none\n")?;
        text.push_str("end A spent 0 granted 4096 stored 0\n")?;
        text.push_str("end B spent 5 granted 4096 stored 0\n")?;
        write!(text, "{last}\n")?;
        Ok(text)
    }
}

/// The script comes to that over the wire.
fn comes_to<Wi: Wire>(
    rt: &impl Abort,
    alloc: Global,
    wire: &mut Wi,
    outcome: &Outcome,
) -> Result<(), Fail> {
    let mut out = Vec::new(alloc);
    assert!(rt; run_udp(alloc, SCRIPT, wire, &mut out) == Status::Success);
    assert!(rt; out.as_slice() == outcome.text(alloc)?.as_bytes());
    Ok(())
}

#[test]
fn an_honest_wire() -> Result<(), Fail> {
    let rt = HostRuntime::new();
    let mut wire = MemoryWire::new(rt.alloc(), &[], &[]);
    comes_to(&rt, rt.alloc(), &mut wire, &HONEST)
}

#[test]
fn the_second_send_fails() -> Result<(), Fail> {
    let rt = HostRuntime::new();
    let mut wire = MemoryWire::new(rt.alloc(), &[2], &[]);
    let outcome = Outcome {
        deliveries: "deliver A 1 -> done\nlose A 0 -> not-outstanding\n",
        ..FIRST_ALONE
    };
    comes_to(&rt, rt.alloc(), &mut wire, &outcome)
}

#[test]
fn the_first_send_fails() -> Result<(), Fail> {
    let rt = HostRuntime::new();
    let mut wire = MemoryWire::new(rt.alloc(), &[1], &[]);
    let outcome = Outcome {
        deliveries: "lose A 1 -> ok\ndeliver A 0 -> done\n",
        ack: "0200000000",
        received: "yes",
        last: "wire failures 1 strangers 0",
    };
    comes_to(&rt, rt.alloc(), &mut wire, &outcome)
}

#[test]
fn the_second_receive_fails() -> Result<(), Fail> {
    let rt = HostRuntime::new();
    let mut wire = MemoryWire::new(rt.alloc(), &[], &[2]);
    comes_to(&rt, rt.alloc(), &mut wire, &FIRST_ALONE)
}

#[test]
fn the_first_receive_fails() -> Result<(), Fail> {
    let rt = HostRuntime::new();
    let mut wire = MemoryWire::new(rt.alloc(), &[], &[1]);
    comes_to(&rt, rt.alloc(), &mut wire, &FIRST_ALONE)
}

#[test]
fn a_stranger_comes_first() -> Result<(), Fail> {
    let rt = HostRuntime::new();
    let mut wire = MemoryWire::new(rt.alloc(), &[], &[]);
    wire.inject(Side::B, &[0xff])?;
    let outcome = Outcome {
        last: "wire failures 0 strangers 1",
        ..FIRST_ALONE
    };
    comes_to(&rt, rt.alloc(), &mut wire, &outcome)
}

#[test]
fn loopback() -> Result<(), Fail> {
    let rt = HostRuntime::new();
    let mut wire = UdpWire::bind(&rt)?;
    comes_to(&rt, rt.alloc(), &mut wire, &HONEST)
}

/// The script comes to a fault, which is named in place of it all.
fn names(rt: &impl Abort, alloc: Global, script: &[u8], text: &str) {
    let mut wire = MemoryWire::new(alloc, &[1], &[]);
    let mut out = Vec::new(alloc);
    assert!(rt; run_udp(alloc, script, &mut wire, &mut out) == Status::FaultShown);
    assert!(rt; out.as_slice() == text.as_bytes());
    assert!(rt; wire.failures() == 0);
}

#[test]
fn faults_are_named() {
    let rt = HostRuntime::new();
    let text = "fault: no such packet at event 2\n";
    names(&rt, rt.alloc(), b"accept B\ndeliver A 0\n", text);
    names(&rt, rt.alloc(), b"jump A", "fault: line 1 reason 1\n");
}

#[test]
fn a_writer_that_fails() {
    let rt = HostRuntime::new();
    let mut wire = MemoryWire::new(rt.alloc(), &[], &[]);
    let mut room = [0; 8];
    let mut out = room.as_mut_slice();
    assert!(rt; run_udp(rt.alloc(), b"", &mut wire, &mut out) == Status::Failed);
}
