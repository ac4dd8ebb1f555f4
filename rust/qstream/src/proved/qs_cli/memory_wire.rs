// Made from crates/qs_cli/src/memory_wire.rt by rust/erase; not edited by hand.
//! A wire in memory, which fails where it is told to.

use crate::shim::Vec;

use crate::proved::qs_cli::wire::{Failures, Wire, WireError, other_side};
use crate::proved::qs_ranges::NoMemory;
use crate::proved::qs_world::Side;
use crate::shim::alloc::Global;
use crate::shim::collections::VecDeque;

/// A wire in memory, whose failures a test chooses. Datagrams wait at an endpoint in the order in which they were sent to it.
pub struct MemoryWire<'a> {
    alloc: Global,
    failing_sends: &'a [u64],
    failing_recvs: &'a [u64],
    sends: u64,
    recvs: u64,
    failures: Failures,
    at_a: VecDeque<Vec<u8>>,
    at_b: VecDeque<Vec<u8>>,
}

impl<'a> MemoryWire<'a> {
    pub fn new(alloc: Global, failing_sends: &'a [u64], failing_recvs: &'a [u64]) -> MemoryWire<'a> {
        MemoryWire {
            alloc,
            failing_sends,
            failing_recvs,
            sends: 0,
            recvs: 0,
            failures: Failures::none(),
            at_a: VecDeque::new(alloc),
            at_b: VecDeque::new(alloc),
        }
    }

    pub fn inject(&mut self, at: Side, bytes: &[u8]) -> Result<(), NoMemory> {
        let datagram = Vec::from_slice(self.alloc, bytes)?;
        match at {
            Side::A => self.at_a.push_back(datagram)?,
            Side::B => self.at_b.push_back(datagram)?,
        }
        Ok(())
    }
}

impl<'a> Wire for MemoryWire<'a> {
    /// It fails also where memory is refused.
    fn send(&mut self, from: Side, bytes: &[u8]) -> Result<(), WireError> {
        self.sends = self.sends.saturating_add(1);
        if self.failing_sends.contains(&self.sends) {
            return Err(self.failures.note_send());
        }
        match self.inject(other_side(from), bytes) {
            Ok(()) => Ok(()),
            Err(_) => Err(self.failures.note_send()),
        }
    }

    /// It fails also if nothing waits, as a socket's timeout does. What waits stays if it fails.
    fn recv(&mut self, at: Side, into: &mut [u8]) -> Result<usize, WireError> {
        self.recvs = self.recvs.saturating_add(1);
        if self.failing_recvs.contains(&self.recvs) {
            return Err(self.failures.note_recv());
        }
        let waiting = match at {
            Side::A => self.at_a.pop_front(),
            Side::B => self.at_b.pop_front(),
        };
        match waiting {
            Some(datagram) => Ok(copy_front(&datagram, into)),
            None => Err(self.failures.note_recv()),
        }
    }

    fn failures(&self) -> u64 {
        self.failures.count()
    }
}

fn copy_front(from: &[u8], into: &mut [u8]) -> usize {
    let count = from.len().min(into.len());
    into[..count].copy_from_slice(&from[..count]);
    count
}
