// Made from crates/qs_chunks/src/replay.rt by rust/erase; not edited by hand.
//! Steps are played on an assembly, of whichever kind, and each shows what the definition gives.
use crate::shim::{Vec, vec};

use crate::proved::qs_ranges::NoMemory;
use crate::proved::qs_recv::Assembly;
use crate::shim::alloc::Global;

#[derive(Debug, PartialEq, Eq)]
pub enum Step {
    Put { offset: u64, bytes: Vec<u8> },
    Take { size: usize },
    Discard,
}

#[derive(Debug, PartialEq, Eq)]
pub enum Shown {
    Stored,
    Skipped,
    Taken(Vec<u8>),
    Discarded,
}

/// Plays steps, in order, on a new assembly, and answers it with what each step showed. Until a discard, bytes that end past those that
/// were read and the window are skipped.
///
/// The window counts bytes. The only error is NoMemory, where memory was refused. Otherwise what is shown depends on the window and the steps
/// alone: two kinds of assembly show the same (RFC 9000, sections 2.2 and 4.1).
pub fn replay<A: Assembly>(
    alloc: Global,
    window: u64,
    steps: &[Step],
) -> Result<(A, Vec<Shown>), NoMemory> {
    debug_assert!(1 <= window);
    debug_assert!(window <= 1 << 30);
    let mut player: Player<A> = Player::new(alloc, window);
    let mut shown = Vec::with_capacity(alloc, steps.len())?;
    for step in steps {
        let one = player.step_once(step)?;
        shown.push(one)?;
    }
    Ok((player.into_assembly(), shown))
}

// An assembly beside what it doesn't tell: how many bytes were read, how far past them the next ones may lie, and whether bytes are thrown
// away.
struct Player<A: Assembly> {
    alloc: Global,
    assembly: A,
    window: u64,
    read_count: u64,
    discarding: bool,
}

impl<A: Assembly> Player<A> {
    fn new(alloc: Global, window: u64) -> Self {
        debug_assert!(1 <= window);
        debug_assert!(window <= 1 << 30);
        Player {
            alloc,
            assembly: A::new(alloc, window),
            window,
            read_count: 0,
            discarding: false,
        }
    }

    // One step, and what it shows. NoMemory leaves all as it was.
    fn step_once(&mut self, step: &Step) -> Result<Shown, NoMemory> {
        match step {
            Step::Put { offset, bytes } => {
                if self.is_past(*offset, bytes.len() as u64) {
                    return Ok(Shown::Skipped);
                }
                self.put(*offset, bytes)?;
                Ok(Shown::Stored)
            }
            Step::Take { size } => Ok(Shown::Taken(self.take(*size)?)),
            Step::Discard => {
                self.discard();
                Ok(Shown::Discarded)
            }
        }
    }

    fn is_past(&self, offset: u64, len: u64) -> bool {
        !self.discarding && offset + len > self.read_count + self.window
    }

    fn put(&mut self, offset: u64, bytes: &[u8]) -> Result<(), NoMemory> {
        self.assembly.put(offset, bytes)
    }

    // The bytes that are next, at most so many. Memory is taken for no more than are stored.
    fn take(&mut self, size: usize) -> Result<Vec<u8>, NoMemory> {
        let room = size.min(self.assembly.stored() as usize);
        let mut bytes = vec![in self.alloc; 0; room]?;
        let count = self.assembly.take(&mut bytes);
        self.read_count += count as u64;
        bytes.truncate(count);
        Ok(bytes)
    }

    fn discard(&mut self) {
        self.assembly.discard();
        self.discarding = true;
    }

    fn into_assembly(self) -> A {
        self.assembly
    }
}
