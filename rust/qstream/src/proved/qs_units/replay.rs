// Made from tests/units/qs_units/src/replay.rattle by rust/erase; not edited by hand.
//! Steps that are played on an assembly of each kind. A test is a list of steps with what they show.
use crate::shim::{HostRuntime, Vec, assert_eq};

use crate::proved::qs_chunks::ChunkAssembly;
use crate::proved::qs_chunks::laws::{Shown, Step, replay};
use crate::proved::qs_ranges::NoMemory;
use crate::proved::qs_recv::{Assembly, RingAssembly};
use crate::shim::alloc::Global;
use crate::shim::test::Fail;

/// A step, and what it shows.
#[derive(Clone, Copy)]
enum Row<'a> {
    /// An offset, and bytes that are stored there.
    Stores(u32, &'a [u8]),
    /// The same of bytes that are skipped.
    Skips(u32, &'a [u8]),
    /// How many bytes are asked for, and those that come.
    Takes(usize, &'a [u8]),
    Discards,
}

fn step_of(alloc: Global, row: Row) -> Result<Step, NoMemory> {
    match row {
        Row::Stores(offset, bytes) => put_of(alloc, offset, bytes),
        Row::Skips(offset, bytes) => put_of(alloc, offset, bytes),
        Row::Takes(size, _) => Ok(Step::Take { size }),
        Row::Discards => Ok(Step::Discard),
    }
}

// No test puts more bytes than 64.
fn put_of(alloc: Global, offset: u32, bytes: &[u8]) -> Result<Step, NoMemory> {
    if bytes.len() > 64 {
        return Err(NoMemory);
    }
    let bytes = Vec::from_slice(alloc, bytes)?;
    Ok(Step::Put {
        offset: u64::from(offset),
        bytes,
    })
}

fn steps_of(alloc: Global, rows: &[Row]) -> Result<Vec<Step>, NoMemory> {
    let mut steps = Vec::with_capacity(alloc, rows.len())?;
    for row in rows {
        let step = step_of(alloc, *row)?;
        steps.push(step)?;
    }
    Ok(steps)
}

fn is_as_told(row: Row, shown: &Shown) -> bool {
    match (row, shown) {
        (Row::Stores(_, _), Shown::Stored) => true,
        (Row::Skips(_, _), Shown::Skipped) => true,
        (Row::Takes(_, bytes), Shown::Taken(taken)) => taken.as_slice() == bytes,
        (Row::Discards, Shown::Discarded) => true,
        _ => false,
    }
}

// How many steps on a new assembly with a window of 8 bytes show what they say, up to the first that doesn't.
fn played_on<A: Assembly>(alloc: Global, rows: &[Row]) -> Result<(A, usize), NoMemory> {
    let steps = steps_of(alloc, rows)?;
    let (assembly, shown): (A, Vec<Shown>) = replay(alloc, 8, &steps)?;
    let count = rows
        .iter()
        .zip(shown.iter())
        .take_while(|(row, shown)| is_as_told(**row, shown))
        .count();
    Ok((assembly, count))
}

// The same over each kind of assembly: the fewest of them.
fn played(alloc: Global, rows: &[Row]) -> Result<usize, NoMemory> {
    let (_, on_chunks): (ChunkAssembly, usize) = played_on(alloc, rows)?;
    let (_, on_ring): (RingAssembly, usize) = played_on(alloc, rows)?;
    Ok(on_chunks.min(on_ring))
}

#[test]
fn steps_show_what_is_next() -> Result<(), Fail> {
    let rt = HostRuntime::new();
    let rows = [
        Row::Stores(0, b"abcdefgh"),
        Row::Takes(5, b"abcde"),
        Row::Stores(9, b"jkl"),
        Row::Takes(16, b"fgh"),
        Row::Stores(7, b"XXXXX"),
        Row::Takes(16, b"Xjkl"),
        Row::Skips(12, b"123456789"),
    ];
    assert_eq!(rt; played(rt.alloc(), &rows)?, rows.len());
    Ok(())
}

#[test]
fn bytes_past_the_window_are_skipped() -> Result<(), Fail> {
    let rt = HostRuntime::new();
    let rows = [
        Row::Skips(0, b"abcdefghi"),
        Row::Stores(0, b"abcdefgh"),
        Row::Takes(4, b"abcd"),
        Row::Skips(12, b"m"),
        Row::Stores(11, b"l"),
        Row::Takes(1 << 63, b"efgh"),
        Row::Stores(8, b"ijkX"),
        Row::Takes(8, b"ijkl"),
    ];
    assert_eq!(rt; played(rt.alloc(), &rows)?, rows.len());
    Ok(())
}

#[test]
fn after_a_discard_there_is_no_window() -> Result<(), Fail> {
    let rt = HostRuntime::new();
    let rows = [
        Row::Stores(0, b"ab"),
        Row::Takes(1, b"a"),
        Row::Skips(1, b"123456789"),
        Row::Discards,
        Row::Stores(1_000_000, b"far"),
        Row::Takes(3, b""),
    ];
    assert_eq!(rt; played(rt.alloc(), &rows)?, rows.len());
    Ok(())
}
