// Made from tests/units/qs_ends/src/counts.rattle by rust/erase; not edited by hand.
//! Counts of streams that grow as the peer's streams come to their end (RFC 9000, sections 3, 4.6 and 13.3).

use crate::shim::HostRuntime;
use super::rows::play_rows;
use crate::shim::test::Fail;

#[test]
fn a_lifetime_lies_within_its_range() -> Result<(), Fail> {
    let rt = HostRuntime::new();
    play_rows(rt.alloc(), b"server lifetime_bidi=7 -> out-of-range")?;
    play_rows(rt.alloc(), b"server grant_uni=9 -> out-of-range")?;
    play_rows(rt.alloc(), b"server lifetime_uni=65537 -> out-of-range")?;
    play_rows(
        rt.alloc(),
        b"server lifetime_uni=65536
          granted_streams uni -> 8
          granted_streams bidi -> 8",
    )
}

// What was read alone ends no stream on which this end may still send.
#[test]
fn both_halves_end_a_bidirectional_stream() -> Result<(), Fail> {
    let rt = HostRuntime::new();
    play_rows(
        rt.alloc(),
        b"server grant_bidi=1 lifetime_bidi=2
          receive 0 0b000161 -> done
          read 0 16 -> bytes 61
          read 0 16 -> end
          granted_streams bidi -> 1
          finish 0 -> ok
          make 1200 -> 0 02000000000b0000
          granted_streams bidi -> 1
          receive 1 0200000000 -> done
          granted_streams bidi -> 2
          granted_streams uni -> 8
          receive 2 0a040161 -> done
          receive 3 0a080161 -> closing 04 0a 0",
    )
}

#[test]
fn a_reset_that_was_read_ends_a_stream() -> Result<(), Fail> {
    let rt = HostRuntime::new();
    play_rows(
        rt.alloc(),
        b"server grant_uni=1
          receive 0 0a020161 -> done
          receive 1 04020701 -> done
          granted_streams uni -> 1
          read 2 16 -> reset 7
          granted_streams uni -> 2",
    )
}

// A reset of this end's own half is the end of that half once it is acknowledged, even late.
#[test]
fn a_late_acknowledgement_ends_a_stream() -> Result<(), Fail> {
    let rt = HostRuntime::new();
    play_rows(
        rt.alloc(),
        b"server grant_bidi=1
          receive 0 0b0000 -> done
          read 0 16 -> end
          reset 0 7 -> ok
          make 1200 -> 0 020000000004000700
          lose 0 -> ok
          granted_streams bidi -> 1
          receive 1 0200000000 -> done
          granted_streams bidi -> 2",
    )
}

// A count is raised as the call ends, so a frame behind the acknowledgement comes too early.
#[test]
fn no_count_grows_within_a_payload() -> Result<(), Fail> {
    let rt = HostRuntime::new();
    play_rows(
        rt.alloc(),
        b"server grant_bidi=1
          receive 0 0b0000 -> done
          read 0 16 -> end
          finish 0 -> ok
          make 1200 -> 0 02000000000b0000
          receive 1 02000000000a040161 -> closing 04 0a 5",
    )
}

#[test]
fn a_lifetime_bounds_the_count() -> Result<(), Fail> {
    let rt = HostRuntime::new();
    play_rows(
        rt.alloc(),
        b"server grant_uni=1 lifetime_uni=2
          receive 0 0b0200 -> done
          read 2 16 -> end
          granted_streams uni -> 2
          receive 1 0b0600 -> done
          read 6 16 -> end
          granted_streams uni -> 2
          receive 2 0b0a00 -> closing 04 0b 0",
    )
}

#[test]
fn a_count_is_told_until_it_is_acknowledged() -> Result<(), Fail> {
    let rt = HostRuntime::new();
    play_rows(
        rt.alloc(),
        b"server grant_bidi=1 grant_uni=1
          receive 0 0b0200 -> done
          read 2 16 -> end
          make 1200 -> 0 02000000001302
          make 1200 -> none
          lose 0 -> ok
          make 1200 -> 1 1302
          receive 1 0201000000 -> done
          make 1200 -> none
          receive 2 0b0600 -> done
          read 6 16 -> end
          make 1200 -> 2 02020000021303
          receive 3 0b0000 -> done
          read 0 16 -> end
          finish 0 -> ok
          make 1200 -> 3 02030000030b0000
          receive 4 0203000000 -> done
          make 1200 -> 4 1202",
    )
}

// Both counts are told behind the connection's limit, that of bidirectional streams first.
#[test]
fn counts_are_told_behind_the_connection_limit() -> Result<(), Fail> {
    let rt = HostRuntime::new();
    play_rows(
        rt.alloc(),
        b"server conn_window=2 grant_bidi=1 grant_uni=1
          receive 0 0b0000 -> done
          read 0 16 -> end
          finish 0 -> ok
          make 1200 -> 0 02000000000b0000
          receive 1 02000000000b02026162 -> done
          read 2 16 -> bytes 6162
          read 2 16 -> end
          make 1200 -> 1 0201000001100412021302",
    )
}

#[test]
fn own_streams_count_for_nothing() -> Result<(), Fail> {
    let rt = HostRuntime::new();
    play_rows(
        rt.alloc(),
        b"server grant_bidi=1 grant_uni=1
          open bidi -> 1
          finish 1 -> ok
          open uni -> 3
          finish 3 -> ok
          make 1200 -> 0 0b01000b0300
          receive 0 02000000000b0100 -> done
          read 1 16 -> end
          granted_streams bidi -> 1
          granted_streams uni -> 1",
    )
}

// A forgotten stream ends with its last byte, with a reset, or at once; nobody reads it, and the first code stays.
#[test]
fn forgotten_streams_end_by_themselves() -> Result<(), Fail> {
    let rt = HostRuntime::new();
    play_rows(
        rt.alloc(),
        b"server grant_uni=1 lifetime_uni=4
          forget 2 7 -> no-such-stream
          receive 0 0a0203616263 -> done
          forget 2 7 -> ok
          forget 2 9 -> ok
          stored -> 0
          granted_streams uni -> 1
          read 2 16 -> wait
          receive 1 0f020300 -> done
          granted_streams uni -> 2
          read 2 16 -> end
          receive 2 0b060161 -> done
          granted_streams uni -> 2
          forget 6 7 -> ok
          granted_streams uni -> 3
          receive 3 0a0a0161 -> done
          forget 10 7 -> ok
          receive 4 0e0a0401620a0a0161 -> done
          granted_streams uni -> 3
          receive 5 040a0506 -> done
          granted_streams uni -> 4
          read 10 16 -> reset 5
          receive 6 1c000000 -> peer-closed 0
          forget 10 7 -> closed",
    )
}

#[test]
fn a_forgotten_stream_ends_with_both_halves() -> Result<(), Fail> {
    let rt = HostRuntime::new();
    play_rows(
        rt.alloc(),
        b"server grant_bidi=1 lifetime_bidi=2
          receive 0 0b000161 -> done
          forget 0 7 -> ok
          granted_streams bidi -> 1
          finish 0 -> ok
          make 1200 -> 0 02000000000b0000
          granted_streams bidi -> 1
          receive 1 0200000000 -> done
          granted_streams bidi -> 2",
    )
}
