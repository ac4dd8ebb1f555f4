// Made from tests/units/qs_ends/src/anew.rattle by rust/erase; not edited by hand.
//! Windows and grants that an owner sets anew (RFC 9000, sections 4.1, 4.2 and 4.6).

use crate::shim::HostRuntime;
use super::rows::play_rows;
use crate::shim::test::Fail;

// A greater window moves the limit at once, by less than a step too, and the next packet tells it.
#[test]
fn a_greater_window_moves_the_limit() -> Result<(), Fail> {
    let rt = HostRuntime::new();
    play_rows(
        rt.alloc(),
        b"server conn_window=10
          receive 0 0a00026162 -> done
          read 0 16 -> bytes 6162
          granted -> 10
          set-window 11 -> ok
          granted -> 13
          make 1200 -> 0 0200000000100d
          set-window 11 -> ok
          make 1200 -> none",
    )
}

// Under a smaller one the limit stands until so much was taken that it moves by a step of the smaller window.
#[test]
fn a_smaller_window_lets_the_limit_stand() -> Result<(), Fail> {
    let rt = HostRuntime::new();
    play_rows(
        rt.alloc(),
        b"server conn_window=10
          set-window 4 -> ok
          granted -> 10
          receive 0 0a000461626364 -> done
          read 0 16 -> bytes 61626364
          granted -> 10
          receive 1 0e00040465666768 -> done
          read 0 16 -> bytes 65666768
          granted -> 12",
    )
}

// A greater grant moves the count at once, beside what ended, up to the lifetime's; a smaller one takes nothing back.
#[test]
fn grants_move_counts() -> Result<(), Fail> {
    let rt = HostRuntime::new();
    play_rows(
        rt.alloc(),
        b"server grant_uni=1 lifetime_uni=5
          receive 0 0b020161 -> done
          read 2 16 -> bytes 61
          read 2 16 -> end
          granted_streams uni -> 2
          set-grant uni 3 -> ok
          granted_streams uni -> 4
          granted_streams bidi -> 8
          make 1200 -> 0 02000000001304
          set-grant uni 0 -> ok
          granted_streams uni -> 4
          receive 1 0b060161 -> done
          read 6 16 -> bytes 61
          read 6 16 -> end
          granted_streams uni -> 4
          set-grant uni 9 -> ok
          granted_streams uni -> 5",
    )
}

// A window below 1 or above 2^40, and a grant above 2^17, is refused, and so is any once the end closed.
#[test]
fn nothing_out_of_range_is_set() -> Result<(), Fail> {
    let rt = HostRuntime::new();
    play_rows(
        rt.alloc(),
        b"server conn_window=10 grant_bidi=1
          set-window 0 -> out-of-range
          set-window 1099511627777 -> out-of-range
          set-grant bidi 131073 -> out-of-range
          granted -> 10
          granted_streams bidi -> 1
          set-window 1099511627776 -> ok
          granted -> 1099511627776
          set-grant bidi 131072 -> ok
          granted_streams bidi -> 8
          receive 0 1c070000 -> peer-closed 7
          set-window 10 -> closed
          set-grant bidi 1 -> closed",
    )
}

// A greater window of a stream moves its limit at once, by less than a step too, and the next packet tells it.
#[test]
fn a_greater_window_of_a_stream_moves_its_limit() -> Result<(), Fail> {
    let rt = HostRuntime::new();
    play_rows(
        rt.alloc(),
        b"server bidi_remote=10
          receive 0 0a00026162 -> done
          read 0 16 -> bytes 6162
          set-stream-window 0 11 -> ok
          make 1200 -> 0 020000000011000d
          set-stream-window 0 11 -> ok
          make 1200 -> none",
    )
}

// Under a smaller one the limit stands until so much was taken that it moves by a step of the smaller window, and a stream that opens
// later begins with the window that the peer was told.
#[test]
fn a_smaller_window_of_a_stream_lets_its_limit_stand() -> Result<(), Fail> {
    let rt = HostRuntime::new();
    play_rows(
        rt.alloc(),
        b"server bidi_remote=10
          receive 0 0a000461626364 -> done
          set-stream-window 0 4 -> ok
          read 0 16 -> bytes 61626364
          make 1200 -> 0 0200000000
          receive 1 0e00040465666768 -> done
          read 0 16 -> bytes 65666768
          make 1200 -> 1 020100000111000c
          receive 2 0a040a61626364656667686970 -> done
          read 4 5 -> bytes 6162636465
          make 1200 -> 2 020200000211040f",
    )
}

// Once its length is known no limit moves.
#[test]
fn of_a_stream_of_known_length_the_window_changes_alone() -> Result<(), Fail> {
    let rt = HostRuntime::new();
    play_rows(
        rt.alloc(),
        b"server bidi_remote=10
          receive 0 0b00026162 -> done
          set-stream-window 0 100 -> ok
          make 1200 -> 0 0200000000",
    )
}

#[test]
fn a_window_of_a_stream_is_not_set() -> Result<(), Fail> {
    let rt = HostRuntime::new();
    play_rows(
        rt.alloc(),
        b"server
          open uni -> 3
          receive 0 0a020161 -> done
          set-stream-window 0 4 -> no-such-stream
          set-stream-window 3 4 -> wrong-direction
          set-stream-window 2 0 -> out-of-range
          set-stream-window 2 1073741825 -> out-of-range
          set-stream-window 2 1073741824 -> ok
          receive 1 1c070000 -> peer-closed 7
          set-stream-window 2 0 -> closed",
    )
}
