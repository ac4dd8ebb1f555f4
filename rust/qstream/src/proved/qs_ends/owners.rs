// Made from tests/units/qs_ends/src/owners.rattle by rust/erase; not edited by hand.
//! What an end's owner does with its streams.
use crate::shim::HostRuntime;
use super::rows::play_rows;
use crate::shim::test::Fail;

// The own settings are looked at first.
#[test]
fn ends_need_settings_in_their_ranges() -> Result<(), Fail> {
    let rt = HostRuntime::new();
    play_rows(rt.alloc(), b"client uni=0 -> out-of-range")?;
    play_rows(rt.alloc(), b"client conn_window=16777217 -> out-of-range")?;
    play_rows(
        rt.alloc(),
        b"client peer_max_data=4611686018427387904 -> out-of-range",
    )?;
    play_rows(
        rt.alloc(),
        b"client peer_streams_uni=1152921504606846977 -> too-many-streams",
    )?;
    play_rows(
        rt.alloc(),
        b"client uni=0 peer_streams_uni=1152921504606846977 -> out-of-range",
    )?;
    play_rows(
        rt.alloc(),
        b"client peer_max_data=0 peer_bidi_local=0 peer_bidi_remote=0 peer_uni=0 peer_streams_bidi=0 peer_streams_uni=0 -> made",
    )
}

#[test]
fn the_peer_grants_streams() -> Result<(), Fail> {
    let rt = HostRuntime::new();
    play_rows(
        rt.alloc(),
        b"client peer_streams_bidi=1
          open bidi -> 0
          open bidi -> blocked 1
          open uni -> 2
          open uni -> 6
          receive 0 1202 -> done
          open bidi -> 4
          open bidi -> blocked 2
          accept -> none",
    )
}

// Bidirectional ones first, whichever opened first.
#[test]
fn the_peers_streams_are_accepted_once() -> Result<(), Fail> {
    let rt = HostRuntime::new();
    play_rows(
        rt.alloc(),
        b"server
          accept -> none
          receive 0 0a020161 -> done
          receive 1 0a000162 -> done
          read 2 16 -> bytes 61
          accept -> 0
          accept -> 2
          accept -> none
          receive 2 150400 -> done
          accept -> 4
          receive 3 110805 -> done
          accept -> 8",
    )
}

#[test]
fn streams_have_a_direction() -> Result<(), Fail> {
    let rt = HostRuntime::new();
    play_rows(
        rt.alloc(),
        b"client
          write 2 61 -> no-such-stream
          read 2 16 -> no-such-stream
          open uni -> 2
          read 2 16 -> wrong-direction
          stop 2 1 -> wrong-direction
          write 2 61 -> 1
          receive 0 0a030161 -> done
          write 3 61 -> wrong-direction
          finish 3 -> wrong-direction
          reset 3 1 -> wrong-direction
          read 3 16 -> bytes 61",
    )
}

#[test]
fn a_finished_stream_takes_no_bytes() -> Result<(), Fail> {
    let rt = HostRuntime::new();
    play_rows(
        rt.alloc(),
        b"client
          open bidi -> 0
          write 0 616263 -> 3
          write 0 - -> 0
          finish 0 -> ok
          finish 0 -> finished
          write 0 64 -> finished
          sending 0 -> ready written 3 final none
          reset 0 7 -> ok
          write 0 64 -> was-reset
          finish 0 -> was-reset
          reset 0 8 -> was-reset",
    )
}

// A reset declares what was sent, which is nothing here, and not what was written.
#[test]
fn a_stop_of_the_peer_resets() -> Result<(), Fail> {
    let rt = HostRuntime::new();
    play_rows(
        rt.alloc(),
        b"client
          open bidi -> 0
          write 0 616263 -> 3
          receive 0 050007 -> done
          write 0 64 -> was-reset
          sending 0 -> reset-sent written 3 final 0",
    )
}

#[test]
fn a_buffer_takes_what_it_has_room_for() -> Result<(), Fail> {
    let rt = HostRuntime::new();
    play_rows(
        rt.alloc(),
        b"server send_buffer=4
          open uni -> 3
          write 3 616263646566 -> 4
          write 3 6566 -> 0
          sending 3 -> ready written 4 final none",
    )
}

// What is kept stays, and where it is more than the buffer no byte is accepted until it is acknowledged.
#[test]
fn a_buffer_is_set_anew() -> Result<(), Fail> {
    let rt = HostRuntime::new();
    play_rows(
        rt.alloc(),
        b"server send_buffer=4
          open uni -> 3
          write 3 616263646566 -> 4
          set-buffer 3 6 -> ok
          write 3 65666768 -> 2
          set-buffer 3 1 -> ok
          write 3 67 -> 0
          make 1200 -> 0 0a0306616263646566
          receive 0 0200000000 -> done
          write 3 6768 -> 1
          open uni -> 7
          write 7 6162636465 -> 4",
    )
}

#[test]
fn a_buffer_is_not_set() -> Result<(), Fail> {
    let rt = HostRuntime::new();
    play_rows(
        rt.alloc(),
        b"server send_buffer=4
          receive 0 0a020161 -> done
          set-buffer 0 4 -> no-such-stream
          set-buffer 2 4 -> wrong-direction
          set-buffer 2 0 -> out-of-range
          set-buffer 2 1073741825 -> out-of-range
          receive 1 1c070000 -> peer-closed 7
          set-buffer 2 0 -> closed",
    )
}

#[test]
fn a_slice_without_room_tells_whether_bytes_are_there() -> Result<(), Fail> {
    let rt = HostRuntime::new();
    play_rows(
        rt.alloc(),
        b"server
          receive 0 0a00026162 -> done
          read 0 0 -> bytes -
          read 0 2 -> bytes 6162
          read 0 0 -> wait",
    )
}

// Also where all came already; then the reader is told of the end.
#[test]
fn the_first_stop_stays() -> Result<(), Fail> {
    let rt = HostRuntime::new();
    play_rows(
        rt.alloc(),
        b"server
          receive 0 0b00026162 -> done
          stop 0 7 -> ok
          stop 0 9 -> ok
          stored -> 0
          granted -> 4096
          spent -> 2
          read 0 16 -> end
          receive 1 0a04026162 -> done
          stop 4 7 -> ok
          stop 4 9 -> ok
          read 4 16 -> wait
          receive 2 0b04026162 -> done
          read 4 16 -> end",
    )
}

// One payload opens streams and fills several of them. Where memory is refused it comes again, and then all is as if it had come once.
#[test]
fn a_payload_without_memory_comes_again() -> Result<(), Fail> {
    let rt = HostRuntime::new();
    play_rows(
        rt.alloc(),
        b"server
          receive 7 0a08036162630e08050266670a0a0278790e0a09017a0b000171 -> done
          stored -> 9
          granted -> 4096
          spent -> 18
          receive 7 0a08036162630e08050266670a0a0278790e0a09017a0b000171 -> duplicate
          accept -> 0
          accept -> 4
          accept -> 8
          accept -> 2
          accept -> 6
          accept -> 10
          accept -> none
          read 8 16 -> bytes 616263
          read 10 16 -> bytes 7879
          read 0 16 -> bytes 71
          read 0 16 -> end
          receive 8 0e0803026465 -> done
          read 8 16 -> bytes 64656667
          receive 9 0b00027172 -> closing 06 0b 0",
    )
}
