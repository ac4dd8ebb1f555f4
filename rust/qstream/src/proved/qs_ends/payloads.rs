// Made from tests/units/qs_ends/src/payloads.rattle by rust/erase; not edited by hand.
//! Payloads that come to a server.
use crate::shim::HostRuntime;
use super::rows::play_rows;
use crate::shim::test::Fail;

// An offset keeps the byte that came first, and a repeat spends nothing.
#[test]
fn parts_in_any_order_are_read_in_order() -> Result<(), Fail> {
    let rt = HostRuntime::new();
    play_rows(
        rt.alloc(),
        b"server
          receive 0 0e000503666768 -> done
          receive 1 0a0003616263 -> done
          receive 2 0e00020463646566 -> done
          stored -> 8
          granted -> 4096
          spent -> 8
          read 0 16 -> bytes 6162636465666768
          receive 3 0e00020458585858 -> done
          stored -> 0
          granted -> 4096
          spent -> 8
          read 0 16 -> wait",
    )
}

#[test]
fn a_read_raises_the_streams_limit() -> Result<(), Fail> {
    let rt = HostRuntime::new();
    play_rows(
        rt.alloc(),
        b"server bidi_remote=10
          receive 0 0a000a30313233343536373839 -> done
          receiving 0 -> recv read 0 highest 10 limit 10 final none
          read 0 4 -> bytes 30313233
          receiving 0 -> recv read 4 highest 10 limit 10 final none
          read 0 1 -> bytes 34
          receiving 0 -> recv read 5 highest 10 limit 15 final none
          receive 1 0e000a056162636465 -> done
          receive 2 0e000f0161 -> closing 03 0e 0",
    )
}

#[test]
fn a_byte_past_the_streams_limit_closes() -> Result<(), Fail> {
    let rt = HostRuntime::new();
    play_rows(
        rt.alloc(),
        b"server bidi_remote=10
          receive 0 0a000b3031323334353637383961 -> closing 03 0a 0",
    )
}

#[test]
fn a_reset_past_the_streams_limit_closes() -> Result<(), Fail> {
    let rt = HostRuntime::new();
    play_rows(
        rt.alloc(),
        b"server bidi_remote=10
          receive 0 0400070b -> closing 03 04 0",
    )
}

#[test]
fn a_reset_spends_its_final_size() -> Result<(), Fail> {
    let rt = HostRuntime::new();
    play_rows(
        rt.alloc(),
        b"server bidi_remote=10
          receive 0 0400070a -> done
          stored -> 0
          granted -> 4096
          spent -> 10
          read 0 16 -> reset 7",
    )
}

#[test]
fn the_final_size_is_tested_before_the_credit() -> Result<(), Fail> {
    let rt = HostRuntime::new();
    play_rows(
        rt.alloc(),
        b"server bidi_remote=10
          receive 0 0b000161 -> done
          receive 1 0e000a0161 -> closing 06 0e 0",
    )
}

// It names the frame that brought the byte, wherever that byte is in it.
#[test]
fn a_changed_byte_closes() -> Result<(), Fail> {
    let rt = HostRuntime::new();
    play_rows(
        rt.alloc(),
        b"server
          receive 0 0a0003616263 -> done
          receive 1 0e00010158 -> closing 0a 0e 0
          close -> 1c0a0e00
          stored -> 3",
    )?;
    play_rows(
        rt.alloc(),
        b"server
          receive 0 0a0003616263 -> done
          receive 1 010b00056162586465 -> closing 0a 0b 1
          spent -> 3",
    )
}

#[test]
fn the_same_byte_may_come_again() -> Result<(), Fail> {
    let rt = HostRuntime::new();
    play_rows(
        rt.alloc(),
        b"server
          receive 0 0a0003616263 -> done
          receive 1 0e00010162 -> done
          receive 2 0e0002026364 -> done
          spent -> 4",
    )
}

// What was read or thrown away is no longer there to be compared.
#[test]
fn only_stored_bytes_are_compared() -> Result<(), Fail> {
    let rt = HostRuntime::new();
    play_rows(
        rt.alloc(),
        b"server
          receive 0 0a0003616263 -> done
          read 0 3 -> bytes 616263
          receive 1 0e00010158 -> done
          spent -> 3",
    )?;
    play_rows(
        rt.alloc(),
        b"server
          receive 0 0a0003616263 -> done
          read 0 1 -> bytes 61
          receive 1 0a00025862 -> done
          receive 2 0a00025858 -> closing 0a 0a 0",
    )?;
    play_rows(
        rt.alloc(),
        b"server
          receive 0 0a0003616263 -> done
          stop 0 7 -> ok
          receive 1 0e00010158 -> done
          stored -> 0",
    )
}

#[test]
fn the_credit_is_tested_before_the_bytes() -> Result<(), Fail> {
    let rt = HostRuntime::new();
    play_rows(
        rt.alloc(),
        b"server conn_window=3
          receive 0 0a0003616263 -> done
          receive 1 0e000103586364 -> closing 03 0e 0",
    )
}

// After it all calls say so.
#[test]
fn the_connections_limit_bounds_all_streams() -> Result<(), Fail> {
    let rt = HostRuntime::new();
    play_rows(
        rt.alloc(),
        b"server conn_window=10 bidi_remote=10
          receive 0 0a0006616263646566 -> done
          close -> none
          receive 1 0a04056768696a6b -> closing 03 0a 0
          close -> 1c030a00
          read 0 16 -> closed
          receive 2 01 -> closing 03 0a 0
          receive 0 01 -> closing 03 0a 0
          write 0 61 -> closed
          finish 0 -> closed
          reset 0 1 -> closed
          stop 0 1 -> closed
          accept -> none
          open bidi -> closed
          make 1200 -> closed
          lose 0 -> closed
          stored -> 6
          granted -> 10
          spent -> 6
          receiving 0 -> recv read 0 highest 6 limit 10 final none",
    )
}

// Up to the frame that offends all took effect; the limit rises as the call ends.
#[test]
fn no_limit_rises_between_frames() -> Result<(), Fail> {
    let rt = HostRuntime::new();
    play_rows(
        rt.alloc(),
        b"server conn_window=4
          receive 0 0a000461626364040007040a040161 -> closing 03 0a 11
          stored -> 0
          granted -> 8
          spent -> 4",
    )
}

#[test]
fn data_past_the_end_closes() -> Result<(), Fail> {
    let rt = HostRuntime::new();
    play_rows(
        rt.alloc(),
        b"server
          receive 0 0b00056162636465 -> done
          receive 1 0e00050166 -> closing 06 0e 0",
    )
}

// It holds no byte that the size forbids.
#[test]
fn an_empty_frame_past_the_end_is_let_through() -> Result<(), Fail> {
    let rt = HostRuntime::new();
    play_rows(
        rt.alloc(),
        b"server
          receive 0 0b00056162636465 -> done
          receive 1 0e000900 -> done
          receive 2 0e00440100 -> closing 03 0e 0",
    )
}

// Its end is held against the stream's limit, but it spends nothing.
#[test]
fn an_empty_frame_spends_nothing() -> Result<(), Fail> {
    let rt = HostRuntime::new();
    play_rows(
        rt.alloc(),
        b"server conn_window=4
          receive 0 0e000900 -> done
          stored -> 0
          granted -> 4
          spent -> 0
          receive 1 0e00440100 -> closing 03 0e 0",
    )
}

#[test]
fn a_reset_below_the_highest_offset_closes() -> Result<(), Fail> {
    let rt = HostRuntime::new();
    play_rows(
        rt.alloc(),
        b"server
          receive 0 0a00056162636465 -> done
          receive 1 04000004 -> closing 06 04 0",
    )
}

#[test]
fn the_final_size_outlasts_the_reading() -> Result<(), Fail> {
    let rt = HostRuntime::new();
    play_rows(
        rt.alloc(),
        b"server
          receive 0 0b00056162636465 -> done
          read 0 16 -> bytes 6162636465
          read 0 16 -> end
          receive 1 0b00056162636465 -> done
          receive 2 0b000461626364 -> closing 06 0b 0",
    )
}

#[test]
fn a_stream_of_ones_own_has_to_be_open() -> Result<(), Fail> {
    let rt = HostRuntime::new();
    play_rows(
        rt.alloc(),
        b"server
          receive 0 0a010161 -> closing 05 0a 0",
    )
}

#[test]
fn no_data_comes_on_a_stream_that_only_sends() -> Result<(), Fail> {
    let rt = HostRuntime::new();
    play_rows(
        rt.alloc(),
        b"server
          receive 0 0a030161 -> closing 05 0a 0",
    )
}

#[test]
fn streams_past_the_count_close() -> Result<(), Fail> {
    let rt = HostRuntime::new();
    play_rows(
        rt.alloc(),
        b"server grant_bidi=1
          receive 0 0a000161 -> done
          receive 1 0a040161 -> closing 04 0a 0",
    )
}

// A number opens all lower ones of its type.
#[test]
fn a_stream_opens_those_below() -> Result<(), Fail> {
    let rt = HostRuntime::new();
    play_rows(
        rt.alloc(),
        b"server
          receive 0 0a1c0161 -> done
          accept -> 0
          accept -> 4
          accept -> 8
          accept -> 12
          accept -> 16
          accept -> 20
          accept -> 24
          accept -> 28
          accept -> none
          receive 1 0a200161 -> closing 04 0a 0
          receiving 32 -> none",
    )
}

// MAX_STREAM_DATA, STOP_SENDING on streams that this end can't send on, or that it has to open itself.
#[test]
fn frames_for_senders_need_a_sender() -> Result<(), Fail> {
    let rt = HostRuntime::new();
    play_rows(
        rt.alloc(),
        b"server
          receive 0 11010a -> closing 05 11 0",
    )?;
    play_rows(
        rt.alloc(),
        b"server
          receive 0 11020a -> closing 05 11 0",
    )?;
    play_rows(
        rt.alloc(),
        b"server
          receive 0 050200 -> closing 05 05 0",
    )
}

#[test]
fn resets_need_a_receiver() -> Result<(), Fail> {
    let rt = HostRuntime::new();
    play_rows(
        rt.alloc(),
        b"server
          receive 0 04010000 -> closing 05 04 0",
    )?;
    play_rows(
        rt.alloc(),
        b"server
          receive 0 04030000 -> closing 05 04 0",
    )?;
    play_rows(
        rt.alloc(),
        b"server
          receive 0 150100 -> closing 05 15 0",
    )
}

#[test]
fn a_packet_counts_once() -> Result<(), Fail> {
    let rt = HostRuntime::new();
    play_rows(
        rt.alloc(),
        b"client
          receive 0 01 -> done
          receive 0 01 -> duplicate
          receive 0 1f -> duplicate
          receive 1 01 -> done",
    )
}

// So many ranges of numbers are told apart; the lowest goes first.
#[test]
fn the_lowest_of_many_ranges_is_dropped() -> Result<(), Fail> {
    let rt = HostRuntime::new();
    play_rows(
        rt.alloc(),
        b"server
          receive 0 01 -> done
          receive 2 01 -> done
          receive 4 01 -> done
          receive 6 01 -> done
          receive 8 01 -> done
          receive 10 01 -> done
          receive 12 01 -> done
          receive 14 01 -> done
          receive 16 01 -> done
          receive 18 01 -> done
          receive 20 01 -> done
          receive 22 01 -> done
          receive 24 01 -> done
          receive 26 01 -> done
          receive 28 01 -> done
          receive 30 01 -> done
          receive 32 01 -> done
          receive 34 01 -> done
          receive 36 01 -> done
          receive 38 01 -> done
          receive 40 01 -> done
          receive 42 01 -> done
          receive 44 01 -> done
          receive 46 01 -> done
          receive 48 01 -> done
          receive 50 01 -> done
          receive 52 01 -> done
          receive 54 01 -> done
          receive 56 01 -> done
          receive 58 01 -> done
          receive 60 01 -> done
          receive 62 01 -> done
          receive 64 01 -> done
          receive 0 01 -> below-floor
          receive 1 01 -> done
          receive 64 01 -> duplicate",
    )
}

// It takes effect, though its number is forgotten at once.
#[test]
fn a_new_lowest_range_is_dropped_at_once() -> Result<(), Fail> {
    let rt = HostRuntime::new();
    play_rows(
        rt.alloc(),
        b"server
          receive 64 01 -> done
          receive 62 01 -> done
          receive 60 01 -> done
          receive 58 01 -> done
          receive 56 01 -> done
          receive 54 01 -> done
          receive 52 01 -> done
          receive 50 01 -> done
          receive 48 01 -> done
          receive 46 01 -> done
          receive 44 01 -> done
          receive 42 01 -> done
          receive 40 01 -> done
          receive 38 01 -> done
          receive 36 01 -> done
          receive 34 01 -> done
          receive 32 01 -> done
          receive 30 01 -> done
          receive 28 01 -> done
          receive 26 01 -> done
          receive 24 01 -> done
          receive 22 01 -> done
          receive 20 01 -> done
          receive 18 01 -> done
          receive 16 01 -> done
          receive 14 01 -> done
          receive 12 01 -> done
          receive 10 01 -> done
          receive 8 01 -> done
          receive 6 01 -> done
          receive 4 01 -> done
          receive 2 01 -> done
          receive 0 0a000161 -> done
          stored -> 1
          granted -> 4096
          spent -> 1
          receive 0 01 -> below-floor
          receive 1 01 -> done",
    )
}

#[test]
fn no_number_was_used_yet() -> Result<(), Fail> {
    let rt = HostRuntime::new();
    play_rows(
        rt.alloc(),
        b"server
          receive 0 0200000000 -> closing 0a 02 0
          close -> 1c0a0200",
    )
}

// What stands before the frame that can't be read took effect.
#[test]
fn a_closing_names_the_frames_place() -> Result<(), Fail> {
    let rt = HostRuntime::new();
    play_rows(
        rt.alloc(),
        b"server
          receive 0 0a00036162631f -> closing 07 1f 6
          stored -> 3
          granted -> 4096
          spent -> 3",
    )
}

// What follows isn't looked at.
#[test]
fn the_peers_closing_ends_all() -> Result<(), Fail> {
    let rt = HostRuntime::new();
    play_rows(
        rt.alloc(),
        b"server
          receive 0 1c030a001f -> peer-closed 3
          receive 1 01 -> peer-closed 3
          receive 0 01 -> peer-closed 3
          open bidi -> closed
          accept -> none
          write 0 61 -> closed
          finish 0 -> closed
          reset 0 1 -> closed
          read 0 16 -> closed
          stop 0 1 -> closed
          make 1200 -> closed
          lose 0 -> closed
          close -> none",
    )
}

#[test]
fn an_empty_payload_closes() -> Result<(), Fail> {
    let rt = HostRuntime::new();
    play_rows(
        rt.alloc(),
        b"server
          receive 0 - -> closing 0a 00 0",
    )
}

// A stream that is stopped stores nothing, and what comes is counted.
#[test]
fn a_stopped_stream_still_counts() -> Result<(), Fail> {
    let rt = HostRuntime::new();
    play_rows(
        rt.alloc(),
        b"server
          receive 0 0a0003616263 -> done
          stop 0 7 -> ok
          stored -> 0
          granted -> 4096
          spent -> 3
          read 0 16 -> wait
          receive 1 0e00030164 -> done
          stored -> 0
          granted -> 4096
          spent -> 4",
    )
}

// All that came counts as taken, so the limit goes on rising.
#[test]
fn a_stopped_stream_takes_what_comes() -> Result<(), Fail> {
    let rt = HostRuntime::new();
    play_rows(
        rt.alloc(),
        b"server bidi_remote=10
          receive 0 0a0003616263 -> done
          stop 0 7 -> ok
          receiving 0 -> recv read 0 highest 3 limit 10 final none
          receive 1 0e0003026465 -> done
          receiving 0 -> recv read 0 highest 5 limit 15 final none",
    )
}

#[test]
fn a_reset_throws_stored_bytes_away() -> Result<(), Fail> {
    let rt = HostRuntime::new();
    play_rows(
        rt.alloc(),
        b"server
          receive 0 0a0003616263 -> done
          receive 1 04000705 -> done
          stored -> 0
          granted -> 4096
          spent -> 5
          read 0 16 -> reset 7
          receive 2 04000905 -> done
          read 0 16 -> reset 7",
    )
}

#[test]
fn an_empty_stream_ends_at_once() -> Result<(), Fail> {
    let rt = HostRuntime::new();
    play_rows(
        rt.alloc(),
        b"server
          receive 0 0b0000 -> done
          read 0 16 -> end
          receive 1 04040700 -> done
          read 4 16 -> reset 7",
    )
}

#[test]
fn an_empty_stream_is_broken_off() -> Result<(), Fail> {
    let rt = HostRuntime::new();
    play_rows(
        rt.alloc(),
        b"server
          receive 0 04000700 -> done
          receiving 0 -> reset-recvd read 0 highest 0 limit 1024 final 0
          read 0 16 -> reset 7
          receiving 0 -> reset-read read 0 highest 0 limit 1024 final 0",
    )
}

// No limit is needed once the final size is known.
#[test]
fn no_limit_rises_past_the_end() -> Result<(), Fail> {
    let rt = HostRuntime::new();
    play_rows(
        rt.alloc(),
        b"server bidi_remote=10
          receive 0 0b00086162636465666768 -> done
          read 0 16 -> bytes 6162636465666768
          read 0 16 -> end
          receiving 0 -> data-read read 8 highest 8 limit 10 final 8",
    )
}

// The limits of the peer never fall, and its frames on blocking change nothing.
#[test]
fn frames_without_effect_are_taken() -> Result<(), Fail> {
    let rt = HostRuntime::new();
    play_rows(
        rt.alloc(),
        b"server
          receive 0 10011201140116011e19000100 -> done
          open bidi -> 1
          open bidi -> 5",
    )
}

// The checks come before the opening.
#[test]
fn a_frame_that_offends_opens_nothing() -> Result<(), Fail> {
    let rt = HostRuntime::new();
    play_rows(
        rt.alloc(),
        b"server bidi_remote=10
          receive 0 0a040b3031323334353637383961 -> closing 03 0a 0
          receiving 0 -> none
          receiving 4 -> none
          stored -> 0
          granted -> 4096
          spent -> 0",
    )
}

// Each on the first stream past the eight that are granted.
#[test]
fn every_frame_of_a_stream_is_held_against_the_count() -> Result<(), Fail> {
    let rt = HostRuntime::new();
    play_rows(
        rt.alloc(),
        b"server
          receive 0 04200000 -> closing 04 04 0",
    )?;
    play_rows(
        rt.alloc(),
        b"server
          receive 0 052000 -> closing 04 05 0",
    )?;
    play_rows(
        rt.alloc(),
        b"server
          receive 0 0822 -> closing 04 08 0",
    )?;
    play_rows(
        rt.alloc(),
        b"server
          receive 0 112000 -> closing 04 11 0",
    )?;
    play_rows(
        rt.alloc(),
        b"server
          receive 0 152200 -> closing 04 15 0",
    )
}

// A reset is ignored once all bytes came.
#[test]
fn a_whole_stream_is_not_reset() -> Result<(), Fail> {
    let rt = HostRuntime::new();
    play_rows(
        rt.alloc(),
        b"server
          receive 0 0b0003616263 -> done
          receive 1 04000703 -> done
          stored -> 3
          granted -> 4096
          spent -> 3
          read 0 16 -> bytes 616263
          read 0 16 -> end",
    )
}

// Only the type that begins a frame has to be short.
#[test]
fn a_close_names_a_type_in_any_spelling() -> Result<(), Fail> {
    let rt = HostRuntime::new();
    play_rows(
        rt.alloc(),
        b"server
          receive 0 1c03400a00 -> peer-closed 3",
    )?;
    play_rows(
        rt.alloc(),
        b"server
          receive 0 4001 -> closing 0a 01 0",
    )
}
