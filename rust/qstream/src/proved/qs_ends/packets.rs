// Made from tests/units/qs_ends/src/packets.rattle by rust/erase; not edited by hand.
//! Packets that an end makes.
use crate::shim::HostRuntime;
use super::rows::play_rows;
use crate::shim::test::Fail;

// While a packet that told the present value is outstanding, it isn't told again.
#[test]
fn a_raised_limit_is_told_until_it_is_acknowledged() -> Result<(), Fail> {
    let rt = HostRuntime::new();
    play_rows(
        rt.alloc(),
        b"server bidi_remote=10
          receive 0 0a000a30313233343536373839 -> done
          read 0 5 -> bytes 3031323334
          receiving 0 -> recv read 5 highest 10 limit 15 final none
          make 1200 -> 0 020000000011000f
          make 1200 -> none
          read 0 5 -> bytes 3536373839
          receiving 0 -> recv read 10 highest 10 limit 20 final none
          make 1200 -> 1 110014
          lose 0 -> ok
          make 1200 -> none
          lose 1 -> ok
          make 1200 -> 2 110014
          receive 1 0202000000 -> done
          make 1200 -> none
          lose 2 -> not-outstanding",
    )
}

#[test]
fn the_connections_limit_is_told() -> Result<(), Fail> {
    let rt = HostRuntime::new();
    play_rows(
        rt.alloc(),
        b"server conn_window=8
          receive 0 0a000461626364 -> done
          read 0 4 -> bytes 61626364
          stored -> 0
          granted -> 12
          spent -> 4
          make 1200 -> 0 0200000000100c",
    )
}

// Once the peer raised its count, the item isn't due any more, lost or not.
#[test]
fn an_end_tells_that_it_wants_streams() -> Result<(), Fail> {
    let rt = HostRuntime::new();
    play_rows(
        rt.alloc(),
        b"client peer_streams_bidi=1
          open bidi -> 0
          open bidi -> blocked 1
          make 1200 -> 0 1601
          make 1200 -> none
          receive 0 1202 -> done
          make 1200 -> 1 0200000000
          lose 1 -> not-outstanding
          lose 0 -> ok
          make 1200 -> none
          open bidi -> 4",
    )
}

// Sent, lost, sent again, covered by its acknowledgement though `open` is blocked once more.
#[test]
fn a_lost_want_of_streams_is_told_again() -> Result<(), Fail> {
    let rt = HostRuntime::new();
    play_rows(
        rt.alloc(),
        b"client peer_streams_uni=0
          open uni -> blocked 0
          make 1200 -> 0 1700
          lose 0 -> ok
          make 1200 -> 1 1700
          receive 0 0201000000 -> done
          open uni -> blocked 0
          make 1200 -> none",
    )
}

#[test]
fn bytes_wait_for_the_connections_credit() -> Result<(), Fail> {
    let rt = HostRuntime::new();
    play_rows(
        rt.alloc(),
        b"client peer_max_data=4
          open bidi -> 0
          write 0 616263646566 -> 6
          make 1200 -> 0 0a000461626364
          make 1200 -> 1 1404
          make 1200 -> none
          receive 0 1008 -> done
          make 1200 -> 2 02000000000e0004026566",
    )
}

// A byte that is lost needs no new credit.
#[test]
fn lost_bytes_spend_no_credit_again() -> Result<(), Fail> {
    let rt = HostRuntime::new();
    play_rows(
        rt.alloc(),
        b"client peer_max_data=4
          open bidi -> 0
          write 0 616263646566 -> 6
          make 1200 -> 0 0a000461626364
          make 1200 -> 1 1404
          lose 1 -> ok
          lose 0 -> ok
          make 1200 -> 2 14040a000461626364
          make 1200 -> none",
    )
}

// An ACK that comes for a lost packet counts, so the loss of the packet that repeated it makes nothing due.
#[test]
fn a_late_ack_leaves_nothing_due() -> Result<(), Fail> {
    let rt = HostRuntime::new();
    play_rows(
        rt.alloc(),
        b"client
          open bidi -> 0
          write 0 616263 -> 3
          make 1200 -> 0 0a0003616263
          lose 0 -> ok
          lose 0 -> not-outstanding
          make 1200 -> 1 0a0003616263
          receive 0 0200000000 -> done
          lose 1 -> ok
          make 1200 -> none
          finish 0 -> ok
          make 1200 -> 2 0f000300",
    )
}

#[test]
fn a_reset_is_sent_until_it_is_acknowledged() -> Result<(), Fail> {
    let rt = HostRuntime::new();
    play_rows(
        rt.alloc(),
        b"client
          open bidi -> 0
          write 0 616263 -> 3
          make 1200 -> 0 0a0003616263
          receive 0 050007 -> done
          make 1200 -> 1 020000000004000703
          lose 1 -> ok
          make 1200 -> 2 04000703
          write 0 64 -> was-reset
          sending 0 -> reset-sent written 3 final 3
          receive 1 0202000000 -> done
          sending 0 -> reset-recvd written 3 final 3",
    )
}

// The reset tells what was sent, and not what was written.
#[test]
fn a_reset_tells_the_sent_end() -> Result<(), Fail> {
    let rt = HostRuntime::new();
    play_rows(
        rt.alloc(),
        b"client peer_max_data=4
          open bidi -> 0
          write 0 616263646566 -> 6
          make 1200 -> 0 0a000461626364
          reset 0 9 -> ok
          make 1200 -> 1 04000904
          make 1200 -> none",
    )
}

#[test]
fn an_ack_of_a_number_not_used_closes() -> Result<(), Fail> {
    let rt = HostRuntime::new();
    play_rows(
        rt.alloc(),
        b"client
          open bidi -> 0
          write 0 61 -> 1
          make 1200 -> 0 0a000161
          write 0 62 -> 1
          make 1200 -> 1 0e00010162
          write 0 63 -> 1
          make 1200 -> 2 0e00020163
          write 0 64 -> 1
          make 1200 -> 3 0e00030164
          receive 0 0209000000 -> closing 0a 02 0
          close -> 1c0a0200
          make 1200 -> closed
          lose 0 -> closed",
    )
}

#[test]
fn empty_streams_are_told() -> Result<(), Fail> {
    let rt = HostRuntime::new();
    play_rows(
        rt.alloc(),
        b"client
          open bidi -> 0
          finish 0 -> ok
          make 1200 -> 0 0b0000
          make 1200 -> none
          open bidi -> 4
          reset 4 7 -> ok
          make 1200 -> 1 04040700
          make 1200 -> none
          receive 0 0201000001 -> done
          sending 0 -> data-recvd written 0 final 0
          sending 4 -> reset-recvd written 0 final 0",
    )
}

#[test]
fn an_empty_stream_is_reset() -> Result<(), Fail> {
    let rt = HostRuntime::new();
    play_rows(
        rt.alloc(),
        b"client
          open bidi -> 0
          reset 0 7 -> ok
          make 1200 -> 0 04000700
          sending 0 -> reset-sent written 0 final 0",
    )
}

#[test]
fn bytes_wait_for_the_streams_credit() -> Result<(), Fail> {
    let rt = HostRuntime::new();
    play_rows(
        rt.alloc(),
        b"client peer_bidi_remote=10
          open bidi -> 0
          write 0 303132333435363738396162636465 -> 15
          make 1200 -> 0 0a000a30313233343536373839
          make 1200 -> 1 15000a
          make 1200 -> none
          receive 0 11000f -> done
          make 1200 -> 2 02000000000e000a056162636465",
    )
}

// A stream that stands at its own limit is no reason to tell that the connection's credit is used up.
#[test]
fn the_streams_own_limit_is_told_alone() -> Result<(), Fail> {
    let rt = HostRuntime::new();
    play_rows(
        rt.alloc(),
        b"client peer_max_data=4 peer_bidi_remote=4
          open bidi -> 0
          write 0 616263646566 -> 6
          make 1200 -> 0 0a000461626364
          make 1200 -> 1 150004
          make 1200 -> none",
    )
}

#[test]
fn a_packet_is_filled() -> Result<(), Fail> {
    let rt = HostRuntime::new();
    play_rows(
        rt.alloc(),
        b"client
          open bidi -> 0
          write 0 6161616161616161616161616161616161616161616161616161616161616161616161616161616161616161616161616161616161616161616161616161616161616161616161616161616161616161616161616161616161616161616161616161616161616161616161616161616161616161616161616161616161616161616161616161616161616161616161616161616161616161616161616161616161616161616161616161616161616161616161616161616161616161616161616161616161616161 -> 200
          make 128 -> 0 0a00407c61616161616161616161616161616161616161616161616161616161616161616161616161616161616161616161616161616161616161616161616161616161616161616161616161616161616161616161616161616161616161616161616161616161616161616161616161616161616161616161616161616161
          make 128 -> 1 0e00407c404c61616161616161616161616161616161616161616161616161616161616161616161616161616161616161616161616161616161616161616161616161616161616161616161616161616161
          make 128 -> none",
    )
}

// Not once all came, and not after a reset.
#[test]
fn a_stop_is_told_while_more_may_come() -> Result<(), Fail> {
    let rt = HostRuntime::new();
    play_rows(
        rt.alloc(),
        b"server
          receive 0 0a0003616263 -> done
          stop 0 7 -> ok
          stored -> 0
          read 0 16 -> wait
          make 1200 -> 0 0200000000050007
          receive 1 0e00030164 -> done
          stored -> 0
          granted -> 4096
          spent -> 4
          lose 0 -> ok
          receive 2 0f00040165 -> done
          make 1200 -> 1 0202000002
          make 1200 -> none",
    )
}

// No limit is told once the final size is known.
#[test]
fn no_limit_is_told_past_the_end() -> Result<(), Fail> {
    let rt = HostRuntime::new();
    play_rows(
        rt.alloc(),
        b"server bidi_remote=10
          receive 0 0a00083031323334353637 -> done
          read 0 5 -> bytes 3031323334
          receive 1 0f00080138 -> done
          make 1200 -> 0 0201000001
          make 1200 -> none",
    )
}

// Ends, and what is told of several streams, in the order of their numbers, kind by kind.
#[test]
fn a_packet_holds_all_that_is_due() -> Result<(), Fail> {
    let rt = HostRuntime::new();
    play_rows(
        rt.alloc(),
        b"client
          open uni -> 2
          open bidi -> 0
          open bidi -> 4
          write 2 78 -> 1
          write 0 6162 -> 2
          finish 0 -> ok
          reset 4 1 -> ok
          receive 5 01 -> done
          make 1200 -> 0 0205000000040401000b000261620a020178
          make 1200 -> none
          receive 6 0200000000 -> done
          make 1200 -> none
          sending 0 -> data-recvd written 2 final 2
          receive 6 01 -> duplicate",
    )
}

// Of the parts of a lost packet, those acknowledged by a later one aren't sent again.
#[test]
fn a_part_that_was_lost_goes_out_again() -> Result<(), Fail> {
    let rt = HostRuntime::new();
    play_rows(
        rt.alloc(),
        b"client
          open bidi -> 0
          write 0 616263 -> 3
          make 1200 -> 0 0a0003616263
          write 0 646566 -> 3
          make 1200 -> 1 0e000303646566
          receive 0 0201000000 -> done
          make 1200 -> none
          lose 0 -> ok
          make 1200 -> 2 0a0003616263
          lose 0 -> not-outstanding",
    )
}

// Each range but the first takes nine bytes, so 13 of the 32 go into 120 bytes, and filling goes on in the eight that are left. The
// 33rd range drops the lowest.
#[test]
fn an_ack_names_the_highest_ranges_that_fit() -> Result<(), Fail> {
    let rt = HostRuntime::new();
    play_rows(
        rt.alloc(),
        b"server
          receive 0 0a000161 -> done
          receive 2000000000 01 -> done
          receive 4000000000 01 -> done
          receive 6000000000 01 -> done
          receive 8000000000 01 -> done
          receive 10000000000 01 -> done
          receive 12000000000 01 -> done
          receive 14000000000 01 -> done
          receive 16000000000 01 -> done
          receive 18000000000 01 -> done
          receive 20000000000 01 -> done
          receive 22000000000 01 -> done
          receive 24000000000 01 -> done
          receive 26000000000 01 -> done
          receive 28000000000 01 -> done
          receive 30000000000 01 -> done
          receive 32000000000 01 -> done
          receive 34000000000 01 -> done
          receive 36000000000 01 -> done
          receive 38000000000 01 -> done
          receive 40000000000 01 -> done
          receive 42000000000 01 -> done
          receive 44000000000 01 -> done
          receive 46000000000 01 -> done
          receive 48000000000 01 -> done
          receive 50000000000 01 -> done
          receive 52000000000 01 -> done
          receive 54000000000 01 -> done
          receive 56000000000 01 -> done
          receive 58000000000 01 -> done
          receive 60000000000 01 -> done
          receive 62000000000 01 -> done
          stop 0 7 -> ok
          open bidi -> 1
          write 1 616263646566 -> 6
          make 128 -> 0 02c000000e6f7cec00000c00c0000000773593fe00c0000000773593fe00c0000000773593fe00c0000000773593fe00c0000000773593fe00c0000000773593fe00c0000000773593fe00c0000000773593fe00c0000000773593fe00c0000000773593fe00c0000000773593fe00c0000000773593fe000500070a01026162
          make 128 -> 1 0e01020463646566
          make 128 -> none
          receive 64000000000 01 -> done
          make 1200 -> 2 02c000000ee6b28000001f00c0000000773593fe00c0000000773593fe00c0000000773593fe00c0000000773593fe00c0000000773593fe00c0000000773593fe00c0000000773593fe00c0000000773593fe00c0000000773593fe00c0000000773593fe00c0000000773593fe00c0000000773593fe00c0000000773593fe00c0000000773593fe00c0000000773593fe00c0000000773593fe00c0000000773593fe00c0000000773593fe00c0000000773593fe00c0000000773593fe00c0000000773593fe00c0000000773593fe00c0000000773593fe00c0000000773593fe00c0000000773593fe00c0000000773593fe00c0000000773593fe00c0000000773593fe00c0000000773593fe00c0000000773593fe00c0000000773593fe00
          make 1200 -> none",
    )
}

// DATA_BLOCKED: sent, lost, sent again, covered while it is outstanding and once it is acknowledged, and told anew at the next limit.
#[test]
fn the_connections_credit_is_used_up_and_raised() -> Result<(), Fail> {
    let rt = HostRuntime::new();
    play_rows(
        rt.alloc(),
        b"client peer_max_data=4
          open bidi -> 0
          write 0 6162636465666768696a -> 10
          make 1200 -> 0 0a000461626364
          make 1200 -> 1 1404
          make 1200 -> none
          lose 1 -> ok
          make 1200 -> 2 1404
          make 1200 -> none
          receive 0 0202000000 -> done
          make 1200 -> none
          receive 1 1008 -> done
          make 1200 -> 3 02010000010e00040465666768
          make 1200 -> 4 1408
          make 1200 -> none
          lose 4 -> ok
          make 1200 -> 5 1408
          receive 2 100a -> done
          make 1200 -> 6 02020000020e000802696a
          make 1200 -> none
          lose 5 -> ok
          make 1200 -> none",
    )
}

// The same of STREAM_DATA_BLOCKED.
#[test]
fn a_streams_credit_is_used_up_and_raised() -> Result<(), Fail> {
    let rt = HostRuntime::new();
    play_rows(
        rt.alloc(),
        b"client peer_bidi_remote=4
          open bidi -> 0
          write 0 6162636465666768696a -> 10
          make 1200 -> 0 0a000461626364
          make 1200 -> 1 150004
          make 1200 -> none
          lose 1 -> ok
          make 1200 -> 2 150004
          make 1200 -> none
          receive 0 0202000000 -> done
          make 1200 -> none
          receive 1 110008 -> done
          make 1200 -> 3 02010000010e00040465666768
          make 1200 -> 4 150008
          make 1200 -> none
          lose 4 -> ok
          make 1200 -> 5 150008
          receive 2 11000a -> done
          make 1200 -> 6 02020000020e000802696a
          make 1200 -> none
          lose 5 -> ok
          make 1200 -> none",
    )
}

// STREAMS_BLOCKED of both directions, likewise.
#[test]
fn counts_of_streams_are_used_up_and_raised() -> Result<(), Fail> {
    let rt = HostRuntime::new();
    play_rows(
        rt.alloc(),
        b"client peer_streams_bidi=1 peer_streams_uni=1
          open bidi -> 0
          open bidi -> blocked 1
          open uni -> 2
          open uni -> blocked 1
          make 1200 -> 0 16011701
          make 1200 -> none
          lose 0 -> ok
          make 1200 -> 1 16011701
          make 1200 -> none
          receive 0 0201000000 -> done
          open bidi -> blocked 1
          open uni -> blocked 1
          make 1200 -> none
          receive 1 12021302 -> done
          make 1200 -> 2 0201000001
          open bidi -> 4
          open uni -> 6
          make 1200 -> none
          open bidi -> blocked 2
          make 1200 -> 3 1602
          open uni -> blocked 2
          make 1200 -> 4 1702
          lose 3 -> ok
          lose 4 -> ok
          make 1200 -> 5 16021702
          make 1200 -> none
          receive 2 1203 -> done
          lose 5 -> ok
          make 1200 -> 6 02020000021702
          make 1200 -> none",
    )
}

// What was sent at a limit that rose since is not told again, lost or not; its bytes are.
#[test]
fn all_that_blocks_goes_into_one_packet() -> Result<(), Fail> {
    let rt = HostRuntime::new();
    play_rows(
        rt.alloc(),
        b"client peer_max_data=4 peer_bidi_remote=2 peer_streams_bidi=1 peer_streams_uni=1
          open bidi -> 0
          open uni -> 2
          write 0 616263 -> 3
          write 2 64656667 -> 4
          open bidi -> blocked 1
          open uni -> blocked 1
          make 1200 -> 0 160117010a000261620a02026465
          make 1200 -> 1 1404150002
          make 1200 -> none
          lose 0 -> ok
          lose 1 -> ok
          make 1200 -> 2 1404150002160117010a000261620a02026465
          make 1200 -> none
          receive 0 100811000312021302 -> done
          make 1200 -> 3 02000000000e000201630e0202026667
          lose 2 -> ok
          make 1200 -> 4 0a000261620a02026465
          make 1200 -> none",
    )
}

#[test]
fn bytes_go_in_by_turns() -> Result<(), Fail> {
    let rt = HostRuntime::new();
    play_rows(
        rt.alloc(),
        b"client
          open bidi -> 0
          open bidi -> 4
          write 0 616263 -> 3
          write 4 646566 -> 3
          make-from 1200 4 0 -> 0 0a04036465660a0003616263
          lose 0 -> ok
          make 1200 -> 1 0a00036162630a0403646566
          lose 1 -> ok
          make-from 1200 5 0 -> 2 0a00036162630a0403646566",
    )
}

#[test]
fn an_ack_tells_the_delay_that_is_given() -> Result<(), Fail> {
    let rt = HostRuntime::new();
    play_rows(
        rt.alloc(),
        b"server
          receive 0 0a000461626364 -> done
          make-from 1200 0 7 -> 0 0200070000
          receive 1 01 -> done
          make-from 1200 0 4611686018427387903 -> 1 0201ffffffffffffffff0001",
    )
}
