//! What the adapter answers where a peer breaks a rule or memory is refused, at one end alone: no call of quinn's makes that so.
use bytes::Bytes;

use super::refusing::refused as refused_at;
use super::*;
use crate::transport_parameters::TransportParameters;
use crate::{frame, Side, TransportError, TransportErrorCode};

const COUNT: u32 = 128;

fn make(side: Side) -> StreamsState {
    make_with(side, [COUNT; 2], VarInt::from_u32(1 << 20))
}

// Both ends have so many streams of each kind, the unidirectional ones first, and this window.
fn make_with(side: Side, counts: [u32; 2], window: VarInt) -> StreamsState {
    let [uni, bidi] = counts.map(VarInt::from_u32);
    let of_stream = VarInt::from_u32(1 << 20).max(window.min(VarInt::from_u32(1 << 26)));
    let mut made = StreamsState::new(side, uni, bidi, 1 << 20, window, of_stream);
    let params = TransportParameters {
        initial_max_data: window,
        initial_max_stream_data_uni: of_stream,
        initial_max_stream_data_bidi_remote: of_stream,
        initial_max_streams_uni: uni,
        initial_max_streams_bidi: bidi,
        ..TransportParameters::default()
    };
    made.set_params(&params);
    made
}

fn open(end: &mut StreamsState) -> Option<StreamId> {
    Streams { state: end, conn_state: &crate::connection::State::Established }.open(Dir::Uni)
}

fn code(end: &mut StreamsState) -> Option<TransportErrorCode> {
    end.take_max_streams_dirty(Dir::Bi).err().map(|error| error.code)
}

fn packet(end: &mut StreamsState) -> Carried {
    end.write_stream_frames(&mut Vec::new(), 1_200)
}

fn take(end: &mut StreamsState, id: StreamId, offset: u64) -> Result<(), TransportError> {
    take_bytes(end, id, offset, b"x")
}

fn take_bytes(
    end: &mut StreamsState,
    id: StreamId,
    offset: u64,
    bytes: &'static [u8],
) -> Result<(), TransportError> {
    let data = Bytes::from_static(bytes);
    end.received(frame::Stream { id, offset, fin: false, data }, bytes.len()).map(drop)
}

// Of a call the first allocation is refused.
fn refused<T>(call: impl FnOnce() -> T) -> T {
    refused_at(0, call).0
}

// Every second, so that a refusal falls among packets that are done and ones that aren't.
fn one_is_refused(tell: fn(&mut StreamsState, Carried)) {
    let mut client = make(Side::Client);
    let id = open(&mut client).unwrap();
    assert_eq!(client.write(id, &[0; 100_000]), Ok(100_000));
    let packets: Vec<_> = (0..80).map(|_| packet(&mut client)).collect();
    let fault = packets.into_iter().step_by(2).find_map(|packet| {
        refused(|| tell(&mut client, packet));
        code(&mut client)
    });
    assert_eq!(fault, Some(TransportErrorCode::INTERNAL_ERROR));
}

#[test]
fn a_stop_past_the_count_closes() {
    let mut server = make(Side::Server);
    server.received_stop_sending(StreamId::new(Side::Client, Dir::Bi, 5_000), VarInt(7));
    assert_eq!(code(&mut server), Some(TransportErrorCode::STREAM_LIMIT_ERROR));
}

// How many pieces of a stopped stream an end takes, up to four times as many as it has to.
fn pieces_until_closed(server: &mut StreamsState, enough: u64) -> Option<u64> {
    let id = StreamId::new(Side::Client, Dir::Uni, 0);
    assert_eq!(take(server, id, 0), Ok(()));
    RecvStream { id, state: server, pending: &mut Retransmits::default() }.stop(VarInt(7)).unwrap();
    let fault = (1..4 * enough).find_map(|piece| Some((piece, take(server, id, piece * 2).err()?)));
    fault.map(|(piece, fault)| {
        assert_eq!(fault.code, TransportErrorCode::PROTOCOL_VIOLATION);
        piece
    })
}

#[test]
fn many_pieces_of_a_stopped_stream_close() {
    let halves = 4 * u64::from(COUNT);
    let enough = 16_384 + halves + (1 << 20) / 1_000;
    assert_eq!(pieces_until_closed(&mut make(Side::Server), enough), Some(enough));
    // Quinn's own default has no end.
    let enough = 16_384 + halves + (1 << 18);
    let mut server = make_with(Side::Server, [COUNT; 2], VarInt::MAX);
    assert_eq!(pieces_until_closed(&mut server, enough), Some(enough));
}

#[test]
fn a_bound_on_pieces_stays_where_window_and_count_fall() {
    let mut server = make(Side::Server);
    server.set_receive_window(VarInt(1));
    server.set_max_concurrent(Dir::Uni, VarInt(1));
    server.set_max_concurrent(Dir::Bi, VarInt(0));
    let enough = 16_384 + 4 * u64::from(COUNT) + (1 << 20) / 1_000;
    assert_eq!(pieces_until_closed(&mut server, enough), Some(enough));
}

#[test]
fn pieces_of_many_open_streams_do_not_close() {
    let mut server = make_with(Side::Server, [20_000, 0], VarInt::from_u32(1 << 20));
    for offset in [0, 2] {
        for index in 0..20_000 {
            let id = StreamId::new(Side::Client, Dir::Uni, index);
            assert_eq!(take(&mut server, id, offset), Ok(()), "{} of {}", offset, id);
        }
    }
}

#[test]
fn answers_that_are_not_read_do_not_close() {
    let mut client = make_with(Side::Client, [0, 20_000], VarInt::from_u32(1 << 20));
    // (the server opens none)
    client.set_max_concurrent(Dir::Bi, VarInt(0));
    let conn_state = &crate::connection::State::Established;
    for index in 0..20_000 {
        let id = Streams { state: &mut client, conn_state }.open(Dir::Bi).unwrap();
        assert_eq!(id, StreamId::new(Side::Client, Dir::Bi, index));
        let data = Bytes::from_static(b"x");
        let answer = frame::Stream { id, offset: 0, fin: true, data };
        assert!(client.received(answer, 1).is_ok(), "{}", id);
    }
}

#[test]
fn every_second_packet_of_a_wide_window_does_not_close() {
    const PACKET: u64 = 1_200;
    let mut server = make_with(Side::Server, [COUNT; 2], VarInt::from_u32(1 << 26));
    let id = StreamId::new(Side::Client, Dir::Uni, 0);
    for packet in (0..(1 << 26) / PACKET).step_by(2) {
        let taken = take_bytes(&mut server, id, packet * PACKET, &[7; PACKET as usize]);
        assert_eq!(taken, Ok(()), "packet {}", packet);
    }
}

#[test]
fn an_error_names_its_frame_and_a_reason() {
    let mut server = make(Side::Server);
    let id = StreamId::new(Side::Client, Dir::Uni, 0);
    let fault = take(&mut server, id, 1 << 20).unwrap_err();
    assert_eq!(fault.code, TransportErrorCode::FLOW_CONTROL_ERROR);
    assert!(
        fault.frame.map(|frame| frame.to_string()) == Some("STREAM".into())
            && !fault.reason.is_empty()
    );
}

// (a client's 0-RTT is refused; the play of calls has the count at a whole connection)
#[test]
fn a_fresh_end_has_what_was_set_and_takes_no_old_token() {
    let mut client = make(Side::Client);
    client.set_max_concurrent(Dir::Uni, VarInt(200));
    client.set_receive_window(VarInt(1 << 21));
    let send = |client: &mut StreamsState| {
        let id = open(client).unwrap();
        assert_eq!(client.write(id, b"hello"), Ok(5));
        packet(client)
    };
    let old = send(&mut client);
    client.zero_rtt_rejected();
    assert_eq!(
        (client.end.granted_streams(theirs(Dir::Uni)), client.end.granted()),
        (200, 1 << 21)
    );
    let limits = client.settings.limits();
    client.end.raise_limits(limits).unwrap();
    let _new = send(&mut client);
    client.received_ack_of(old);
    assert!(
        client.end.next_outstanding(0).is_some(),
        "the old packet tells nothing of the new one"
    );
}

#[test]
fn memory_that_is_refused_closes() {
    let no_memory = Some(TransportErrorCode::INTERNAL_ERROR);
    let mut client = make(Side::Client);
    assert_eq!(refused(|| open(&mut client)), None);
    assert_eq!(code(&mut client), no_memory);
    let id = open(&mut client).unwrap();
    assert_eq!(refused(|| client.write(id, b"hello")), Err(WriteError::Blocked));
    assert_eq!(code(&mut client), no_memory);
    assert_eq!((client.write(id, b"hello"), code(&mut client)), (Ok(5), None));
    one_is_refused(StreamsState::retransmit);
    one_is_refused(StreamsState::received_ack_of);
    let mut server = make(Side::Server);
    let stopped = StreamId::new(Side::Client, Dir::Bi, 0);
    refused(|| server.received_stop_sending(stopped, VarInt(7)));
    assert_eq!(code(&mut server), no_memory);
}
