//! Replays the prober's test vectors at `StreamsState`, without a network: those that it decides by itself. What `Connection` decides, as
//! layouts and STOP_SENDING, is left out and named, and so is what wants an application that reads.

use super::{Streams, StreamsState};
use crate::frame::{Frame, Iter};
use crate::transport_parameters::TransportParameters;
use crate::{connection::State, Dir, Side, VarInt};
use bytes::Bytes;
use std::collections::BTreeMap;

/// How the cases begin and end that quinn-proto 0.9.2 answers otherwise than RFC 9000 asks for.
const DIFFERS: [(&str, &str); 6] = [
    // A FIN is compared with a known final size alone (section 4.5, SHOULD).
    ("stream-fin/", "/highest-1"),
    // What comes behind a reset is dropped without a look at it (section 4.5, SHOULD).
    ("stream-byte/peers-bidi/reset/", "+1"),
    ("stream-fin/peers-bidi/reset/", "1"),
    ("stream-fin/peers-bidi/reset/", "/greatest"),
    // MAX_STREAM_DATA isn't held against the count of streams (section 4.6).
    ("max-stream-data/peers-bidi/", "/past/zero"),
    // What a reset gives back counts at once, before it is advertised (section 4.1).
    ("credit/past-by-resets", ""),
];

// (it writes nothing, so that of its peer's limits the counts alone matter)
fn endpoint(side: Side) -> StreamsState {
    let number = VarInt::from_u32;
    let (count, window, own) = (number(16), number(8192), number(20_000));
    let mut state = StreamsState::new(side, count, count, 1 << 20, own, window);
    let mut peer = TransportParameters::default();
    peer.initial_max_streams_bidi = number(100);
    peer.initial_max_streams_uni = number(100);
    state.set_params(&peer);
    for dir in [Dir::Bi, Dir::Uni] {
        Streams { state: &mut state, conn_state: &State::Established }.open(dir).unwrap();
    }
    state
}

/// What came of a payload: `on`, or a code; or what another part of quinn-proto decides.
fn came(state: &mut StreamsState, payload: Vec<u8>) -> Result<String, String> {
    if payload.is_empty() {
        return Err("an empty payload".to_owned());
    }
    for frame in Iter::new(Bytes::from(payload)) {
        let taken = match frame {
            Frame::Stream(frame) => {
                let len = frame.data.len();
                state.received(frame, len).map(|_| ())
            }
            Frame::ResetStream(frame) => state.received_reset(frame).map(|_| ()),
            Frame::MaxData(maximum) => Ok(state.received_max_data(maximum)),
            Frame::MaxStreamData { id, offset } => state.received_max_stream_data(id, offset),
            Frame::MaxStreams { dir, count } => state.received_max_streams(dir, count),
            Frame::Padding | Frame::Ping => Ok(()),
            Frame::Invalid { .. } => return Err("a layout".to_owned()),
            other => return Err(other.ty().to_string()),
        };
        if let Err(error) = taken {
            return Ok(u64::from(error.code).to_string());
        }
    }
    Ok("on".to_owned())
}

/// Whether all payloads of a line came to what is permitted.
fn replay(cells: &[&str]) -> Result<bool, String> {
    if cells[3] == "1" {
        return Err("an application that reads".to_owned());
    }
    let mut state = endpoint(if cells[0] == "server" { Side::Server } else { Side::Client });
    for cell in &cells[4..] {
        let parts: Vec<&str> = cell.split(':').collect();
        let digits = parts[1].as_bytes().chunks(2).map(|pair| std::str::from_utf8(pair).unwrap());
        let payload = digits.map(|pair| u8::from_str_radix(pair, 16).unwrap()).collect();
        let came = came(&mut state, payload)?;
        if !parts[2].split(',').any(|word| word == came) {
            return Ok(false);
        }
    }
    Ok(true)
}

#[test]
fn streams_do_what_the_vectors_permit() {
    let (mut decided, mut left) = (0, BTreeMap::<String, Vec<&str>>::new());
    for line in include_str!("../../../vectors.tsv").lines() {
        let cells: Vec<&str> = line.split('\t').collect();
        let fits = |(from, to): &(&str, &str)| cells[1].starts_with(from) && cells[1].ends_with(to);
        match replay(&cells) {
            Ok(permitted) => {
                assert_eq!(permitted, !DIFFERS.iter().any(fits), "{} {}", cells[0], cells[1]);
                decided += 1;
            }
            Err(by) => left.entry(by).or_default().push(cells[1]),
        }
    }
    println!("vectors: {decided} decided; left out, by what decides: {left:?}");
    assert!(decided > 500, "{decided}");
}
