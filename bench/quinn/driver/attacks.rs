// The same attacks on quinn-proto's stream layer: `attacks` lists them, `attacks NAME SIZE` plays one. The peer's side is in files that
// `build` copies here from bench/src.
use std::hint::black_box;
use std::process::ExitCode;

use bytes::Bytes;

use super::super::streams::{RecvStream, SendStream, StreamEvent, Streams, StreamsState};
use super::ends::End;
use super::time;
use crate::transport_parameters::TransportParameters;
use crate::{Dir, Side, StreamId, VarInt};

mod counting;
mod crowds;
mod faults;
mod packets;
mod play;
mod streams;
mod table;

pub use counting::{counted_late, gotsavena_counted, look_from_here};
use faults::minor_faults;
use play::{Attack, Setup, Target};

struct Theirs(End);

impl Theirs {
    fn streams(&mut self) -> Streams<'_> {
        Streams {
            state: &mut self.0.streams,
            conn_state: &self.0.state,
        }
    }

    fn sending(&mut self, id: StreamId) -> SendStream<'_> {
        SendStream {
            id,
            state: &mut self.0.streams,
            pending: &mut self.0.pending,
            conn_state: &self.0.state,
        }
    }

    fn receiving(&mut self, id: StreamId) -> RecvStream<'_> {
        RecvStream {
            id,
            state: &mut self.0.streams,
            pending: &mut self.0.pending,
        }
    }

    // On events the application resets a stream that was stopped, which our endpoint does itself, and writes where there is room.
    fn hear(&mut self) {
        while let Some(event) = self.0.streams.poll() {
            match event {
                StreamEvent::Stopped { id, error_code } => {
                    self.sending(id).reset(error_code).unwrap()
                }
                StreamEvent::Writable { id } => {
                    let _ = self.sending(id).write(b"x");
                }
                _ => {}
            }
        }
        for dir in Dir::iter() {
            // (else the compiler counts them in one step)
            while let Some(id) = self.streams().accept(dir) {
                black_box(id);
            }
        }
    }
}

fn theirs(stream: gotsavena::StreamId) -> StreamId {
    StreamId(stream.value())
}

fn limit(value: u64) -> VarInt {
    VarInt::from_u64(value).unwrap()
}

impl Target for Theirs {
    fn new(setup: Setup) -> Self {
        // Writes are bounded by credit, so a stream's send buffer needs no bound of its own.
        let _ours = (setup.send_buffer, setup.within_credit);
        let streams = limit(setup.streams);
        let (conn_window, window) = (limit(16 * setup.window), limit(setup.window));
        let mut state =
            StreamsState::new(Side::Server, streams, streams, 1 << 30, conn_window, window);
        state.set_params(&TransportParameters {
            initial_max_data: limit(setup.max_data),
            initial_max_stream_data_bidi_local: limit(setup.max_stream_data),
            initial_max_stream_data_bidi_remote: limit(setup.max_stream_data),
            initial_max_stream_data_uni: limit(setup.max_stream_data),
            initial_max_streams_bidi: limit(1 << 17),
            initial_max_streams_uni: limit(1 << 17),
            ..TransportParameters::default()
        });
        Theirs(End::of(state))
    }

    fn receive(&mut self, number: u64, payload: &[u8]) {
        self.0.receive(number, Bytes::copy_from_slice(payload));
        self.hear();
    }

    fn make(&mut self, out: &mut [u8]) -> Option<u64> {
        let (number, payload) = self.0.make(out.len())?;
        black_box(payload);
        Some(number)
    }

    fn receive_with_acks(&mut self, number: u64, payload: &[u8]) -> u64 {
        let before = self.0.in_flight();
        self.receive(number, payload);
        (before - self.0.in_flight()) as u64
    }

    fn open(&mut self, dir: gotsavena::Dir) -> gotsavena::StreamId {
        let dir = match dir {
            gotsavena::Dir::Bidi => Dir::Bi,
            gotsavena::Dir::Uni => Dir::Uni,
        };
        gotsavena::StreamId::new(self.streams().open(dir).unwrap().0).unwrap()
    }

    // As far as the peer's credit goes. The application keeps the rest.
    fn write(&mut self, stream: gotsavena::StreamId, bytes: &[u8]) {
        let mut rest = bytes;
        while let Ok(count) = self.sending(theirs(stream)).write(rest) {
            rest = &rest[count..];
            if rest.is_empty() {
                break;
            }
        }
    }

    fn read(&mut self, stream: gotsavena::StreamId) {
        let mut half = self.receiving(theirs(stream));
        let mut chunks = match half.read(true) {
            Ok(chunks) => chunks,
            Err(_) => return,
        };
        while let Ok(Some(chunk)) = chunks.next(usize::MAX) {
            black_box(chunk);
        }
        let _ = chunks.finalize();
    }

    fn read_byte(&mut self, stream: gotsavena::StreamId) {
        let mut half = self.receiving(theirs(stream));
        let mut chunks = half.read(true).unwrap();
        let chunk = chunks.next(1).unwrap().unwrap();
        assert_eq!(chunk.bytes.len(), 1);
        let _ = chunks.finalize();
    }

    fn finish(&mut self, stream: gotsavena::StreamId) {
        self.sending(theirs(stream)).finish().unwrap();
    }

    fn reset(&mut self, stream: gotsavena::StreamId) {
        self.sending(theirs(stream)).reset(limit(0)).unwrap();
    }

    fn stop(&mut self, stream: gotsavena::StreamId) {
        self.receiving(theirs(stream)).stop(limit(0)).unwrap();
    }

    // Events are taken as payloads arrive.
    fn hear(&mut self) {}

    fn settle(&mut self, _came: u64) {}
}

pub fn main(live: fn() -> usize) -> ExitCode {
    let groups = [
        Attack::<Theirs>::BY_BYTES,
        Attack::BY_ACKS,
        Attack::BY_ITEMS,
        Attack::BY_CROWDS,
    ];
    play::main(&groups, live)
}
