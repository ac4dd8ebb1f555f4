//! Our endpoint as the target of the attacks.

use super::play::{Attack, Play, Setup, Target, own, theirs};
use super::table::BUSY;
use gotsavena::{
    Dir, Endpoint, Frame, PeerLimits, Read, Received, Role, Settings, StreamId, Tuning,
};

pub struct Ours(Endpoint);

impl Target for Ours {
    fn new(setup: Setup) -> Ours {
        let settings = Settings::small()
            .conn_window(16 * setup.window)
            .stream_windows(setup.window)
            .send_buffer(setup.send_buffer)
            .streams(setup.streams, 1 << 16);
        let peer = PeerLimits::default()
            .max_data(setup.max_data)
            .bidi_local(setup.max_stream_data)
            .bidi_remote(setup.max_stream_data)
            .uni(setup.max_stream_data)
            .streams_bidi(1 << 17)
            .streams_uni(1 << 17);
        let tuning = Tuning::default().within_credit(setup.within_credit);
        let mut end =
            Endpoint::with_tuning(Role::Server, settings, tuning, peer).expect("they are in range");
        end.report_blocked(setup.within_credit);
        Ours(end)
    }

    fn receive(&mut self, number: u64, payload: &[u8]) {
        let answer = self.0.receive(number, payload);
        assert_eq!(answer, Ok(Received::Done), "no rule was broken");
        while self.0.accept().is_some() {}
    }

    fn make(&mut self, out: &mut [u8]) -> Option<u64> {
        let made = self.0.make_packet(out).expect("there is memory");
        made.map(|made| made.number)
    }

    fn receive_with_acks(&mut self, number: u64, payload: &[u8]) -> u64 {
        let mut count = 0;
        let answer = self.0.receive_with_acks(number, payload, |_| count += 1);
        assert_eq!(answer, Ok(Received::Done), "no rule was broken");
        count
    }

    fn open(&mut self, dir: Dir) -> StreamId {
        self.0.open(dir).expect("the peer grants as many")
    }

    fn write(&mut self, stream: StreamId, bytes: &[u8]) {
        let count = self.0.write(stream, bytes).expect("it sends");
        assert!(count <= bytes.len());
    }

    fn read(&mut self, stream: StreamId) {
        let mut bytes = [0; 1 << 14];
        while let Ok(Read::Bytes(_)) = self.0.read(stream, &mut bytes) {}
    }

    fn read_byte(&mut self, stream: StreamId) {
        let read = self.0.read(stream, &mut [0]);
        assert_eq!(read, Ok(Read::Bytes(1)));
    }

    fn finish(&mut self, stream: StreamId) {
        self.0.finish(stream).expect("it sends");
    }

    fn reset(&mut self, stream: StreamId) {
        self.0.reset(stream, 0).expect("it sends");
    }

    fn stop(&mut self, stream: StreamId) {
        self.0.stop(stream, 0).expect("it receives");
    }

    fn hear(&mut self) {
        while self.0.next_event().expect("there is memory").is_some() {}
    }

    // Only a broken rule closes it: here bytes on a stream on which only this endpoint may send (RFC 9000, section 19.8).
    fn settle(&mut self, came: u64) {
        assert_eq!(self.0.closing(), None);
        let (mut payload, stream) = ([0; 32], own(Dir::Uni, 0));
        let frame = Frame::Stream {
            stream,
            offset: 0,
            fin: false,
            bytes: b"x",
        };
        let len = gotsavena::put(&frame, &mut payload).expect("it fits");
        assert!(self.0.receive(came, &payload[..len]).is_err());
        let closing = self.0.closing().expect("a rule was broken");
        assert_eq!(closing.code, 0x05, "it is a STREAM_STATE_ERROR");
    }
}

/// Bidirectional streams of which one direction is over: the receiving one for every second stream, else the sending one.
fn half_ended(play: &mut Play<Ours>, streams: u64) {
    for index in 0..streams {
        play.put(Frame::Stream {
            stream: theirs(Dir::Bidi, index),
            offset: 0,
            fin: index % 2 == 0,
            bytes: b"x",
        });
        if index % 64 == 63 || index + 1 == streams {
            play.deliver();
        }
    }
    for index in 0..streams {
        play.end.read(theirs(Dir::Bidi, index));
        if index % 2 == 1 {
            play.end.reset(theirs(Dir::Bidi, index));
        }
    }
    play.drain();
    play.ack_all();
}

fn ask_ended(play: &mut Play<Ours>, _streams: u64, _step: u64) {
    let least = theirs(Dir::Bidi, 0);
    play.call(|ours| assert_eq!(ours.0.next_ended(least), None));
}

/// Attacks on calls that quinn-proto doesn't have.
pub const ALONE: &[Attack<Ours>] = &[Attack {
    name: "half-over",
    what: "the search for a stream that is over, among so many of which one half is, by turns",
    sizes: [100, 640, 4096],
    setup: BUSY,
    ready: half_ended,
    steps: |_| 100,
    step: ask_ended,
}];
