//! Whose bytes a packet carries first, and the delay that its ACK tells.

mod support;

use gotsavena::{
    Dir, Endpoint, Frame, MakeFault, Received, Settings, StreamId, frames, last_stream,
};
use support::two_ends;

const STREAMS: usize = 64;

/// Each stream has more bytes than a packet holds.
const BYTES: usize = 8 * 1200;

/// Two ends, and the streams of the first, each with its bytes written.
fn writers() -> ([Endpoint; 2], Vec<StreamId>) {
    let settings = Settings::small()
        .conn_window(1 << 20)
        .stream_windows(1 << 16)
        .send_buffer(1 << 16)
        .streams(STREAMS as u64, STREAMS as u64);
    let mut ends = two_ends(settings);
    let streams = (0..STREAMS)
        .map(|_| ends[0].open(Dir::Uni).expect("a stream"))
        .collect::<Vec<_>>();
    for (i, stream) in streams.iter().enumerate() {
        assert_eq!(ends[0].write(*stream, &[i as u8; BYTES]), Ok(BYTES));
    }
    (ends, streams)
}

/// How many new bytes of each stream have gone out so far, by its place.
fn count(sent: &mut [usize], payload: &[u8]) {
    for placed in frames(payload) {
        if let Frame::Stream { stream, bytes, .. } = placed.expect("frames").frame {
            sent[stream.index() as usize] += bytes.len();
        }
    }
}

fn next(stream: StreamId) -> StreamId {
    StreamId::new(stream.value() + 1).expect("a low number")
}

#[test]
fn by_turns_no_stream_is_a_packet_ahead() {
    let ([mut client, mut server], streams) = writers();
    let mut sent = [0; STREAMS];
    let mut packets = [0; STREAMS];
    let mut first = streams[0];
    let mut payload = [0; 1200];
    while let Some(made) = client
        .make_packet_from(first, 0, &mut payload)
        .expect("open")
    {
        let text = &payload[..made.len];
        let before = sent;
        count(&mut sent, text);
        for (i, had) in packets.iter_mut().enumerate() {
            *had += usize::from(sent[i] > before[i]);
        }
        // Of the streams that have more, none is more than a packet behind another.
        let waiting = (0..STREAMS)
            .filter(|&i| sent[i] < BYTES)
            .map(|i| packets[i]);
        let least = waiting.min().unwrap_or(usize::MAX);
        assert!(
            packets.iter().all(|&had| had <= least.saturating_add(1)),
            "{packets:?}"
        );
        first = next(last_stream(text).expect("bytes went"));
        assert_eq!(server.receive(made.number, text), Ok(Received::Done));
    }
    assert_eq!(sent, [BYTES; STREAMS]);
}

#[test]
fn without_turns_the_least_stream_goes_first() {
    let ([mut client, _], streams) = writers();
    let mut sent = [0; STREAMS];
    let mut payload = [0; 1200];
    for _ in 0..20 {
        let made = client
            .make_packet(&mut payload)
            .expect("open")
            .expect("due");
        count(&mut sent, &payload[..made.len]);
        let busy = sent.iter().position(|&bytes| bytes < BYTES).expect("more");
        assert!(sent[..busy].iter().all(|&bytes| bytes == BYTES));
        assert!(sent[busy + 1..].iter().all(|&bytes| bytes == 0));
    }
    // As from the least stream on, with no delay.
    let ([mut one, _], _) = writers();
    let ([mut other, _], _) = writers();
    let mut same = [0; 1200];
    while let Some(made) = one.make_packet(&mut payload).expect("open") {
        assert_eq!(
            other.make_packet_from(StreamId::new(0).unwrap(), 0, &mut same),
            Ok(Some(made))
        );
        assert_eq!(payload[..made.len], same[..made.len]);
    }
    assert_eq!(last_stream(&payload[..1]), None);
    assert!(streams.is_sorted());
}

#[test]
fn from_the_last_stream_on_the_others_follow() {
    let ([mut client, _], streams) = writers();
    let mut payload = [0; 16_383];
    let made = client
        .make_packet_from(streams[63], 0, &mut payload)
        .expect("open")
        .expect("due");
    let carried = frames(&payload[..made.len])
        .filter_map(|placed| match placed.expect("frames").frame {
            Frame::Stream { stream, .. } => Some(stream),
            _ => None,
        })
        .collect::<Vec<_>>();
    assert_eq!(carried, [streams[63], streams[0]]);
}

#[test]
fn an_ack_tells_its_delay() {
    let ([mut client, mut server], streams) = writers();
    let mut payload = [0; 1200];
    for delay in [0, 1, 63, 64, 16_384, 1 << 30, (1 << 62) - 1] {
        let made = client
            .make_packet(&mut payload)
            .expect("open")
            .expect("due");
        let received = server.receive(made.number, &payload[..made.len]);
        assert_eq!(received, Ok(Received::Done));
        let made = server
            .make_packet_from(streams[0], delay, &mut payload)
            .expect("open")
            .expect("an ACK");
        let first = frames(&payload[..made.len])
            .next()
            .expect("one")
            .expect("frames");
        assert!(matches!(first.frame, Frame::Ack { delay: told, .. } if told == delay));
    }
    let refused = server.make_packet_from(streams[0], 1 << 62, &mut payload);
    assert_eq!(refused, Err(MakeFault::Invalid));
    for room in [0, 127, 16_384] {
        let refused = server.make_packet_from(streams[0], 0, &mut vec![0; room]);
        assert_eq!(refused, Err(MakeFault::Invalid));
    }
}

#[test]
fn an_ack_alone_leaves_what_is_due() {
    let ([mut client, mut server], streams) = writers();
    let mut payload = [0; 1200];
    assert!(!server.ack_is_due());
    assert_eq!(server.make_ack(3, &mut payload), Ok(None));
    let back = server.open(Dir::Uni).expect("a stream");
    assert_eq!(server.write(back, b"back"), Ok(4));
    let made = client
        .make_packet(&mut payload)
        .expect("open")
        .expect("due");
    assert!(made.is_ack_eliciting);
    let received = server.receive(made.number, &payload[..made.len]);
    assert_eq!(received, Ok(Received::Done));
    assert!(server.ack_is_due());
    let made = server
        .make_ack(3, &mut payload)
        .expect("open")
        .expect("due");
    assert!(!made.is_ack_eliciting);
    assert_eq!(payload[..made.len], [0x02, 0, 3, 0, 0]);
    assert!(!server.ack_is_due());
    assert_eq!(server.make_ack(3, &mut payload), Ok(None));
    let made = server
        .make_packet(&mut payload)
        .expect("open")
        .expect("due");
    assert!(made.is_ack_eliciting);
    assert_eq!(last_stream(&payload[..made.len]), Some(back));
    assert_eq!(
        server.make_ack(1 << 62, &mut payload),
        Err(MakeFault::Invalid)
    );
    assert!(streams.is_sorted());
}
