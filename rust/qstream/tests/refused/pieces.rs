//! A set of numbers, and the halves of a stream: what found no memory is as it was, and the next try succeeds.

use super::proved::qs_chunks::ChunkAssembly;
use super::proved::qs_ranges::RangeSet;
use super::proved::qs_recv::{Assembly, Read, RecvHalf, RecvState, RingAssembly, Share};
use super::proved::qs_send::{Chunk, SendHalf};
use super::proved::qs_wire::StreamId;
use super::refusing::{asked, refuse, watched};
use super::shim::alloc::Global;
use std::fmt::Debug;

/// Makes the call, and once more where it was refused and changed nothing that `look` shows. How often it was refused.
fn tries<S, L: Debug + PartialEq, E: Debug>(
    subject: &mut S,
    look: impl Fn(&S) -> L,
    call: impl Fn(&mut S) -> Result<(), E>,
) -> usize {
    let before = look(subject);
    if watched(|| call(subject)).is_ok() {
        return 0;
    }
    assert_eq!(look(subject), before);
    watched(|| call(subject)).expect("it was refused once");
    1
}

/// Each allocation of a run is refused in turn, and the run tells how many calls were refused. How many allocations there were.
fn each_refused(run: impl Fn() -> usize) -> u64 {
    for refused in 0.. {
        refuse(refused);
        let refusals = run();
        assert!(refusals <= 1);
        if asked() <= refused {
            assert_eq!(refusals, 0);
            return refused;
        }
    }
    unreachable!()
}

fn pairs(set: &RangeSet) -> Vec<(u64, u64)> {
    let mut runs = vec![(0, 0); set.count()];
    let count = set.copy_pairs(&mut runs);
    assert_eq!(count, runs.len());
    runs
}

/// Ranges come apart, and then one that spans them all is cut between them.
fn set_grows() -> usize {
    let mut set = RangeSet::new(Global);
    let mut refusals = 0;
    for low in (0..18).step_by(2) {
        refusals += tries(&mut set, pairs, |set| set.insert(low, low + 1));
    }
    refusals += tries(&mut set, pairs, |set| set.insert(0, 18));
    for low in (1..18).step_by(2) {
        refusals += tries(&mut set, pairs, |set| set.remove(low, low + 1));
    }
    let apart: Vec<(u64, u64)> = (0..18).step_by(2).map(|low| (low, low + 1)).collect();
    assert_eq!(pairs(&set), apart);
    refusals
}

#[test]
fn a_set_survives_refusals() {
    assert!(each_refused(set_grows) >= 3);
}

fn look_at_send(half: &SendHalf) -> impl Debug + PartialEq + use<> {
    let sent = (half.written(), half.room(), half.sent_end(), half.state());
    (
        sent,
        half.lowest_due(),
        half.end_due(),
        half.next_chunk(128, 100),
    )
}

fn chunk(offset: u64, len: usize) -> Chunk {
    Chunk {
        offset,
        len,
        fin: false,
    }
}

/// The buffer grows, and runs of due offsets and of acknowledged ones.
fn sending_half_goes_on() -> usize {
    let id = StreamId::new(0).expect("it has a number");
    let mut half = SendHalf::new(Global, id, 100, 100);
    let mut refusals = 0;
    for byte in 0..30 {
        refusals += tries(&mut half, look_at_send, |half| {
            half.write(&[byte; 3])
                .map(|accepted| assert_eq!(accepted, 3))
        });
    }
    let all = half.next_chunk(128, 100).expect("bytes are due");
    assert_eq!(all, chunk(0, 90));
    half.sent(all);
    for place in 0..10 {
        let (lost, acked) = (chunk(place * 9, 1), chunk(place * 9 + 4, 2));
        refusals += tries(&mut half, look_at_send, |half| half.lost(lost));
        refusals += tries(&mut half, look_at_send, |half| half.acked(acked));
    }
    refusals += tries(&mut half, look_at_send, |half| half.acked(all));
    assert_eq!((half.room(), half.lowest_due()), (100, None));
    refusals
}

#[test]
fn a_sending_half_survives_refusals() {
    assert!(each_refused(sending_half_goes_on) >= 7);
}

/// What an end keeps of each stream that is over, or never carried a byte; what is live stands in a box.
#[test]
fn a_sending_half_takes_64_bytes() {
    assert!(size_of::<SendHalf>() <= 64);
}

fn look_at_recv<A: Assembly>(half: &RecvHalf<A>) -> impl Debug + PartialEq + use<A> {
    (half.sizes(), half.limit(), half.final_size(), half.state())
}

/// A half, and how often it was refused its box.
fn new_half<A: Assembly>() -> (RecvHalf<A>, usize) {
    let new = || watched(|| RecvHalf::new(Global, 64, Share::Half));
    match new() {
        Ok(half) => (half, 0),
        Err(_refused) => (new().expect("it was refused once"), 1),
    }
}

/// Bytes come alone, before others, over them and behind them.
fn receiving_half_goes_on<A: Assembly>() -> usize {
    let (mut half, mut refusals) = new_half::<A>();
    let frames: [(u64, &[u8], bool); 5] = [
        (8, b"ij", false),
        (4, b"ef", false),
        (12, b"m", false),
        (0, b"abcdefghijklmno", false),
        (15, b"0123456789", true),
    ];
    for (offset, bytes, fin) in frames {
        refusals += tries(&mut half, look_at_recv, |half| {
            half.take_stream(offset, bytes, fin)
        });
    }
    let mut into = [0; 32];
    half.read(&mut into);
    assert_eq!(&into[..25], b"abcdefghijklmno0123456789");
    refusals
}

#[test]
fn a_receiving_half_survives_refusals() {
    assert!(each_refused(receiving_half_goes_on::<RingAssembly>) >= 3);
    assert!(each_refused(receiving_half_goes_on::<ChunkAssembly>) >= 4);
}

/// A ring grows over bytes that go around its end, and then where it stands, with a run more beside it; what it takes stays within the
/// bound, and each byte comes out right.
fn ring_grows() -> usize {
    let source: Vec<u8> = (0..101_000).map(|n: u32| (n % 251) as u8).collect();
    let mut ring = RingAssembly::new(Global, 1 << 17);
    let mut into = vec![0; 101_000];
    let (mut refusals, mut read, mut end) = (0, 0, 0);
    for (from, to, room) in [
        (0, 4000, 3000),
        (4000, 6000, 0),
        (9000, 9001, 400),
        (100_000, 101_000, 0),
        (3500, 100_001, 101_000),
    ] {
        let look = |ring: &RingAssembly| {
            assert!(ring.held() <= 4096.max(4 * (end - read)));
            (ring.stored(), pairs(ring.received()))
        };
        refusals += tries(&mut ring, look, |ring| {
            ring.put(from, &source[from as usize..to as usize])
        });
        end = end.max(to);
        let count = ring.take(&mut into[..room]);
        assert_eq!(into[..count], source[read as usize..][..count]);
        read += count as u64;
    }
    assert_eq!(read, 101_000);
    refusals
}

#[test]
fn a_ring_survives_refusals() {
    assert!(each_refused(ring_grows) >= 4);
}

/// A reset is taken where memory is refused, and lets the bytes go.
#[test]
fn a_reset_needs_no_memory() {
    for refused in [0, u64::MAX] {
        let mut half: RecvHalf<RingAssembly> =
            RecvHalf::new(Global, 64, Share::Half).expect("none is refused yet");
        half.take_stream(3, b"abc", false)
            .expect("it is within the window");
        refuse(refused);
        watched(|| half.take_reset(7, 9));
        assert_eq!((half.reset_code(), half.final_size()), (Some(7), Some(9)));
        let sizes = half.sizes();
        assert_eq!((half.held().bytes, sizes.stored, sizes.taken), (0, 0, 9));
        assert_eq!(watched(|| half.read(&mut [0; 4])), Read::Reset(7));
        assert_eq!(half.state(), RecvState::ResetRead);
    }
}

/// What an end keeps of each stream that was read to its end; of any other a box beside.
#[test]
fn a_receiving_half_takes_24_bytes() {
    assert!(size_of::<RecvHalf<RingAssembly>>() <= 24);
}
