//! Which calls of the parts ask for memory: those that are listed, and no other (docs/DECISIONS.md). Random calls are made, and what each
//! of them asks for is counted.

use super::proved::qs_ranges::RangeSet;
use super::proved::qs_recv::{Assembly, RecvHalf, RingAssembly, Share};
use super::proved::qs_send::{
    AckPass, Chunk, Item, LostPass, LostRecords, Piece, Records, SendHalf,
};
use super::proved::qs_wire::{AckRanges, StreamId};
use super::refusing::{asked, refuse, watched};
use super::shim::Vec as ShimVec;
use super::shim::alloc::Global;

const TIMES: u64 = 200;
const CALLS: usize = 300;

/// Random numbers: splitmix64.
struct Random(u64);

impl Random {
    fn below(&mut self, end: u64) -> u64 {
        self.0 = self.0.wrapping_add(0x9e37_79b9_7f4a_7c15);
        let mut word = self.0;
        word = (word ^ (word >> 30)).wrapping_mul(0xbf58_476d_1ce4_e5b9);
        word = (word ^ (word >> 27)).wrapping_mul(0x94d0_49bb_1331_11eb);
        (word ^ (word >> 31)) % end
    }
}

/// How often the call asks for memory.
fn asks<T>(call: impl FnOnce() -> T) -> (T, u64) {
    refuse(u64::MAX);
    let answer = watched(call);
    (answer, asked())
}

/// The call asks for none.
fn takes_none<T>(call: impl FnOnce() -> T) -> T {
    let (answer, asked) = asks(call);
    assert_eq!(asked, 0);
    answer
}

/// Plays random calls from many seeds. It answers how often those asked that may.
fn all_seeds(mut play: impl FnMut(&mut Random) -> u64) -> u64 {
    (0..TIMES).map(|seed| play(&mut Random(seed))).sum()
}

fn set_calls(random: &mut Random) -> u64 {
    let mut set = takes_none(|| RangeSet::new(Global));
    let mut taken = 0;
    for _ in 0..CALLS {
        let lo = random.below(400);
        let hi = lo + random.below(6);
        match random.below(8) {
            0..4 => {
                let is_free = set.count() < 2;
                let (done, asked) = asks(|| set.insert(lo, hi));
                assert!(done.is_ok() && (asked == 0 || !is_free));
                taken += asked;
            }
            4 | 5 => taken += asks(|| set.remove(lo, hi)).1,
            6 => takes_none(|| set.drop_below(lo / 2)),
            _ => {
                let mut pairs = vec![(0, 0); set.count()];
                takes_none(|| {
                    _ = (
                        set.has(lo),
                        set.covers(lo, hi),
                        set.first(),
                        set.run_from(lo),
                    );
                    _ = (set.first_missing(lo), set.first_gap(lo, hi), set.count());
                    set.copy_pairs(&mut pairs)
                });
            }
        }
    }
    taken
}

#[test]
fn a_set_asks_as_it_grows() {
    assert!(all_seeds(set_calls) > 0);
}

fn send_calls(random: &mut Random) -> u64 {
    let id = StreamId::new(0).expect("it has a number");
    let mut half = takes_none(|| SendHalf::new(Global, id, 300, 200));
    let mut chunks: Vec<Chunk> = Vec::new();
    let mut taken = 0;
    for _ in 0..CALLS {
        match random.below(40) {
            0..12 => taken += asks(|| half.write(&[7; 9]).is_ok()).1,
            12..24 => {
                let room = random.below(40) as usize;
                let next = takes_none(|| half.next_chunk(room, 1000));
                if let Some(chunk) = next {
                    let mut bytes = vec![0; chunk.len];
                    takes_none(|| {
                        half.copy(chunk, &mut bytes);
                        half.sent(chunk);
                    });
                    chunks.push(chunk);
                }
            }
            24..36 if !chunks.is_empty() => {
                let chunk = chunks[random.below(chunks.len() as u64) as usize];
                taken += match random.below(2) {
                    0 => asks(|| half.acked(chunk).is_ok()).1,
                    _ => asks(|| half.lost(chunk).is_ok()).1,
                };
            }
            36 => takes_none(|| half.allow(half.limit() + 40)),
            37 if random.below(20) == 0 => _ = takes_none(|| half.finish()),
            38 if random.below(40) == 0 => _ = takes_none(|| half.reset(3)),
            39 if random.below(40) == 0 => takes_none(|| half.stopped(4)),
            _ => takes_none(|| {
                half.note_blocked();
                _ = (
                    half.state(),
                    half.final_size(),
                    half.written(),
                    half.sent_end(),
                );
                _ = (
                    half.room(),
                    half.reset_code(),
                    half.lowest_due(),
                    half.end_due(),
                );
            }),
        }
    }
    taken
}

#[test]
fn a_sending_half_asks_as_it_keeps_more() {
    assert!(all_seeds(send_calls) > 0);
}

fn recv_calls(random: &mut Random) -> u64 {
    let (new, mut taken) = asks(|| RecvHalf::new(Global, 600, Share::Half));
    let mut half: RecvHalf<RingAssembly> = new.expect("none is refused");
    for _ in 0..CALLS {
        let offset = half.read_count() + random.below(80);
        let bytes = vec![1; random.below(20) as usize];
        match random.below(20) {
            0..10 => {
                let passes = takes_none(|| {
                    half.check_stream(offset, bytes.len() as u64, false).is_ok()
                        && half.check_bytes(offset, &bytes).is_ok()
                });
                if passes {
                    taken += asks(|| half.take_stream(offset, &bytes, false).is_ok()).1;
                }
            }
            10..16 => {
                let mut into = [0; 16];
                takes_none(|| half.read(&mut into));
                takes_none(|| half.raise());
            }
            16 if random.below(40) == 0 => takes_none(|| half.stop(5)),
            17 if random.below(40) == 0 => {
                let size = half.sizes().spent;
                if takes_none(|| half.check_reset(size)).is_ok() {
                    taken += asks(|| half.take_reset(6, size)).1;
                }
            }
            _ => takes_none(|| {
                _ = (half.sizes(), half.standing(), half.limit());
                _ = (half.state(), half.final_size(), half.read_count());
            }),
        }
    }
    taken
}

#[test]
fn a_receiving_half_asks_as_it_stores_more() {
    assert!(all_seeds(recv_calls) > 0);
}

/// The exception: a read that leaves little in a large ring takes the smaller block. Where that is refused, nothing else changes.
#[test]
fn a_read_that_narrows_a_ring_asks_once() {
    let source = vec![1; 60_000];
    let mut into = vec![0; 60_000];
    for refused in [u64::MAX, 0] {
        let mut ring = RingAssembly::new(Global, 1 << 17);
        ring.put(0, &source).expect("memory");
        refuse(refused);
        assert_eq!(watched(|| ring.take(&mut into[..59_000])), 59_000);
        assert_eq!(asked(), 1);
        assert_eq!((ring.stored(), ring.take(&mut into)), (1_000, 1_000));
    }
}

/// A piece for each number.
fn piece(value: u64) -> Piece {
    Piece::Told(Item::MaxData { maximum: value })
}

fn pieces(count: u64) -> ShimVec<Piece> {
    let mut all = ShimVec::new(Global);
    for value in 0..count {
        assert!(all.push(piece(value)).is_ok());
    }
    all
}

fn record_calls(random: &mut Random) -> u64 {
    let mut records = takes_none(|| Records::new(Global));
    let mut lost = takes_none(|| LostRecords::new(Global));
    let (mut next, mut taken) = (0, 0);
    for _ in 0..CALLS {
        let number = random.below(next + 1);
        match random.below(6) {
            0 | 1 => {
                let count = 1 + random.below(4);
                let all = pieces(count);
                taken += asks(|| records.make_room(next).is_ok()).1;
                takes_none(|| match count {
                    1 => records.put_one(next, piece(0)),
                    _ => records.put(next, all),
                });
                next += 1 + random.below(3);
            }
            2 => {
                if let Some(piece) = takes_none(|| records.first(number)) {
                    taken += asks(|| lost.make_room(number).is_ok()).1;
                    takes_none(|| {
                        lost.add(number, piece);
                        records.drop_first(number);
                        records.trim();
                    });
                }
            }
            3 => takes_none(|| {
                lost.drop_first(number);
                _ = (lost.first(number), records.holds(piece(2)));
            }),
            4 => takes_none(|| {
                let mut pass = AckPass::new(AckRanges::new(number, &[0]));
                while let Some(named) = pass.next(&records) {
                    records.drop_first(named);
                }
                _ = pass.turns();
            }),
            _ => takes_none(|| {
                let mut pass = LostPass::new(AckRanges::new(number, &[0]));
                _ = (pass.next(&lost), pass.turns());
            }),
        }
    }
    taken
}

/// A record takes over what it keeps: its memory was taken before.
#[test]
fn records_ask_as_room_is_made() {
    assert!(all_seeds(record_calls) > 0);
}
