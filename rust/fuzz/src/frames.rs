//! Frames are read and written without an endpoint.

use crate::codes::{Answer, Code, INVALID, NO_ROOM, NONE, OK};
use crate::input::Input;
use crate::world::{MOST_PAYLOAD, Side, World, has_pattern, pattern};
use gotsavena::{
    AckRanges, Dir, EcnCounts, Frame, StreamId, frames, last_stream, put, put_ack, read_varint,
    write_varint,
};

const MOST_RANGES: usize = 32;
const TOKEN: [u8; 16] = [1, 2, 3, 4, 5, 6, 7, 8, 9, 10, 11, 12, 13, 14, 15, 16];

/// What an input says of a frame: the numbers that it has, in this order, and its bytes.
#[derive(Default)]
struct Fields {
    kind: u64,
    dir: u64,
    fin: bool,
    has_ecn: bool,
    numbers: [u64; 3],
    bytes: Vec<u8>,
}

/// Each number that the bytes spell is read again from its shortest spelling.
fn check_numbers(bytes: &[u8]) {
    let mut rest = bytes;
    while let Some((value, len)) = read_varint(rest) {
        let mut shortest = [0; 8];
        let some = write_varint(value, &mut shortest).expect("a number that was read");
        assert!(
            some <= len && read_varint(&shortest[..some]) == Some((value, some)),
            "a number"
        );
        rest = &rest[len..];
    }
}

fn take_fields(w: &mut World<'_>, sender: usize, room: usize) -> Fields {
    let input = &mut w.input;
    let code = input.byte();
    let mut f = Fields {
        kind: if code % 32 <= 20 { code % 32 } else { 7 },
        dir: code >> 5 & 1,
        fin: code >> 6 & 1 != 0,
        has_ecn: code >> 7 != 0,
        ..Fields::default()
    };
    let numbers = match f.kind {
        2 if f.has_ecn => 3,
        3 => 3,
        2 | 4 | 7 | 9 | 12 | 14 | 18 => 2,
        5 | 8 | 10 | 11 | 13 | 15 | 19 => 1,
        _ => 0,
    };
    for number in &mut f.numbers[..numbers] {
        *number = input.number();
    }
    f.bytes = take_frame_bytes(input, &f, sender, room);
    f
}

fn take_frame_bytes(input: &mut Input<'_>, f: &Fields, sender: usize, room: usize) -> Vec<u8> {
    match f.kind {
        2 => {
            let most = input.byte() as usize % 16;
            let bytes = input.bytes(most);
            check_numbers(bytes);
            bytes.to_vec()
        }
        7 => {
            let len = input.size();
            let fitting = if len + 24 > room {
                room.saturating_sub(24)
            } else {
                len
            };
            let [stream, offset, _] = f.numbers;
            let offsets = (0..fitting as u64).map(|at| offset.wrapping_add(at));
            offsets.map(|at| pattern(sender, stream, at)).collect()
        }
        14 => vec![7; input.byte() as usize % 22],
        5 | 6 | 16..=19 => vec![9; input.byte() as usize % 16],
        _ => Vec::new(),
    }
}

impl Fields {
    fn dir(&self) -> Dir {
        if self.dir == 0 { Dir::Bidi } else { Dir::Uni }
    }

    fn frame(&self) -> Answer<Frame<'_>> {
        let [first, second, _] = self.numbers;
        let (dir, bytes) = (self.dir(), self.bytes.as_slice());
        Ok(match self.kind {
            0 => Frame::Padding,
            1 => Frame::Ping,
            2 => self.ack(),
            3 | 4 | 7 | 9 | 12 => self.frame_on(StreamId::new(first).ok_or(INVALID)?),
            6 => Frame::NewToken { bytes },
            8 => Frame::MaxData { maximum: first },
            10 => Frame::MaxStreams { dir, count: first },
            11 => Frame::DataBlocked { limit: first },
            13 => Frame::StreamsBlocked { dir, count: first },
            14 => Frame::NewConnectionId {
                sequence: first,
                retire: second,
                identifier: bytes,
                reset_token: &TOKEN,
            },
            15 => Frame::RetireConnectionId { sequence: first },
            16 => Frame::PathChallenge { bytes },
            17 => Frame::PathResponse { bytes },
            5 | 18 | 19 => self.frame_with_bytes(),
            _ => Frame::HandshakeDone,
        })
    }

    fn ack(&self) -> Frame<'_> {
        let [largest, delay, count] = self.numbers;
        let ecn = EcnCounts {
            ect0: count,
            ect1: count,
            ce: count,
        };
        Frame::Ack {
            largest,
            delay,
            ranges: &self.bytes,
            ecn: self.has_ecn.then_some(ecn),
        }
    }

    fn frame_on(&self, stream: StreamId) -> Frame<'_> {
        let [_, second, third] = self.numbers;
        match self.kind {
            3 => Frame::ResetStream {
                stream,
                code: second,
                final_size: third,
            },
            4 => Frame::StopSending {
                stream,
                code: second,
            },
            9 => Frame::MaxStreamData {
                stream,
                maximum: second,
            },
            12 => Frame::StreamDataBlocked {
                stream,
                limit: second,
            },
            _ => Frame::Stream {
                stream,
                offset: second,
                fin: self.fin,
                bytes: &self.bytes,
            },
        }
    }

    fn frame_with_bytes(&self) -> Frame<'_> {
        let ([first, second, _], bytes) = (self.numbers, self.bytes.as_slice());
        match self.kind {
            5 => Frame::Crypto {
                offset: first,
                bytes,
            },
            18 => Frame::ConnectionClose {
                code: first,
                frame_type: second,
                reason: bytes,
            },
            _ => Frame::ApplicationClose {
                code: first,
                reason: bytes,
            },
        }
    }
}

/// An ACK of ranges: the highest first, each so long, and so far below the one before.
fn take_ack(w: &mut World<'_>, out: &mut [u8]) -> usize {
    let count = w.input.byte() as usize % (MOST_RANGES + 2);
    let largest = w.input.number();
    let mut above = largest;
    let mut ranges = Vec::new();
    for _ in 0..count {
        let length = w.input.byte();
        let gap = w.input.byte();
        let smallest = above.wrapping_sub(length);
        ranges.push((smallest, above));
        above = smallest.wrapping_sub(gap + 2);
    }
    let written = put_pairs(&ranges, largest, out);
    w.mix_code(&written);
    let Ok((some, len)) = written else {
        return 0;
    };
    assert!(some > 0 && some <= count && len > 0, "ranges are written");
    w.mix_len(some);
    len
}

fn put_pairs(pairs: &[(u64, u64)], delay: u64, out: &mut [u8]) -> Answer<(usize, usize)> {
    put_ack(pairs, delay, out).map_err(|fault| fault.number())
}

/// Frames of a payload for the other side: eight at most, up to the first that can't be written.
pub fn compose(w: &mut World<'_>, sender: usize) -> Vec<u8> {
    let mut out = vec![0; MOST_PAYLOAD];
    let mut len = 0;
    for _ in 0..=w.input.byte() % 8 {
        if w.input.0.first() == Some(&0xff) {
            w.input.byte();
            let size = take_ack(w, &mut out[len..]);
            if size == 0 {
                break;
            }
            len += size;
            continue;
        }
        let fields = take_fields(w, sender, out.len() - len);
        let written = fields
            .frame()
            .and_then(|frame| put(&frame, &mut out[len..]).map_err(|fault| fault.number()));
        w.mix_code(&written);
        let Ok(size) = written else {
            break;
        };
        assert!(size > 0, "a frame is written");
        len += size;
    }
    out.truncate(len);
    out
}

/// The ranges of an ACK fall, and those at its front, written, are read again.
fn check_ack(largest: u64, delay: u64, ranges: &[u8]) {
    let all: Vec<_> = AckRanges::new(largest, ranges)
        .expect("an ACK that was read")
        .collect();
    assert_eq!(
        all.first().map(|first| first.1),
        Some(largest),
        "the first range"
    );
    assert!(
        all.iter().all(|(smallest, largest)| smallest <= largest),
        "a range"
    );
    assert!(
        all.is_sorted_by(|above, below| below.1 + 1 < above.0),
        "ranges fall"
    );
    let some = &all[..all.len().min(MOST_RANGES)];
    let mut out = vec![0; (4 * ranges.len() + 24).min(32 * MOST_RANGES)];
    let (written, len) = put_pairs(some, delay, &mut out).expect("an ACK is written");
    let Some(Ok(placed)) = frames(&out[..len]).next() else {
        panic!("it is read");
    };
    let Frame::Ack {
        largest, ranges, ..
    } = placed.frame
    else {
        panic!("it is an ACK");
    };
    let again: Vec<_> = AckRanges::new(largest, ranges).expect("an ACK").collect();
    assert_eq!(again, some[..written], "its ranges");
}

/// A frame that was read is written, and read again as the same.
fn check_frame(frame: &Frame<'_>) {
    let mut out = vec![0; MOST_PAYLOAD + 64];
    let size = put(frame, &mut out).expect("a frame is written");
    let mut again = frames(&out[..size]);
    let second = again.next().expect("it is read").expect("it is a frame");
    assert!(again.next().is_none(), "it is one frame");
    match (frame, &second.frame) {
        (
            Frame::Ack {
                largest,
                delay,
                ranges,
                ecn,
            },
            Frame::Ack {
                largest: other,
                delay: other_delay,
                ecn: other_ecn,
                ..
            },
        ) => {
            assert_eq!(
                (largest, delay, ecn),
                (other, other_delay, other_ecn),
                "an ACK"
            );
            check_ack(*largest, *delay, ranges);
        }
        (first, second) => assert_eq!(first, second, "it is read as the same"),
    }
    let is_full = put(frame, &mut out[..size - 1]).map_err(|fault| fault.number());
    assert_eq!(is_full, Err(NO_ROOM), "a frame doesn't fit");
}

pub fn check_frames(payload: &[u8]) {
    let (mut last, mut place) = (None, None);
    let mut faults = 0;
    for read in frames(payload) {
        match read {
            Ok(placed) => {
                assert!(placed.place < payload.len(), "a frame's place");
                assert!(
                    place.is_none_or(|before| before < placed.place),
                    "a frame's place"
                );
                assert!(
                    place.is_some() || placed.place == 0,
                    "the first frame's place"
                );
                place = Some(placed.place);
                if placed.frame == Frame::Padding {
                    continue;
                }
                check_frame(&placed.frame);
                if let Frame::Stream { stream, .. } = placed.frame {
                    last = Some(stream);
                }
            }
            Err(fault) => {
                assert!(fault.place <= payload.len(), "a fault's place");
                faults += 1;
            }
        }
    }
    assert!(faults == 0 || faults == 1, "one fault ends a payload");
    assert!(
        faults == 1 || !payload.is_empty(),
        "a payload without a frame is a fault"
    );
    assert_eq!(last_stream(payload), last, "the last stream");
}

/// What an endpoint wrote is a payload, whose bytes of streams are those that were written to them.
pub fn check_made(s: &Side, payload: &[u8], is_ack_eliciting: bool) {
    check_frames(payload);
    let mut asks = false;
    for read in frames(payload) {
        let frame = read.expect("a payload has whole frames").frame;
        asks |= !matches!(frame, Frame::Ack { .. });
        let Frame::Stream {
            stream,
            offset,
            fin,
            bytes,
        } = frame
        else {
            continue;
        };
        let end = offset + bytes.len() as u64;
        let is_right = has_pattern(s.name, stream.value(), offset, bytes);
        assert!(is_right, "the bytes of a stream that are sent");
        let report = s
            .end
            .report(stream)
            .and_then(|report| report.send)
            .expect("a stream");
        assert!(end <= report.written, "only what was written is sent");
        assert!(end <= report.limit, "no more is sent than the peer permits");
        assert!(
            !fin || report.final_size == Some(end),
            "the FIN is sent at the end"
        );
    }
    assert_eq!(
        asks, is_ack_eliciting,
        "a payload asks for an ACK as it says"
    );
}

/// Any bytes are read as frames.
pub fn read_frames(w: &mut World<'_>) {
    let most = 4 * w.input.byte() as usize;
    let bytes = w.input.bytes(most);
    check_frames(bytes);
    let last = last_stream(bytes);
    w.mix(if last.is_some() { OK } else { NONE });
    w.mix(last.map_or(0, StreamId::value));
}

/// Ranges are written into as little room as the input says.
pub fn put_ranges(w: &mut World<'_>) {
    let mut out = vec![0; w.input.byte() as usize];
    let len = take_ack(w, &mut out);
    if len > 0 {
        check_frames(&out[..len]);
    }
}
