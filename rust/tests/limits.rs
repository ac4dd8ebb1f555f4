//! The figures of docs/LIMITS.md, each held as an upper bound. Tables double as they grow, so what is counted for each stream or packet is
//! counted just past a power of two as well as at one. A last test finds each sentence and each row of the page that has a figure, or says
//! that something is proved, among the words that are held here or by another suite.

#[path = "support/counting.rs"]
mod counting;
#[path = "support/limits.rs"]
mod limits;
#[path = "support/peer.rs"]
mod peer;
mod support;

use counting::LIVE;
use gotsavena::{
    Closing, Dir, Endpoint, Frame, Held, MAX_PAYLOAD, MAX_ROOM, MIN_FILL, MIN_ROOM, MakeFault,
    OpenFault, Placed, Read, ReceiveFault, Received, Role, Settings, SetupFault, StreamId, Tuning,
    WireFault, frames,
};
use limits::{ITSELF, MANY, holds, page, root, says, taken};
use peer::{Driven, byte, wide_limits};
use support::Random;

const MIB: u64 = 1 << 20;

fn server(settings: Settings) -> Endpoint {
    Endpoint::new(Role::Server, settings, settings.limits()).expect("in range")
}

fn is_refused(settings: Settings) -> bool {
    Endpoint::new(Role::Server, settings, settings.limits()).err() == Some(SetupFault::OutOfRange)
}

#[test]
fn settings_have_their_ranges() {
    let base = Settings::default().streams(0, 1 << 17);
    says("| connection window | 1 to 2^40 (2^24) |");
    for window in [1, 1 << 40] {
        server(base.conn_window(window));
    }
    assert!([0, (1 << 40) + 1].map(|w| is_refused(base.conn_window(w))) == [true; 2]);
    says("| stream window | 1 to 2^30 (2^20) |");
    for window in [1, 1 << 30] {
        server(base.stream_windows(window));
    }
    assert!([0, (1 << 30) + 1].map(|w| is_refused(base.stream_windows(w))) == [true; 2]);
    says("| `send_buffer` of a stream | 1 to 2^30 (2^20) |");
    for size in [1, 1 << 30] {
        server(base.send_buffer(size));
    }
    assert!([0, (1 << 30) + 1].map(|s| is_refused(base.send_buffer(s))) == [true; 2]);
    says("| streams granted at first, each direction | 0 to 2^17 (4,096) |");
    says("| streams in a connection's life, each direction | the grant to 2^21 (65,536) |");
    for (first, all) in [(0, 0), (0, 1 << 21), (1 << 17, 1 << 17)] {
        server(base.streams(first, all));
    }
    for (first, all) in [(1, 0), (0, (1 << 21) + 1), ((1 << 17) + 1, 1 << 21)] {
        assert!(is_refused(base.streams(first, all)), "{first}, {all}");
    }
    says("| streams that you open | the peer's count, up to 2^60 |");
    let mut most = wide_limits();
    most.streams_bidi = 1 << 60;
    Endpoint::new(Role::Client, base, most).expect("in range");
}

/// Why a payload of these frames closed a fresh server.
fn closed_by(settings: Settings, frames: &[Frame<'_>]) -> Closing {
    let mut driven = Driven::new(settings, wide_limits());
    match driven.try_take(frames) {
        Err(ReceiveFault::Closing(why)) => why,
        other => panic!("{other:?}"),
    }
}

#[test]
fn a_peer_past_its_limits_is_closed() {
    const FLOW_CONTROL_ERROR: u64 = 0x03;
    const STREAM_LIMIT_ERROR: u64 = 0x04;
    let settings = Settings::small().stream_windows(1 << 13);
    says("a peer that sends past it is closed with FLOW_CONTROL_ERROR");
    let uni = |index| StreamId::from_parts(Role::Client, Dir::Uni, index).expect("below 2^62");
    let past_connection = closed_by(settings, &[byte(uni(0), 4096)]);
    let past_stream = closed_by(Settings::small(), &[byte(uni(0), 1024)]);
    assert_eq!(past_connection.code, FLOW_CONTROL_ERROR);
    assert_eq!(past_stream.code, FLOW_CONTROL_ERROR);
    says("STREAM_LIMIT_ERROR closes");
    assert_eq!(
        closed_by(settings, &[byte(uni(8), 0)]).code,
        STREAM_LIMIT_ERROR
    );
    says("`open` returns `Blocked`");
    let mut end = server(settings);
    (0..8).for_each(|_| _ = end.open(Dir::Uni).expect("granted"));
    assert_eq!(end.open(Dir::Uni), Err(OpenFault::Blocked(8)));
}

/// What an endpoint takes as one frame of the peer opens so many streams.
fn opened(dir: Dir, count: u64) -> u64 {
    let settings = Settings::default().streams(1 << 17, 1 << 17);
    let (bytes, _) = taken(|| {
        let mut driven = Driven::new(settings, wide_limits());
        driven.open(dir, count - 1);
        driven
    });
    bytes
}

#[test]
fn one_frame_opens_all_streams() {
    says(
        "one frame opens all: 365 bytes for each bidirectional stream, 276 for each other, and 481 and 302 just past a power of two. \
         4,096 bidirectional ones take 1.5 MB, and 2^17 take 47.8 MB",
    );
    for (dir, at, past) in [(Dir::Bidi, 365, 481), (Dir::Uni, 276, 302)] {
        for count in [4096, 1 << 16, 1 << 17] {
            holds("open", opened(dir, count), count, at);
            holds("open", opened(dir, count - 4000), count - 4000, past);
        }
        holds("open", opened(dir, 4100), 4100, past);
        holds("open", opened(dir, MANY + 4), MANY + 4, past);
    }
    assert!(opened(Dir::Bidi, 4096) <= 1_500_000);
    assert!(opened(Dir::Bidi, 1 << 17) <= 47_800_000);
}

/// What the endpoint tells that its buffers take.
fn receiving(driven: &Driven) -> u64 {
    let Held { receiving, .. } = driven.end.held();
    receiving
}

#[test]
fn defaults_bound_what_a_peer_can_fill() {
    says(
        "100 streams of each direction at a time and 2^21 in all, 256 KiB a stream, 1 MiB a connection, send buffers of 256 KiB",
    );
    let (limits, end) = (Settings::default().limits(), server(Settings::default()));
    assert_eq!((limits.streams_bidi, limits.streams_uni), (100, 100));
    assert_eq!(
        [Dir::Bidi, Dir::Uni].map(|dir| end.streams_left(dir)),
        [1 << 21; 2]
    );
    assert_eq!(limits.max_data, MIB);
    assert_eq!(
        [limits.bidi_local, limits.bidi_remote, limits.uni],
        [MIB / 4; 3]
    );
    says(
        "With them a peer can make an endpoint hold 1 MiB of bytes, in buffers of at most 4 MiB and 4,096 bytes a stream*",
    );
    says(
        "Gaps take 16 MiB at most*, send buffers 25 MiB for 100 streams if nothing is acknowledged*",
    );
    let (bytes, driven) = taken(|| {
        let mut driven = Driven::new(Settings::default(), wide_limits());
        for index in 0..4 {
            let stream = driven.theirs(Dir::Uni, index);
            driven.take_all(scattered(1 << 17).map(|place| byte(stream, 2 * place + 1)));
        }
        driven
    });
    assert_eq!(driven.end.spent(), MIB);
    assert_eq!(driven.end.stored(), MIB / 2);
    assert!(receiving(&driven) <= 4 * MIB + 4 * 4096);
    assert!(bytes - receiving(&driven) <= 16 * MIB + 4 * ITSELF);
    let mut end = driven.end;
    let written: usize = (0..100)
        .map(|_| {
            let stream = end.open(Dir::Bidi).expect("granted");
            end.write(stream, &[7; 1 << 19]).expect("it is open")
        })
        .sum();
    assert_eq!(written as u64, 25 * MIB);
    assert!(end.held().sending <= 25 * MIB);
}

/// The places below a number, all but each 64th in order and then those: of each full block of runs a new one makes two.
fn scattered(count: u64) -> impl Iterator<Item = u64> {
    let is_late = |place: &u64| place % 64 == 32;
    let early = (0..count).filter(move |place| !is_late(place));
    early.chain((0..count).filter(is_late))
}

#[test]
fn a_send_buffer_takes_its_size() {
    says(
        "at most its size, until all that was written is acknowledged; then at most 4,096 bytes until the end is, too",
    );
    says("a write accepts fewer bytes, also 0");
    for size in [1000, 4096, 5000, 100_000, 1 << 18] {
        let mut driven = Driven::new(Settings::default().send_buffer(size), wide_limits());
        let stream = driven.end.open(Dir::Uni).expect("granted");
        let before = LIVE.get();
        for _ in 0..size {
            assert_eq!(driven.end.write(stream, &[7]), Ok(1));
            assert!(driven.end.held().sending <= size as u64);
        }
        assert_eq!(driven.end.write(stream, &[7]), Ok(0));
        assert!(LIVE.get() - before <= size as i64 + 4000, "{size}");
        driven.acknowledge();
        assert!(driven.end.held().sending <= 4096);
        driven.end.finish(stream).expect("it is open");
        driven.acknowledge();
        assert_eq!(driven.end.held().sending, 0);
    }
    let tuning = Tuning::default().send_window(Some(10_000));
    let settings = Settings::default();
    let mut end = Endpoint::with_tuning(Role::Client, settings, tuning, wide_limits()).expect("ok");
    let [one, other] = [(); 2].map(|()| end.open(Dir::Uni).expect("granted"));
    assert_eq!(end.write(one, &[7; 6000]), Ok(6000));
    assert_eq!(end.write(other, &[7; 6000]), Ok(4000));
}

/// What so many runs of a stream take beside their bytes.
fn runs(places: impl Iterator<Item = u64>, is_stopped: bool) -> (u64, u64) {
    let settings = Settings::default().conn_window(1 << 30);
    let (bytes, driven) = taken(|| {
        let mut driven = Driven::new(settings.stream_windows(1 << 30), wide_limits());
        let stream = driven.open(Dir::Uni, 0);
        if is_stopped {
            driven.end.stop(stream, 7).expect("it is open");
            driven.send();
        }
        driven.take_all(places.map(|place| byte(stream, 2 * place + 1)));
        driven
    });
    (bytes - receiving(&driven), driven.end.noted())
}

#[test]
fn gaps_take_memory() {
    says("none for two runs of bytes, else 16 to 33 bytes for each run");
    says(
        "every second byte of a window costs up to sixteen times the window in runs, and the buffer beside it",
    );
    says("at most half as many runs as the connection's window has bytes: 256 MiB at 2^24*");
    says("notes which offsets arrived, 16 to 33 bytes for each gap");
    says("200,000 frames held up to 6.6 MB");
    says("With the default settings the bound is 17,832, or 0.6 MB*");
    let bound = 16_384 + 2 * 200 + MIB / 1000;
    assert!(bound == 17_832 && 33 * bound <= 600_000);
    for is_stopped in [false, true] {
        for count in [1 << 12, 200_000, 1 << 16] {
            for (bytes, noted) in [
                runs(0..count, is_stopped),
                runs((0..count).rev(), is_stopped),
                runs(scattered(count), is_stopped),
            ] {
                assert_eq!(noted, count);
                holds("a run", bytes, count, 33);
            }
        }
    }
    assert!(runs(scattered(200_000), true).0 <= 6_600_000);
    assert!(runs(0..2, false).0 < 1000);
}

#[test]
fn packet_numbers_that_came() {
    says("| packet numbers received | 32 runs | 1.1 KB |");
    let mut driven = Driven::new(Settings::default(), wide_limits());
    let before = LIVE.get();
    for number in 0..64 {
        driven.take(&[Frame::Ping]);
        driven.skip_number();
        assert!(LIVE.get() - before <= 1120, "{number}");
    }
    // 64 runs of one number came, of which the highest 32 are kept.
    assert_eq!(driven.end.receive(62, &[1]), Ok(Received::BelowFloor));
    assert_eq!(driven.end.receive(64, &[1]), Ok(Received::Duplicate));
}

#[test]
fn an_ack_of_32_ranges() {
    says("| ranges of an ACK that is made | 32 | 522 bytes of the packet |");
    let mut driven = Driven::new(Settings::default(), wide_limits());
    for number in 0..40 {
        let taken = driven.end.receive(number << 50, &[1]);
        assert_eq!(taken, Ok(Received::Done));
    }
    let mut out = [0; 2000];
    let made = driven.end.make_ack((1 << 62) - 1, &mut out);
    let len = made.expect("memory").expect("an ACK is due").len;
    let Some(Ok(Frame::Ack { ranges, .. })) = frames(&out[..len]).next().map(framed) else {
        panic!("no ACK");
    };
    // The first range, then 31 gaps of eight bytes with a range each. The longest range takes eight, too.
    assert_eq!(
        (ranges.len(), len),
        (1 + 31 * 9, 1 + 8 + 8 + 1 + 1 + 31 * 9)
    );
    assert_eq!(len + 32 * 7, 522);
}

fn framed<'a>(placed: Result<Placed<'a>, WireFault>) -> Result<Frame<'a>, WireFault> {
    placed.map(|placed| placed.frame)
}

#[test]
fn rooms_payloads_and_numbers() {
    says("| room of `make_packet` | 128 to 16,383 |");
    assert_eq!((MIN_ROOM, MAX_ROOM), (128, 16_383));
    let mut end = server(Settings::default());
    for room in [127, 16_384] {
        let made = end.make_packet(&mut vec![0; room]);
        assert_eq!(made.err(), Some(MakeFault::Invalid));
    }
    says("with less than `MIN_FILL` `None` doesn't say that nothing may go");
    assert_eq!(MIN_FILL, 25);
    says("| payload that arrives | 65,535 bytes |");
    assert_eq!(MAX_PAYLOAD, 65_535);
    let long = [0; 65_536];
    assert_eq!(end.receive(0, &long), Err(ReceiveFault::Invalid));
    assert_eq!(end.receive(0, &long[1..]), Ok(Received::Done));
    says("| packet numbers, offsets, codes | below 2^62 |");
    assert_eq!(end.receive(1 << 62, &[1]), Err(ReceiveFault::Invalid));
    assert_eq!(StreamId::new(1 << 62), None);
    let stream = end.open(Dir::Uni).expect("granted");
    assert!(end.reset(stream, 1 << 62).is_err());
    assert_eq!(end.reset(stream, (1 << 62) - 1), Ok(()));
}

#[test]
fn a_room_takes_memory_for_its_pieces() {
    says("20 bytes for each byte of the longest room: 24.4 KB for 1,200");
    for (room, most) in [(1200, 24_430), (16_383, 20 * 16_383 + 430)] {
        let mut driven = Driven::new(Settings::default(), wide_limits());
        let stream = driven.end.open(Dir::Uni).expect("granted");
        assert_eq!(driven.end.write(stream, b"x"), Ok(1));
        let before = LIVE.get();
        driven.make(room).expect("a byte is pending");
        assert!(LIVE.get() - before <= most, "{}", LIVE.get() - before);
    }
}

#[test]
fn packets_outstanding() {
    says("40 bytes for each number from the first outstanding on, 81 just past a power of two");
    says("stay until the endpoint is dropped: 5.3 MB of 131,072 packets, 10.6 MB of a few more");
    let all = if cfg!(debug_assertions) {
        1 << 14
    } else {
        1 << 17
    };
    for (count, each) in [(all, 40), (all + 8, 81)] {
        let (bytes, _) = taken(|| {
            let mut driven = Driven::new(Settings::default(), wide_limits());
            let stream = driven.end.open(Dir::Uni).expect("granted");
            for _ in 0..count {
                assert_eq!(driven.end.write(stream, b"x"), Ok(1));
                driven.make(128).expect("a byte is pending");
            }
            driven.take(&[]);
            driven
        });
        holds("a packet", bytes, count, each);
    }
    let all_of = |each: u64| (each << 17) + ITSELF;
    assert!(all_of(40) <= 5_300_000 && all_of(81) <= 10_650_000);
}

#[test]
fn lost_packets_are_kept() {
    says("what they carried: 2.7 MB where each had 170 frames");
    const FRAMES: u64 = 170;
    let mut driven = Driven::new(Settings::default(), wide_limits());
    let streams: Vec<_> = (0..FRAMES)
        .map(|_| driven.end.open(Dir::Uni).expect("granted"))
        .collect();
    let mut numbers = Vec::with_capacity(300);
    for _ in 0..256 {
        for stream in &streams {
            assert_eq!(driven.end.write(*stream, b"x"), Ok(1));
        }
        numbers.push(driven.make(1200).expect("bytes are pending"));
    }
    let sent = driven.end.next_number();
    for number in numbers {
        driven.end.declare_lost(number).expect("outstanding");
    }
    driven.send();
    let late = LIVE.get();
    driven.take_acks_from(sent);
    let with = LIVE.get();
    driven.take(&[]);
    let bytes = (with - LIVE.get()) as u64;
    assert!(late >= with && bytes <= 2_700_000, "{bytes}");
}

/// What `held` may say of the receiving side: four times the credit used beyond what was taken, and 4,096 bytes for each half that keeps
/// bytes.
fn is_within_credit(driven: &Driven, halves: u64) {
    let used = driven.end.spent() - driven.end.taken_sum();
    let held = receiving(driven);
    assert!(
        held <= 4 * used + 4096 * halves,
        "{held} bytes, {used} used, {halves} halves"
    );
    assert!(driven.end.stored() <= held);
}

#[test]
fn receive_buffers_follow_the_credit_that_was_used() {
    says(
        "All together take at most four times the credit that the peer used beyond what you read, and 4,096 bytes for each stream whose end \
         you haven't read",
    );
    let mut apart = Driven::new(Settings::default(), wide_limits());
    let stream = apart.theirs(Dir::Uni, 0);
    // A byte in each page of 2 KiB takes as much as all of it: more than four times the bytes.
    for place in 0..100 {
        apart.take(&[byte(stream, 2048 * place)]);
        is_within_credit(&apart, 1);
    }
    assert_eq!(receiving(&apart), 1 << 18);
    // Streams that were read empty and aren't over.
    let mut empty = Driven::new(Settings::default(), wide_limits());
    for index in 0..100 {
        let stream = empty.theirs(Dir::Uni, index);
        empty.take(&[Frame::Stream {
            stream,
            offset: 0,
            fin: false,
            bytes: &[7; 1000],
        }]);
        is_within_credit(&empty, index + 1);
        let bytes = empty.end.read(stream, &mut [0; 1000]);
        assert_eq!(bytes, Ok(Read::Bytes(1000)));
        is_within_credit(&empty, index + 1);
    }
    says(
        "A receive buffer of at most 4,096 bytes also stays if the last byte was read, but never the end",
    );
    assert_eq!((empty.end.stored(), receiving(&empty)), (0, 102_400));
}

#[test]
fn receive_buffers_of_any_frames_stay_within_it() {
    const STREAMS: u64 = 8;
    let bytes = [7; 4000];
    for seed in 0..20 {
        let mut random = Random::new(seed);
        let mut driven = Driven::new(Settings::default(), wide_limits());
        driven.open(Dir::Uni, STREAMS - 1);
        let room = |end: &Endpoint| MIB - (end.spent() - end.taken_sum());
        for _ in 0..1000 {
            let stream = driven.theirs(Dir::Uni, random.below(STREAMS));
            if random.chance(30) {
                let most = random.below(3000) as usize;
                let read = driven.end.read(stream, &mut vec![0; most]);
                assert!(matches!(read, Ok(Read::Bytes(_) | Read::Wait)));
            } else if room(&driven.end) > 40_000 {
                let from = driven.end.taken(stream).expect("it is open");
                let reach = if random.chance(50) { 3000 } else { 30_000 };
                let offset = from + random.below(reach);
                let len = 1 + random.below(4000) as usize;
                driven.take(&[Frame::Stream {
                    stream,
                    offset,
                    fin: false,
                    bytes: &bytes[..len],
                }]);
            }
            driven.send();
            is_within_credit(&driven, STREAMS);
        }
    }
}

#[test]
fn a_receive_buffer_grows_and_goes() {
    says("The first byte of a stream takes 64 bytes");
    says("two bytes at the two edges of a window take two small pieces");
    let settings = Settings::default()
        .conn_window(1 << 28)
        .stream_windows(1 << 28);
    let mut driven = Driven::new(settings, wide_limits());
    let (first, last) = (driven.theirs(Dir::Uni, 0), (1 << 28) - 1);
    driven.take(&[byte(first, 0)]);
    assert_eq!(receiving(&driven), 64);
    driven.take(&[byte(first, last)]);
    assert_eq!(receiving(&driven), 64 + 2048);
    says(
        "A buffer grows to at most twice as far as its last byte lies past what was read, or to 4,096 bytes",
    );
    says(
        "One that had more than 4,096 bytes goes once all was read, and the next begins with 4,096",
    );
    let mut driven = Driven::new(settings, wide_limits());
    let stream = driven.theirs(Dir::Uni, 0);
    let mut read = 0;
    for len in [1, 60, 63, 64, 65, 1000, 4096, 5000, 9000, 20_000] {
        let bytes = vec![7; len];
        driven.take(&[Frame::Stream {
            stream,
            offset: read,
            fin: false,
            bytes: &bytes,
        }]);
        let held = receiving(&driven);
        assert!(held <= (2 * len as u64).max(4096), "{len}");
        assert_eq!(
            driven.end.read(stream, &mut vec![0; len]),
            Ok(Read::Bytes(len))
        );
        read += len as u64;
        let goes = held > 4096;
        assert_eq!(receiving(&driven), if goes { 0 } else { held });
        driven.take(&[byte(stream, read)]);
        assert_eq!(receiving(&driven), if goes { 4096 } else { held });
        assert_eq!(driven.end.read(stream, &mut [0]), Ok(Read::Bytes(1)));
        read += 1;
        assert!(receiving(&driven) <= 4096);
    }
}

#[test]
fn a_byte_in_each_page_takes_a_window() {
    says(
        "16,380 frames of a byte, one in each page, make a stream hold 34.4 MB of a window of 2^28",
    );
    let settings = Settings::default()
        .conn_window(1 << 28)
        .stream_windows(1 << 28);
    let (bytes, driven) = taken(|| {
        let mut driven = Driven::new(settings, wide_limits());
        let stream = driven.theirs(Dir::Uni, 0);
        driven.take_all((1..=16_380).rev().map(|page| byte(stream, 2048 * page)));
        driven.take(&[byte(stream, 0)]);
        driven
    });
    assert!(bytes <= 34_400_000, "{bytes}");
    is_within_credit(&driven, 1);
}

/// What other suites hold.
const ELSEWHERE: &[(&str, &str)] = &[
    (
        "holds each figure as an upper bound",
        "rust/tests/limits.rs",
    ),
    (
        "an ended stream keeps its windows in 32 bits",
        "crates/qs_send/src/half.rt",
    ),
    (
        "An endpoint without streams takes 5,792",
        "rust/tests/held.rs",
    ),
    (
        "A PING, and the packet that answers it, leave 664",
        "rust/tests/held.rs",
    ),
    (
        "the widest connection window that was ever set: proved",
        "crates/qs_machine/specs/Standing.antt",
    ),
    (
        "What `held` returns is proved to lie in a band",
        "crates/qs_conn/specs/Held.antt",
    ),
    ("`noted`", "embed/quinn/faults.rs"),
    ("16 MiB. Its run", "tests/front/papers"),
    ("status 3", "tests/front/papers"),
    ("reason 8, or 6", "tests/front/papers"),
    ("10,000 events", "rust/qstream/tests/proved_program.rs"),
    ("4,096; 65,536", "rust/qstream/tests/proved_program.rs"),
    ("1 MiB of text", "qstream"),
];

/// What `says` has in this file and in that of streams that ended.
fn held_here() -> Vec<String> {
    let source = [include_str!("limits.rs"), include_str!("ended.rs")].concat();
    let source = source.replace("\\\n", "");
    let calls = source.split("says(").skip(1);
    let words = calls.filter_map(|call| call.trim_start().strip_prefix('"'));
    words
        .filter_map(|rest| rest.split_once('"'))
        .map(|(words, _)| plain(words))
        .collect()
}

/// With each run of blanks as one, and without the standard's sections and what links lead to.
fn plain(words: &str) -> String {
    words.split_whitespace().collect::<Vec<_>>().join(" ")
}

/// Each sentence, and each cell of a table.
fn units(page: &str) -> Vec<String> {
    let mut units = Vec::new();
    for line in page.lines() {
        if let Some(row) = line.strip_prefix('|') {
            units.extend(row.split('|').map(plain));
        } else {
            units.extend(line.split_inclusive(". ").map(plain));
        }
    }
    units
}

/// Whether it has a figure, or says that something is proved. Sections of a standard are no figures, nor are names of files.
fn asks_for_a_test(unit: &str) -> bool {
    let mut words = unit.split_whitespace().peekable();
    let mut asks = false;
    while let Some(word) = words.next() {
        let names = ["RFC", "(RFC", "section", "(section", "sections"];
        if names.contains(&word) {
            words.next();
        } else {
            let bare = word.split("](").next().unwrap_or(word);
            asks |= word.starts_with("proved") || bare.contains(|c: char| c.is_ascii_digit());
        }
    }
    asks
}

#[test]
fn each_figure_of_the_page_is_held() {
    let Some(page) = page() else {
        println!("skipped: docs/LIMITS.md isn't there");
        return;
    };
    let page = page.split("## What isn't here").next().expect("a part");
    for (words, file) in ELSEWHERE {
        assert!(page.contains(words), "docs/LIMITS.md doesn't say: {words}");
        assert!(root().join(file).exists(), "{file} isn't there");
    }
    let mut held = held_here();
    held.extend(ELSEWHERE.iter().map(|(words, _)| plain(words)));
    let is_held = |unit: &String| {
        held.iter()
            .any(|h| unit.contains(h.as_str()) || h.contains(unit))
    };
    let open: Vec<_> = units(page)
        .into_iter()
        .filter(|unit| asks_for_a_test(unit) && !is_held(unit))
        .collect();
    assert!(open.is_empty(), "no test holds:\n{}", open.join("\n"));
}
