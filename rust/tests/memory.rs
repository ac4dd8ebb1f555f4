//! Each allocation is refused in turn: nothing aborts, the call answers that it found no memory, and after one more try
//! every later answer is the same. And no call asks for memory but those that are listed.

#[path = "support/refusing.rs"]
mod refusing;
mod support;

use gotsavena::{Dir, Endpoint, Fill, Filled, MakeFault, Role, Settings, StreamId};
use refusing::{asked, refuse, refused, watch, watched};
use support::{Player, Random};

/// The lines of a script in which much happens. It is made while it is played, as it has to know how many packets there
/// are.
fn script(seed: u64, events: usize) -> Vec<String> {
    let mut random = Random::new(seed);
    let mut player = Player::new(Settings::small());
    let mut lines = Vec::new();
    while lines.len() < events {
        let line = next_line(&mut random, &player);
        player.line(&line);
        lines.push(line);
    }
    lines
}

fn next_line(random: &mut Random, player: &Player) -> String {
    let side = random.below(2) as usize;
    let end = ["A", "B"][side];
    let (stream, code) = (random.below(12), random.below(8));
    let packets = player.made[side].len() as u64;
    match random.below(16) {
        0 | 1 => format!(
            "open {end} {}",
            if random.chance(50) { "bidi" } else { "uni" }
        ),
        2 => format!("accept {end}"),
        3..=5 => {
            let count = 1 + random.below(200) as usize;
            format!(
                "write {end} {stream} {}",
                support::hex(&random.bytes(count))
            )
        }
        6 if random.chance(30) => format!("reset {end} {stream} {code}"),
        6 if random.chance(30) => format!("stop {end} {stream} {code}"),
        6 => format!("finish {end} {stream}"),
        7 | 8 => format!("read {end} {stream} {}", 1 + random.below(200)),
        9..=11 => format!("make {end} {}", 128 + random.below(300)),
        12 if packets > 0 => format!("lose {end} {}", random.below(packets)),
        _ if packets > 0 => format!("deliver {end} {}", random.below(packets)),
        _ => format!("make {end} 128"),
    }
}

struct Played {
    answers: Vec<String>,
    asked: u64,
    refusals: usize,
}

fn play(lines: &[String], refused: u64) -> Played {
    refuse(refused);
    let mut player = Player::new(Settings::small());
    player.around = watch;
    let (mut answers, mut refusals) = (Vec::new(), 0);
    for line in lines {
        let mut answer = player.line(line);
        if answer == "no-memory" {
            refusals += 1;
            answer = player.line(line);
        }
        answers.push(answer);
    }
    let asked = asked();
    answers.push(player.report());
    Played {
        answers,
        asked,
        refusals,
    }
}

#[test]
fn each_allocation_may_be_refused() {
    let (mut all, mut told) = (0, 0);
    for seed in 0..6 {
        let lines = script(seed, 300);
        let plain = play(&lines, u64::MAX);
        assert_eq!(plain.refusals, 0);
        all += plain.asked;
        for refused in 0..plain.asked {
            let played = play(&lines, refused);
            for (place, line) in lines.iter().enumerate() {
                let (was, is) = (&plain.answers[place], &played.answers[place]);
                assert_eq!(
                    was, is,
                    "seed {seed}, allocation {refused}, line {place}: {line}"
                );
            }
            assert_eq!(
                plain.answers, played.answers,
                "seed {seed}, allocation {refused}"
            );
            assert!(played.refusals <= 1, "seed {seed}, allocation {refused}");
            told += played.refusals;
        }
    }
    assert!(all > 300 && told > 200, "{all} allocations, {told} told");
    println!("{all} allocations were refused in turn; {told} times a call told so");
    println!("figure refused_allocations {all}");
}

/// The calls of an end that take memory, as scripts name them; the last is what the peer's `receive` takes.
const TAKING: [&str; 5] = ["open", "write", "make", "lose", "deliver"];

/// Scripts in which a packet is lost and sent again, its acknowledgement comes late, and a reset overtakes its bytes.
const SHORT: [&str; 3] = [
    "open A bidi,write A 0 68656c6c6f,finish A 0,make A 1200,lose A 0,make A 1200,deliver A 1,deliver A 0,accept B,read B 0 16,read B 0 16,make B 1200,deliver B 0",
    "open A bidi,write A 0 68656c6c6f,finish A 0,make A 1200,lose A 0,make A 1200,deliver A 0,accept B,read B 0 16,read B 0 16,make B 1200,deliver B 0",
    "open A bidi,write A 0 616263,make A 1200,reset A 0 7,make A 1200,deliver A 1,deliver A 0,read B 0 16,make B 1200,deliver B 0",
];

// What an end is asked takes no memory, and neither does what it writes of itself.
fn questions(end: &mut Endpoint, number: u64) {
    let stream = StreamId::new(number).expect("a stream's number");
    let mut out = [0; 64];
    _ = (end.stored(), end.granted(), end.spent(), end.held());
    _ = (end.report(stream), end.closing(), end.peer_closed());
    _ = (end.close_payload(&mut out), end.next_number());
    _ = (end.granted_streams(Dir::Bidi), end.streams_left(Dir::Uni));
    _ = (end.open_left(Dir::Bidi), end.stopped_with(stream));
    _ = (end.is_sendable(), end.is_blocked(stream), end.ack_is_due());
    _ = (end.credit_left(), end.room(stream));
    _ = (end.unsent(stream), end.acked_below(stream));
    _ = (end.kept_sum(), end.peek(stream).is_ok());
    _ = (end.next_readable(stream), end.next_sendable(stream));
    _ = (end.next_writable(stream), end.next_ended(stream));
    _ = end.next_outstanding(number);
    _ = end.raise_limits(Settings::small().limits());
    _ = (end.set_conn_window(4096), end.set_grant(Dir::Bidi, 8));
}

// How often each of the calls that may ask for memory asked.
fn counted(lines: &[String], counts: &mut [u64; 5]) {
    let mut player = Player::new(Settings::small());
    player.around = watch;
    for line in lines {
        refuse(u64::MAX);
        player.line(line);
        let word = line.split(' ').next().expect("a word");
        match TAKING.iter().position(|taking| *taking == word) {
            Some(place) => counts[place] += asked(),
            None => assert_eq!(asked(), 0, "{line}"),
        }
        refuse(u64::MAX);
        watched(|| {
            for end in &mut player.ends {
                (0..4).for_each(|number| questions(end, number));
            }
        });
        assert_eq!(asked(), 0, "a question behind {line}");
    }
    watched(|| {
        for end in &mut player.ends {
            let made = end.make_ack(0, &mut [0; 128]);
            assert!(made.is_ok() && end.claim_number().is_ok());
        }
    });
    assert_eq!(asked(), 0, "an ACK alone, or a number of another packet");
}

#[test]
fn no_call_asks_but_those_that_are_listed() {
    let settings = Settings::small();
    refuse(u64::MAX);
    let ends = watched(|| {
        [Role::Client, Role::Server].map(|role| Endpoint::new(role, settings, settings.limits()))
    });
    assert!(ends.iter().all(Result::is_ok));
    assert_eq!(asked(), 0, "a new end");
    let mut counts = [0; 5];
    for row in SHORT {
        let lines: Vec<String> = row.split(',').map(String::from).collect();
        counted(&lines, &mut counts);
    }
    for seed in 0..200 {
        counted(&script(seed, 300), &mut counts);
    }
    assert!(counts.iter().all(|count| *count > 0), "{counts:?}");
    println!("{TAKING:?} asked {counts:?} times");
}

// An end that has bytes to send and no control item.
fn with_bytes() -> Endpoint {
    let settings = Settings::small();
    let mut end = Endpoint::new(Role::Client, settings, settings.limits()).expect("within range");
    let stream = end.open(Dir::Uni).expect("granted");
    end.write(stream, b"some bytes").expect("room");
    end
}

// What a fill answers and writes of which this allocation is refused, and whether there was one.
fn filled(
    end: &mut Endpoint,
    want: Fill,
    which: u64,
) -> (Result<Option<Filled>, MakeFault>, [u8; 64], bool) {
    let mut out = [0; 64];
    let (answer, was_refused) = refused(which, || end.fill(&mut out, &want));
    (answer, out, was_refused)
}

#[test]
fn a_fill_without_memory_changes_nothing() {
    let (wanted, text, _) = filled(&mut with_bytes(), Fill::all(), u64::MAX);
    assert!(matches!(wanted, Ok(Some(_))));
    let mut refusals = 0;
    for refused in 0.. {
        let mut end = with_bytes();
        let (answer, out, was_refused) = filled(&mut end, Fill::all(), refused);
        if !was_refused {
            break;
        }
        if answer == Err(MakeFault::NoMemory) {
            refusals += 1;
            assert_eq!(out, [0; 64]);
            let again = filled(&mut end, Fill::all(), u64::MAX);
            assert_eq!((again.0, again.1), (wanted, text));
        } else {
            // It did without.
            assert_eq!((answer, out), (wanted, text));
        }
        // Where nothing that is asked for may go, no memory is missed.
        let (answer, ..) = filled(&mut with_bytes(), Fill::control(), refused);
        assert_eq!(answer, Ok(None));
    }
    assert!(refusals > 0);
}

/// What std's traits answer of a stream where no memory is left, and that they ask for none.
#[cfg(feature = "std")]
mod io {
    use super::support::two_ends;
    use super::{asked, refused};
    use gotsavena::{
        CloseKind, Closer, Dir, Endpoint, Frame, NotedClose, Received, Settings, StreamId, Taken,
    };
    use std::io::{self, ErrorKind, Read, Write};

    const CLOSE: NotedClose = NotedClose::new(Closer::Us, CloseKind::Application, 7);

    // The kind of the error that a call answers, none of whose allocations but this one is refused, and how many it asked for.
    fn kind_of(which: u64, call: impl FnOnce() -> io::Result<usize>) -> (ErrorKind, u64) {
        let (answer, _) = refused(which, call);
        let error = answer.expect_err("it is refused");
        assert!(error.get_ref().is_none(), "{error}");
        (error.kind(), asked())
    }

    fn write(end: &mut Endpoint, stream: StreamId) -> (ErrorKind, u64) {
        kind_of(0, || end.send_stream(stream).write(b"x"))
    }

    fn read(end: &mut Endpoint, stream: StreamId) -> (ErrorKind, u64) {
        kind_of(0, || end.recv_stream(stream).read(&mut [0; 8]))
    }

    #[test]
    fn each_error_of_a_write_takes_no_memory() {
        let [mut end, _] = two_ends(Settings::small().send_buffer(4));
        let [finished, reset, full, whole] =
            [(); 4].map(|()| end.open(Dir::Bidi).expect("granted"));
        end.finish(finished).expect("open");
        end.reset(reset, 7).expect("open");
        assert_eq!(end.write(full, b"abcde"), Ok(4));
        let [foreign, none] = [3, 400].map(|number| StreamId::new(number).expect("a number"));
        let opened = Frame::Stream {
            stream: foreign,
            offset: 0,
            fin: true,
            bytes: &[],
        };
        assert_eq!(end.take_frame(&opened), Ok(Taken::Took));
        assert_eq!(write(&mut end, finished), (ErrorKind::BrokenPipe, 0));
        assert_eq!(write(&mut end, reset), (ErrorKind::BrokenPipe, 0));
        assert_eq!(write(&mut end, full), (ErrorKind::WouldBlock, 0));
        assert_eq!(write(&mut end, foreign), (ErrorKind::InvalidInput, 0));
        assert_eq!(write(&mut end, none), (ErrorKind::NotFound, 0));
        assert_eq!(write(&mut end, whole).0, ErrorKind::OutOfMemory);
        end.note_closed(CLOSE);
        assert_eq!(write(&mut end, whole), (ErrorKind::NotConnected, 0));
    }

    #[test]
    fn each_error_of_a_read_takes_no_memory() {
        let [mut client, mut server] = two_ends(Settings::small());
        let [reset, waits] = [(); 2].map(|()| client.open(Dir::Bidi).expect("granted"));
        client.write(waits, b"a").expect("open");
        client.reset(reset, 7).expect("open");
        let mut payload = [0; 1200];
        let made = client
            .make_packet(&mut payload)
            .expect("open")
            .expect("due");
        let taken = server.receive(made.number, &payload[..made.len]);
        assert_eq!(taken, Ok(Received::Done));
        let mut bytes = [0; 8];
        server
            .recv_stream(waits)
            .read_exact(&mut bytes[..1])
            .expect("it came");
        let own = server.open(Dir::Uni).expect("granted");
        let none = StreamId::new(400).expect("a number");
        assert_eq!(read(&mut server, reset), (ErrorKind::ConnectionReset, 0));
        assert_eq!(read(&mut server, waits), (ErrorKind::WouldBlock, 0));
        assert_eq!(read(&mut server, own), (ErrorKind::InvalidInput, 0));
        assert_eq!(read(&mut server, none), (ErrorKind::NotFound, 0));
        server.note_closed(CLOSE);
        assert_eq!(read(&mut server, waits), (ErrorKind::NotConnected, 0));
    }
}
