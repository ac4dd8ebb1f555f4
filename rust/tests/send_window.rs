//! One bound over what all streams keep until it is acknowledged, beside a plain count.

#[path = "support/refusing.rs"]
mod refusing;
mod support;

use gotsavena::{Dir, Endpoint, Event, Read, Received, Role, Settings, StreamId, Tuning, UseFault};
use refusing::{asked, refused};
use support::Random;

fn bounded(window: u64, tuning: Tuning, settings: Settings) -> [Endpoint; 2] {
    let tuning = tuning.send_window(Some(window));
    [Role::Client, Role::Server].map(|role| {
        Endpoint::with_tuning(role, settings, tuning, settings.limits()).expect("in range")
    })
}

/// A packet goes over, if one is due, and its number is told.
fn pass(ends: &mut [Endpoint; 2], from: usize) -> Option<u64> {
    let mut payload = [0; 1200];
    let made = ends[from].make_packet(&mut payload).expect("open")?;
    let taken = ends[1 - from].receive(made.number, &payload[..made.len]);
    assert_eq!(taken, Ok(Received::Done));
    Some(made.number)
}

fn news(end: &mut Endpoint) -> Vec<Event> {
    std::iter::from_fn(|| end.next_event().expect("there is memory")).collect()
}

#[test]
fn the_second_stream_hears_once_the_first_is_acknowledged() {
    let mut ends = bounded(10, Tuning::default(), Settings::small());
    let [one, other] = [(); 2].map(|()| ends[0].open(Dir::Uni).expect("granted"));
    assert_eq!((ends[0].room(one), ends[0].room(other)), (10, 10));
    assert_eq!(ends[0].write(one, &[1; 8]), Ok(8));
    assert_eq!((ends[0].room(one), ends[0].room(other)), (2, 2));
    assert_eq!(ends[0].write(other, &[2; 8]), Ok(2));
    assert_eq!((ends[0].room(one), ends[0].room(other)), (0, 0));
    // A stream with room of its own is found as before; its write takes nothing.
    assert_eq!(ends[0].next_writable(one), Some(one));
    assert_eq!(news(&mut ends[0]), []);
    // That its bytes were sent frees nothing: they are kept.
    pass(&mut ends, 0);
    assert_eq!((ends[0].kept_sum(), ends[0].unsent_sum()), (10, 0));
    assert_eq!(news(&mut ends[0]), []);
    pass(&mut ends, 1);
    assert_eq!(ends[0].kept_sum(), 0);
    assert_eq!(news(&mut ends[0]), [Event::Writable(other)]);
    assert_eq!(ends[0].write(other, &[2; 6]), Ok(6));
    assert_eq!(news(&mut ends[0]), []);
}

#[test]
fn a_reset_frees_what_its_stream_kept() {
    let mut ends = bounded(10, Tuning::default(), Settings::small());
    let [one, other] = [(); 2].map(|()| ends[0].open(Dir::Uni).expect("granted"));
    assert_eq!(ends[0].write(one, &[1; 10]), Ok(10));
    assert_eq!(ends[0].write(other, &[2; 1]), Ok(0));
    assert_eq!(news(&mut ends[0]), []);
    ends[0].reset(one, 7).expect("open");
    assert_eq!(news(&mut ends[0]), [Event::Writable(other)]);
    assert_eq!(ends[0].room(other), 10);
}

#[test]
fn a_window_that_is_used_up_takes_nothing_and_asks_for_no_memory() {
    let mut ends = bounded(10, Tuning::default(), Settings::small());
    let [one, other, finished] = [(); 3].map(|()| ends[0].open(Dir::Uni).expect("granted"));
    ends[0].finish(finished).expect("open");
    assert_eq!(ends[0].write(one, &[1; 10]), Ok(10));
    // A note that the stream waits is all that memory is asked for, and only once.
    assert_eq!(ends[0].write(other, b"x"), Ok(0));
    assert_eq!(refused(0, || ends[0].write(other, b"x")), (Ok(0), false));
    assert_eq!(refused(0, || ends[0].write(other, b"")), (Ok(0), false));
    let (write, _) = refused(0, || ends[0].write(finished, b"x"));
    assert_eq!(write, Err(UseFault::Finished));
    // Each allocation is refused: then nothing is kept.
    let mut ends = bounded(10, Tuning::default(), Settings::small());
    let stream = ends[0].open(Dir::Uni).expect("granted");
    for which in 0.. {
        let (write, _) = refused(which, || ends[0].write(stream, &[1; 11]));
        if write.is_ok() {
            assert_eq!((write, ends[0].kept_sum()), (Ok(10), 10));
            assert!(asked() > 0);
            break;
        }
        assert_eq!(write, Err(UseFault::NoMemory));
        assert_eq!(ends[0].kept_sum(), 0);
    }
}

#[test]
fn no_window_and_the_greatest_one_bound_nothing() {
    let settings = Settings::small().send_buffer(30);
    for window in [None, Some(u64::MAX)] {
        let tuning = Tuning::default().send_window(window);
        let mut end = Endpoint::with_tuning(Role::Client, settings, tuning, settings.limits())
            .expect("in range");
        for _ in 0..3 {
            let stream = end.open(Dir::Uni).expect("granted");
            assert_eq!(end.room(stream), 30);
            assert_eq!(end.write(stream, &[1; 40]), Ok(30));
        }
        assert_eq!(end.kept_sum(), 90);
    }
    assert_eq!(Tuning::default().send_window(None), Tuning::default());
    let mut ends = bounded(0, Tuning::default(), settings);
    let stream = ends[0].open(Dir::Uni).expect("granted");
    assert_eq!(
        (ends[0].room(stream), ends[0].write(stream, b"x")),
        (0, Ok(0))
    );
}

/// How many bytes of a stream are kept.
fn kept(end: &Endpoint, stream: StreamId) -> u64 {
    let send = end.report(stream).and_then(|report| report.send);
    let send = send.expect("open");
    match send.reset_code {
        Some(_code) => 0,
        None => send.written - end.acked_below(stream).expect("open"),
    }
}

/// What `room` tells and a write takes is what the plain count leaves, and no more than the window is kept. Tells how many writes found
/// it used up.
fn run(seed: u64) -> u64 {
    let mut random = Random::new(seed);
    let window = [40, 100, 170, 1000][seed as usize % 4];
    let settings = Settings::small().stream_windows(90).send_buffer(70);
    let tuning = Tuning::default().within_credit(seed % 3 == 0);
    let mut ends = bounded(window, tuning, settings);
    let mut streams = Vec::new();
    for _ in 0..4 {
        streams.push(ends[0].open(Dir::Uni).expect("granted"));
    }
    let (mut made, mut full) = (Vec::new(), 0);
    for _ in 0..400 {
        let stream = streams[random.below(4) as usize];
        match random.below(12) {
            0..=4 => {
                let count = random.below(100);
                let (room, sum) = (ends[0].room(stream), ends[0].kept_sum());
                match ends[0].write(stream, &vec![7; count as usize]) {
                    Ok(taken) => {
                        assert_eq!(taken as u64, count.min(room));
                        assert_eq!(ends[0].kept_sum(), sum + taken as u64);
                        full += u64::from(sum == window && room == 0);
                    }
                    Err(fault) => {
                        assert!(matches!(fault, UseFault::Finished | UseFault::WasReset));
                        assert_eq!(room, 0);
                    }
                }
            }
            5..=7 => made.extend(pass(&mut ends, 0)),
            8..=9 => drop(pass(&mut ends, 1)),
            10 => {
                let _ = ends[1].read(stream, &mut [0; 60]);
                if let Some(number) = made.pop() {
                    let _ = ends[0].declare_lost(number);
                }
            }
            _ if random.below(12) == 0 => drop(ends[0].reset(stream, 1)),
            _ => {}
        }
        let sum: u64 = streams.iter().map(|&stream| kept(&ends[0], stream)).sum();
        assert_eq!(ends[0].kept_sum(), sum);
        assert!(sum <= window);
        for &stream in &streams {
            assert!(ends[0].room(stream) <= window - sum);
        }
    }
    // All that was written goes at last, in spite of the window.
    for _ in 0..100 {
        while pass(&mut ends, 0).is_some() || pass(&mut ends, 1).is_some() {}
        for &stream in &streams {
            while let Ok(Read::Bytes(_)) = ends[1].read(stream, &mut [0; 60]) {}
        }
    }
    assert_eq!(ends[0].kept_sum(), 0);
    full
}

#[test]
fn random_runs_keep_within_the_window() {
    let full: u64 = (1..=200).map(run).sum();
    assert!(full > 1000, "{full} writes found the window used up");
}
