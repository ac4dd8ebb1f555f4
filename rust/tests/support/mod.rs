//! What the tests share: random numbers, and scripts (docs/QSTREAM.md) that are played over two ends.
#![allow(dead_code)]

pub mod doubled;
pub mod pairs;
pub mod program;

use gotsavena::{
    Dir, Endpoint, LostFault, Made, MakeFault, OpenFault, Read, ReceiveFault, Received, Role,
    SendState, Settings, StreamId, UseFault,
};
use std::fmt::Write;

/// Random numbers: splitmix64.
pub struct Random(u64);

impl Random {
    pub fn new(seed: u64) -> Random {
        Random(seed)
    }

    pub fn word(&mut self) -> u64 {
        self.0 = self.0.wrapping_add(0x9e37_79b9_7f4a_7c15);
        let mut word = self.0;
        word = (word ^ (word >> 30)).wrapping_mul(0xbf58_476d_1ce4_e5b9);
        word = (word ^ (word >> 27)).wrapping_mul(0x94d0_49bb_1331_11eb);
        word ^ (word >> 31)
    }

    /// A number below this one.
    pub fn below(&mut self, end: u64) -> u64 {
        self.word() % end
    }

    pub fn chance(&mut self, of_a_hundred: u64) -> bool {
        self.below(100) < of_a_hundred
    }

    pub fn bytes(&mut self, count: usize) -> Vec<u8> {
        (0..count).map(|_| self.word() as u8).collect()
    }
}

pub fn two_ends(settings: Settings) -> [Endpoint; 2] {
    let end = |role| Endpoint::new(role, settings, settings.limits()).expect("the settings fit");
    [end(Role::Client), end(Role::Server)]
}

pub fn hex(bytes: &[u8]) -> String {
    bytes.iter().fold(String::new(), |mut text, byte| {
        _ = write!(text, "{byte:02x}");
        text
    })
}

pub fn unhex(text: &str) -> Vec<u8> {
    let digits: Vec<u8> = text
        .chars()
        .filter_map(|c| c.to_digit(16))
        .map(|digit| digit as u8)
        .collect();
    digits
        .chunks(2)
        .map(|pair| pair[0] * 16 + pair[1])
        .collect()
}

// The packets that are outstanding, in order.
fn outstanding(end: &Endpoint) -> Vec<u64> {
    let mut next = end.next_outstanding(0);
    let numbers = std::iter::from_fn(|| {
        let number = next?;
        next = end.next_outstanding(number + 1);
        Some(number)
    });
    numbers.collect()
}

/// Two ends, A the client and B the server, and the payloads that they made.
pub struct Player {
    pub ends: [Endpoint; 2],
    pub made: [Vec<Vec<u8>>; 2],
    /// Called as each call of an end begins and as it returns.
    pub around: fn(bool),
}

impl Player {
    pub fn new(settings: Settings) -> Player {
        Player {
            ends: two_ends(settings),
            made: [Vec::new(), Vec::new()],
            around: |_| {},
        }
    }

    /// Plays a script, and answers what `qstream play` prints.
    pub fn play(&mut self, script: &str) -> String {
        let mut text = String::new();
        for line in script.lines() {
            let answer = self.line(line);
            _ = writeln!(text, "{line} -> {answer}");
        }
        text + &self.report()
    }

    /// Plays a line of a script, and tells the answer.
    pub fn line(&mut self, line: &str) -> String {
        let words: Vec<&str> = line.split(' ').collect();
        let side = usize::from(words[1] == "B");
        let number = |word: usize| words[word].parse::<u64>().expect("a number");
        let stream = |word: usize| StreamId::new(number(word)).expect("a stream's number");
        match words[0] {
            "open" if words[2] == "bidi" => told_opened(self.call(side, |e| e.open(Dir::Bidi))),
            "open" => told_opened(self.call(side, |e| e.open(Dir::Uni))),
            "accept" => self
                .call(side, Endpoint::accept)
                .map_or("none".into(), |stream| format!("stream {stream}")),
            "write" => {
                let bytes = unhex(words[3]);
                match self.call(side, |e| e.write(stream(2), &bytes)) {
                    Ok(count) => format!("wrote {count}"),
                    Err(fault) => told_use(fault),
                }
            }
            "finish" => told_done(self.call(side, |e| e.finish(stream(2)))),
            "reset" => told_done(self.call(side, |e| e.reset(stream(2), number(3)))),
            "stop" => told_done(self.call(side, |e| e.stop(stream(2), number(3)))),
            "read" => {
                let mut into = vec![0; number(3) as usize];
                let read = self.call(side, |e| e.read(stream(2), &mut into));
                told_read(read, &into)
            }
            "make" => self.make(side, number(2) as usize),
            "lose" => match self.call(side, |e| e.declare_lost(number(2))) {
                Ok(()) => "ok".into(),
                Err(LostFault::NotOutstanding) => "not-outstanding".into(),
                Err(LostFault::NoMemory) => "no-memory".into(),
                Err(LostFault::Closed) => "closed".into(),
                Err(_) => unreachable!(),
            },
            "deliver" => {
                let payload = self.made[side][number(2) as usize].clone();
                self.deliver(1 - side, number(2), &payload)
            }
            word => panic!("no event: {word}"),
        }
    }

    fn call<T>(&mut self, side: usize, call: impl FnOnce(&mut Endpoint) -> T) -> T {
        (self.around)(true);
        let answer = call(&mut self.ends[side]);
        (self.around)(false);
        answer
    }

    // What was told as it was newly acknowledged was outstanding and isn't any more, whatever came of the payload.
    fn deliver(&mut self, side: usize, number: u64, payload: &[u8]) -> String {
        let before = outstanding(&self.ends[side]);
        let mut told = Vec::with_capacity(before.len());
        let received = self.call(side, |end| {
            end.receive_with_acks(number, payload, |number| told.push(number))
        });
        let after = outstanding(&self.ends[side]);
        let gone = before.iter().filter(|number| !after.contains(number));
        told.sort_unstable();
        assert!(told.iter().eq(gone), "{told:?} of {before:?}");
        told_received(received)
    }

    fn make(&mut self, side: usize, room: usize) -> String {
        let mut out = vec![0; room];
        match self.call(side, |e| e.make_packet(&mut out)) {
            Ok(Some(Made { number, len, .. })) => {
                assert_eq!(number, self.made[side].len() as u64);
                self.made[side].push(out[..len].to_vec());
                format!("packet {number} {}", hex(&out[..len]))
            }
            Ok(None) => "nothing".into(),
            Err(MakeFault::Closed) => "closed".into(),
            Err(MakeFault::NoMemory) => "no-memory".into(),
            Err(MakeFault::Exhausted) => "exhausted".into(),
            Err(_) => unreachable!(),
        }
    }

    /// The lines of a report behind those of the events.
    pub fn report(&self) -> String {
        let mut text = String::new();
        for index in 0.. {
            let before = text.len();
            for kind in 0..4 {
                let stream = StreamId::new(index * 4 + kind).expect("a stream's number");
                self.push_lane(&mut text, stream, 0);
                self.push_lane(&mut text, stream, 1);
            }
            if text.len() == before {
                break;
            }
        }
        for (name, end) in ["A", "B"].into_iter().zip(&self.ends) {
            let (spent, granted, stored) = (end.spent(), end.granted(), end.stored());
            _ = write!(
                text,
                "end {name} spent {spent} granted {granted} stored {stored}"
            );
            if let Some(closing) = end.closing() {
                let (code, frame_type) = (closing.code, closing.frame_type);
                _ = write!(
                    text,
                    " closing {code:#04x} {frame_type:#04x} {}",
                    closing.place
                );
            }
            text.push('\n');
        }
        text
    }

    fn push_lane(&self, text: &mut String, stream: StreamId, sender: usize) {
        let send = self.ends[sender].report(stream).and_then(|r| r.send);
        let recv = self.ends[1 - sender].report(stream).and_then(|r| r.recv);
        if send.is_none() && recv.is_none() {
            return;
        }
        let size = |size: Option<u64>| size.map_or("none".into(), |size| size.to_string());
        let is_received = send.is_some_and(|half| half.state == SendState::DataRecvd);
        _ = writeln!(
            text,
            "lane {} {stream} written {} read {} received {} declared {} known {}",
            ["A", "B"][sender],
            send.map_or(0, |half| half.written),
            recv.map_or(0, |half| half.read_count),
            if is_received { "yes" } else { "no" },
            size(send.and_then(|half| half.final_size)),
            size(recv.and_then(|half| half.final_size)),
        );
    }
}

fn told_opened(opened: Result<StreamId, OpenFault>) -> String {
    match opened {
        Ok(stream) => format!("stream {stream}"),
        Err(OpenFault::Blocked(count)) => format!("blocked {count}"),
        Err(OpenFault::Closed) => "closed".into(),
        Err(OpenFault::NoMemory) => "no-memory".into(),
        Err(_) => unreachable!(),
    }
}

fn told_use(fault: UseFault) -> String {
    match fault {
        UseFault::NoSuchStream => "no-such-stream",
        UseFault::WrongDirection => "wrong-direction",
        UseFault::Finished => "finished",
        UseFault::WasReset => "was-reset",
        UseFault::Closed => "closed",
        UseFault::NoMemory => "no-memory",
        _ => unreachable!(),
    }
    .into()
}

fn told_done(done: Result<(), UseFault>) -> String {
    done.map_or_else(told_use, |()| "ok".into())
}

fn told_read(read: Result<Read, UseFault>, into: &[u8]) -> String {
    match read {
        Ok(Read::Bytes(0)) => "bytes -".into(),
        Ok(Read::Bytes(count)) => format!("bytes {}", hex(&into[..count])),
        Ok(Read::End) => "end".into(),
        Ok(Read::Reset(code)) => format!("reset {code}"),
        Ok(Read::Wait) => "wait".into(),
        Err(fault) => told_use(fault),
    }
}

fn told_received(received: Result<Received, ReceiveFault>) -> String {
    match received {
        Ok(Received::Done) => "done".into(),
        Ok(Received::Duplicate) => "duplicate".into(),
        Ok(Received::BelowFloor) => "below-floor".into(),
        Ok(Received::PeerClosed(code)) => format!("peer-closed {code}"),
        Ok(Received::NoMemory) => "no-memory".into(),
        Err(ReceiveFault::Closing(closing)) => {
            let (code, frame_type) = (closing.code, closing.frame_type);
            format!("closing {code:#04x} {frame_type:#04x} {}", closing.place)
        }
        _ => unreachable!(),
    }
}
