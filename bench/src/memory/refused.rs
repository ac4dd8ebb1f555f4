//! A short transfer, repeated once for each of its allocations, which is refused. The call that returns `NoMemory` is made again, and no
//! byte is lost.

use crate::Two;
use crate::heap::{refuse_after, was_refused, watch};
use crate::pattern::{self, Source};
use gotsavena::{
    Dir, Endpoint, MakeFault, OpenFault, Read, Received, Settings, StreamId, UseFault,
};

/// How many bytes are sent on each stream.
const BYTES: u64 = 3_000;

/// The streams of a run, two of each direction, and how far each endpoint is with them.
struct Transfer {
    two: Two,
    streams: Vec<StreamId>,
    given: Vec<u64>,
    taken: Vec<u64>,
    told: u64,
}

impl Transfer {
    fn new() -> Transfer {
        let settings = Settings::small()
            .conn_window(4096)
            .stream_windows(1024)
            .send_buffer(2048)
            .streams(8, 8);
        let mut transfer = Transfer {
            two: Two::new(settings),
            streams: Vec::new(),
            given: vec![0; 4],
            taken: vec![0; 4],
            told: 0,
        };
        for dir in [Dir::Uni, Dir::Bidi, Dir::Uni, Dir::Bidi] {
            let stream = transfer.open(dir);
            transfer.streams.push(stream);
        }
        transfer
    }

    fn open(&mut self, dir: Dir) -> StreamId {
        loop {
            match watch(|| self.two.client.open(dir)) {
                Ok(stream) => return stream,
                Err(OpenFault::NoMemory) => self.told += 1,
                Err(fault) => panic!("{fault}"),
            }
        }
    }

    fn write(&mut self) {
        let source = Source::new(BYTES as usize);
        for (&stream, given) in self.streams.iter().zip(&mut self.given) {
            let bytes = &source.at(*given)[..(BYTES - *given) as usize];
            if bytes.is_empty() {
                continue;
            }
            match watch(|| self.two.client.write(stream, bytes)) {
                Ok(count) => *given += count as u64,
                Err(UseFault::NoMemory) => self.told += 1,
                Err(fault) => panic!("{fault}"),
            }
            if *given == BYTES {
                watch(|| self.two.client.finish(stream)).expect("it is never refused for memory");
            }
        }
    }

    /// Whether each stream was read up to its FIN.
    fn read(&mut self) -> bool {
        let (mut bytes, mut ends) = ([0; 512], 0);
        for (&stream, taken) in self.streams.iter().zip(&mut self.taken) {
            loop {
                match watch(|| self.two.server.read(stream, &mut bytes)) {
                    Ok(Read::Bytes(count)) => {
                        pattern::check(*taken, &bytes[..count]);
                        *taken += count as u64;
                    }
                    Ok(Read::End) => {
                        assert_eq!(*taken, BYTES);
                        ends += 1;
                        break;
                    }
                    Ok(_) | Err(UseFault::NoSuchStream) => break,
                    Err(UseFault::NoMemory) => self.told += 1,
                    Err(fault) => panic!("{fault}"),
                }
            }
        }
        ends == self.streams.len()
    }
}

/// Delivers all packets, but declares each third of the first ones lost. Returns how often a call returned `NoMemory`.
fn carry(from: &mut Endpoint, to: &mut Endpoint, drop_some: bool) -> u64 {
    let (mut payload, mut told) = ([0; 300], 0);
    loop {
        let made = match watch(|| from.make_packet(&mut payload)) {
            Ok(Some(made)) => made,
            Ok(None) => return told,
            Err(MakeFault::NoMemory) => {
                told += 1;
                continue;
            }
            Err(fault) => panic!("{fault}"),
        };
        if drop_some && made.number < 12 && made.number % 3 == 0 {
            while let Err(gotsavena::LostFault::NoMemory) = watch(|| from.declare_lost(made.number))
            {
                told += 1;
            }
            continue;
        }
        while let Received::NoMemory =
            watch(|| to.receive(made.number, &payload[..made.len])).expect("an honest packet")
        {
            told += 1;
        }
    }
}

// One run with this allocation refused. Returns whether the run had so many allocations, and how often a call returned `NoMemory`.
fn run(refused: u64) -> (bool, u64) {
    refuse_after(refused);
    let mut transfer = Transfer::new();
    for _ in 0..1_000 {
        transfer.write();
        transfer.told += carry(&mut transfer.two.client, &mut transfer.two.server, true);
        let is_over = transfer.read();
        transfer.told += carry(&mut transfer.two.server, &mut transfer.two.client, false);
        if is_over {
            return (was_refused(), transfer.told);
        }
    }
    panic!("bytes are missing where allocation {refused} is refused");
}

/// Refuses each allocation in a run of its own, checks that nothing is lost, and returns how many there were.
pub fn runs() -> f64 {
    let mut refused = 0;
    loop {
        let (came, told) = run(refused);
        if !came {
            return refused as f64;
        }
        assert!(told <= 1, "more than one call told of one refusal");
        refused += 1;
    }
}
