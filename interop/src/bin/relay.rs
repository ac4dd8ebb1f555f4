//! A relay of datagrams between clients and one server, which drops, repeats and holds back some of them, as a seed draws.
//!
//! What a share is in a hundred: `--drop` of both ways, `--drop-up` to the server and `--drop-down` from it, `--repeat`,
//! `--reorder`: a datagram that is held back goes behind the next one of its way, or after 20 ms. `--delay MS`: each way takes so
//! long, and keeps its order. `--rebind N`: from the Nth datagram of a client on the server sees it at another address, as behind a NAT
//! that forgot it; with `--dead MS` what goes in so many milliseconds behind that datagram is lost, either way.

use gotsavena_interop::program::{self, Refusal, Words, address, listen};
use std::collections::HashMap;
use std::collections::hash_map::Entry;
use std::io::{self, ErrorKind};
use std::net::{SocketAddr, UdpSocket};
use std::process::ExitCode;
use std::sync::mpsc::{self, Sender};
use std::sync::{Arc, Mutex};
use std::thread;
use std::time::{Duration, Instant};

const HELD: Duration = Duration::from_millis(20);

/// How long a way is at most, in milliseconds.
const MOST_DELAY: u64 = 60_000;

#[derive(Clone, Copy)]
struct Weather {
    dropped: u64,
    repeated: u64,
    reordered: u64,
    delay: Duration,
}

struct Way {
    weather: Weather,
    random: u64,
    held: Option<Timed>,
    exit: Exit,
}

struct Timed {
    at: Instant,
    bytes: Vec<u8>,
}

type Output = Box<dyn Fn(&[u8]) + Send>;

/// Where the datagrams of a way leave it. A datagram that can't be sent is lost as any other.
enum Exit {
    Now(Output),
    /// So long after they came, in order, by a thread.
    Later(Duration, Sender<Timed>),
}

fn main() -> ExitCode {
    let usage = "relay [--seed N] [--drop P] [--drop-up P] [--drop-down P] [--repeat P] [--reorder P] [--delay MS] [--rebind N] [--dead MS] ADDR SERVER";
    program::run(usage, relay)
}

fn relay(mut words: Words) -> Result<(), Refusal> {
    let seed = words.number("seed", 1)?;
    let dropped = words.number("drop", 0)?;
    let up = words.number("drop-up", dropped)?;
    let down = words.number("drop-down", dropped)?;
    let (repeated, reordered) = (words.number("repeat", 0)?, words.number("reorder", 0)?);
    if [up, down, repeated, reordered]
        .iter()
        .any(|share| *share > 100)
    {
        return Err(Refusal::Usage("a share is at most 100".to_owned()));
    }
    let delay = words.number("delay", 0)?;
    if delay > MOST_DELAY {
        return Err(Refusal::Usage(format!(
            "a way takes at most {MOST_DELAY} ms"
        )));
    }
    let (rebind, dead) = (words.number("rebind", 0)?, words.number("dead", 0)?);
    let [own, server] = words.exactly()?;
    let server = address(&server)?;
    let socket = Arc::new(listen(&own)?);
    let weather = |dropped| Weather {
        dropped,
        repeated,
        reordered,
        delay: Duration::from_millis(delay),
    };
    let (up, down) = (weather(up), weather(down));
    let relay = Relay {
        socket,
        server,
        up,
        down,
        seed,
        rebind,
        dead: Duration::from_millis(dead),
    };
    relay.run().map_err(Refusal::failure)
}

struct Relay {
    socket: Arc<UdpSocket>,
    server: SocketAddr,
    up: Weather,
    down: Weather,
    seed: u64,
    /// After so many datagrams of a client its way to the server has another address.
    rebind: u64,
    dead: Duration,
}

struct Client {
    way: Way,
    came: u64,
    silence: Silence,
}

/// Until when nothing of a client goes, either way.
#[derive(Clone, Default)]
struct Silence(Arc<Mutex<Option<Instant>>>);

impl Silence {
    fn begin(&self, time: Duration) {
        *self.0.lock().unwrap() = Some(Instant::now() + time);
    }

    fn is_over(&self) -> bool {
        self.0
            .lock()
            .unwrap()
            .is_none_or(|end| end <= Instant::now())
    }
}

impl Relay {
    fn run(&self) -> io::Result<()> {
        let mut clients: HashMap<SocketAddr, Client> = HashMap::new();
        let mut buffer = [0; 65_536];
        self.socket.set_read_timeout(Some(HELD))?;
        loop {
            for client in clients.values_mut() {
                client.way.release();
            }
            let (len, from) = match self.socket.recv_from(&mut buffer) {
                Ok(came) => came,
                Err(error) if is_pause(&error) => continue,
                Err(error) => return Err(error),
            };
            let seed = self.seed ^ (2 * clients.len() as u64) << 32;
            let client = match clients.entry(from) {
                Entry::Occupied(known) => known.into_mut(),
                Entry::Vacant(place) => {
                    let silence = Silence::default();
                    place.insert(Client {
                        way: Way::new(self.up, seed, self.open(from, seed, &silence)?),
                        came: 0,
                        silence,
                    })
                }
            };
            client.came += 1;
            let moves = client.came == self.rebind;
            if moves {
                client.way.exit = self.open(from, seed, &client.silence)?;
            }
            client.way.carry(&buffer[..len]);
            if moves {
                client.silence.begin(self.dead);
            }
        }
    }

    // A socket to the server, with a thread for the way back to a client.
    fn open(&self, client: SocketAddr, seed: u64, silence: &Silence) -> io::Result<Exit> {
        let to_server = UdpSocket::bind("127.0.0.1:0")?;
        to_server.connect(self.server)?;
        let (own, to_client) = (to_server.try_clone()?, self.socket.clone());
        let down = silence.clone();
        let exit = Exit::new(self.down.delay, move |bytes| {
            if down.is_over() {
                _ = to_client.send_to(bytes, client);
            }
        });
        let back = Way::new(self.down, seed ^ 1 << 32, exit);
        thread::spawn(move || bring_back(&own, back));
        let up = silence.clone();
        Ok(Exit::new(self.up.delay, move |bytes| {
            if up.is_over() {
                _ = to_server.send(bytes);
            }
        }))
    }
}

fn bring_back(from_server: &UdpSocket, mut way: Way) {
    let mut buffer = [0; 65_536];
    if from_server.set_read_timeout(Some(HELD)).is_err() {
        return;
    }
    loop {
        match from_server.recv(&mut buffer) {
            Ok(len) => way.carry(&buffer[..len]),
            Err(error) if is_pause(&error) => way.release(),
            Err(_) => return,
        }
    }
}

fn is_pause(error: &io::Error) -> bool {
    use ErrorKind::{ConnectionRefused, Interrupted, TimedOut, WouldBlock};
    matches!(
        error.kind(),
        ConnectionRefused | Interrupted | TimedOut | WouldBlock
    )
}

impl Timed {
    fn new(from_now: Duration, bytes: &[u8]) -> Timed {
        Timed {
            at: Instant::now() + from_now,
            bytes: bytes.to_vec(),
        }
    }
}

impl Exit {
    fn new(delay: Duration, send: impl Fn(&[u8]) + Send + 'static) -> Exit {
        if delay.is_zero() {
            return Exit::Now(Box::new(send));
        }
        let (line, behind) = mpsc::channel::<Timed>();
        thread::spawn(move || {
            for waiting in behind {
                thread::sleep(waiting.at.saturating_duration_since(Instant::now()));
                send(&waiting.bytes);
            }
        });
        Exit::Later(delay, line)
    }

    fn put(&self, bytes: &[u8]) {
        match self {
            Exit::Now(send) => send(bytes),
            // The thread goes on as long as there is the line.
            Exit::Later(delay, line) => _ = line.send(Timed::new(*delay, bytes)),
        }
    }
}

impl Way {
    fn new(weather: Weather, seed: u64, exit: Exit) -> Way {
        Way {
            weather,
            random: seed.wrapping_mul(0x9e37_79b9_7f4a_7c15) | 1,
            held: None,
            exit,
        }
    }

    fn carry(&mut self, bytes: &[u8]) {
        if self.happens(self.weather.dropped) {
            return;
        }
        if self.held.is_none() && self.happens(self.weather.reordered) {
            self.held = Some(Timed::new(HELD, bytes));
            return;
        }
        self.exit.put(bytes);
        if self.happens(self.weather.repeated) {
            self.exit.put(bytes);
        }
        if let Some(late) = self.held.take() {
            self.exit.put(&late.bytes);
        }
    }

    // What was held back for long goes.
    fn release(&mut self) {
        if let Some(late) = self.held.take_if(|late| late.at <= Instant::now()) {
            self.exit.put(&late.bytes);
        }
    }

    // Whether something happens to a datagram, by the numbers of a generator (xorshift64*).
    fn happens(&mut self, of_a_hundred: u64) -> bool {
        self.random ^= self.random >> 12;
        self.random ^= self.random << 25;
        self.random ^= self.random >> 27;
        let word = self.random.wrapping_mul(0x2545_f491_4f6c_dd1d) >> 32;
        word % 100 < of_a_hundred
    }
}

#[cfg(test)]
mod tests {
    use super::*;

    const CLEAR: Weather = Weather {
        dropped: 0,
        repeated: 0,
        reordered: 0,
        delay: Duration::ZERO,
    };

    // Which of so many numbered datagrams leave a way, in their order.
    fn carried(weather: Weather, count: u32) -> Vec<u32> {
        let (seen, all) = mpsc::channel();
        let exit = Exit::new(weather.delay, move |bytes| {
            seen.send(u32::from_be_bytes(bytes.try_into().unwrap()))
                .unwrap();
        });
        let mut way = Way::new(weather, 7, exit);
        (0..count).for_each(|number| way.carry(&number.to_be_bytes()));
        drop(way);
        all.iter().collect()
    }

    #[test]
    fn a_long_way_loses_repeats_and_reorders_as_a_short_one() {
        let rough = Weather {
            dropped: 20,
            repeated: 10,
            reordered: 10,
            ..CLEAR
        };
        let short = carried(rough, 5000);
        let delay = Duration::from_millis(30);
        assert_eq!(carried(Weather { delay, ..rough }, 5000), short);
        // Of 5,000 some 1,000 are lost, and of the others some 400 come twice: one held back comes once. Some 400 come late.
        let once: std::collections::BTreeSet<&u32> = short.iter().collect();
        let late = short.windows(2).filter(|pair| pair[0] > pair[1]).count();
        assert!((3800..4200).contains(&once.len()), "{}", once.len());
        assert!((280..520).contains(&(short.len() - once.len())));
        assert!((280..520).contains(&late), "{late}");
    }

    #[test]
    fn each_datagram_takes_so_long_and_none_overtakes() {
        let delay = Duration::from_millis(40);
        let server = UdpSocket::bind("127.0.0.1:0").unwrap();
        let client = UdpSocket::bind("127.0.0.1:0").unwrap();
        let weather = Weather { delay, ..CLEAR };
        let relay = Relay {
            socket: Arc::new(UdpSocket::bind("127.0.0.1:0").unwrap()),
            server: server.local_addr().unwrap(),
            up: weather,
            down: weather,
            seed: 1,
            rebind: 0,
            dead: Duration::ZERO,
        };
        let between = relay.socket.local_addr().unwrap();
        thread::spawn(move || relay.run());
        let patience = Some(Duration::from_secs(20));
        server.set_read_timeout(patience).unwrap();
        client.set_read_timeout(patience).unwrap();
        let begin = Instant::now();
        let mut sent = Vec::new();
        for number in 0..100 {
            sent.push(Instant::now());
            client.send_to(&[number], between).unwrap();
        }
        let mut buffer = [0; 2];
        for number in 0..100 {
            let (len, from) = server.recv_from(&mut buffer).unwrap();
            assert_eq!(&buffer[..len], [number]);
            assert!(sent[usize::from(number)].elapsed() >= delay);
            server.send_to(&[number], from).unwrap();
        }
        for number in 0..100 {
            assert_eq!(client.recv(&mut buffer).unwrap(), 1);
            assert_eq!(buffer[0], number);
            assert!(sent[usize::from(number)].elapsed() >= 2 * delay);
        }
        // All were on their way at once: one after the other, they would take 200 times the delay.
        assert!(begin.elapsed() < 50 * delay);
    }
}
