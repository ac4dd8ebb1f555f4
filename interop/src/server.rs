//! A server: many connections on one socket.

use crate::connection::{Config, Connection, DATAGRAM, Path};
use crate::fault::{CONNECTION_REFUSED, Close, Fault, INTERNAL_ERROR, Outcome};
use crate::log;
use crate::memory;
use crate::packet::{
    ConnectionId, Kind, Level, Packet, VERSION_1, read_packet, version_negotiation,
};
use crate::program;
use crate::socket::{MOST_DATAGRAM, Outbox, Socket};
use crate::stop::Stop;
use crate::streams::Application;
use crate::timers::Timers;
use nix::time::{ClockId, clock_gettime};
use rustls::ServerConfig;
use std::collections::{BTreeSet, HashMap, VecDeque};
use std::io::{self, ErrorKind};
use std::net::{SocketAddr, UdpSocket};
use std::os::fd::RawFd;
use std::panic::{AssertUnwindSafe, catch_unwind};
use std::rc::Rc;
use std::sync::Arc;
use std::time::{Duration, Instant};

/// A batch, so that one busy socket or connection doesn't keep the others waiting.
pub const BATCH: usize = 64;

const LEAST_FIRST_ID: usize = 8;

/// How long each part of a turn takes at most, but for the last connection of it: before others are looked at again.
const PART: Duration = Duration::from_micros(500);

/// A server that is asked to stop ends soon, whatever its clients do.
const GRACE: Duration = Duration::from_millis(300);

pub struct Server<A> {
    socket: Rc<Socket>,
    /// There is something to read from it where the server is to stop.
    wake: Option<RawFd>,
    buffer: Vec<u8>,
    tls: Arc<ServerConfig>,
    config: Config,
    make: Box<dyn Fn(SocketAddr) -> A>,
    served: Table<A>,
    timers: Timers,
    ids: HashMap<ConnectionId, u64>,
    next: u64,
    /// Those with more to do, each behind the ones that had their turn before.
    busy: VecDeque<u64>,
    phase: Phase,
    longest: Duration,
}

#[derive(Clone, Copy, PartialEq, Eq)]
enum Phase {
    Serves,
    Stops,
    Closes,
}

/// The connections, each by its number: there is no walk over all of them.
struct Table<A> {
    // (boxed: a table that grew keeps its places)
    places: HashMap<u64, Box<Served<A>>>,
    looks: u64,
    peak: usize,
}

struct Served<A> {
    connection: Connection,
    peer: SocketAddr,
    application: A,
    was_told: bool,
    /// How long it took when it went on last.
    took: Duration,
}

/// Takes in what a socket has, for a while, each datagram with where it came from. Answers whether the system told that no one listens on
/// the peer's port.
pub fn receive_batch(
    socket: &Socket,
    buffer: &mut [u8],
    mut take: impl FnMut(&mut [u8], Path),
) -> bool {
    let mut is_refused = false;
    let mut count = 0;
    let begin = Instant::now();
    while count < BATCH && begin.elapsed() < PART {
        match socket.receive(buffer) {
            Ok((len, size, from)) => {
                for datagram in buffer[..len].chunks_mut(size) {
                    take(datagram, from);
                }
                count += len.div_ceil(size).max(1);
            }
            Err(error) => match error.kind() {
                ErrorKind::WouldBlock => break,
                ErrorKind::ConnectionRefused => is_refused = true,
                // What the network tells of datagrams that went says nothing of those that come.
                _ => {}
            },
        }
    }
    is_refused
}

/// Answers whether there is more: then it has another turn behind the others. A datagram that the system doesn't take is lost as any
/// other.
pub fn turn<A: Application>(
    connection: &mut Connection,
    application: &mut A,
    out: &mut Outbox,
    mut transmit: impl FnMut(&[u8], usize, Path) -> io::Result<()>,
) -> bool {
    let now = Instant::now();
    let end = connection.end();
    if let Err(close) = end.map_or(Ok(()), |end| application.progress(end)) {
        connection.close(close, now);
    }
    application.prioritize(connection.priorities());
    let mut more = true;
    for _ in 0..BATCH {
        let Some(to) = connection.send(&mut out.datagram, now) else {
            more = connection.end().is_some() && application.was_cut();
            break;
        };
        if let Some(size) = out.push(to, &mut transmit) {
            connection.was_too_large(size);
        }
    }
    if let Some(size) = out.flush(&mut transmit) {
        connection.was_too_large(size);
    }
    more
}

fn part<A: Application>(phase: Phase, connection: &mut Connection, application: &mut A) {
    let close = Close::new(A::NO_ERROR, "the server stops");
    let is_over = match (phase, connection.end()) {
        (Phase::Serves, _) => return,
        (Phase::Stops, Some(end)) => {
            let is_known = end.kept_sum() == 0;
            application.stop().map(|is_over| is_over && is_known)
        }
        _ => Ok(true),
    };
    match is_over {
        Ok(false) => {}
        Ok(true) => connection.close(close, Instant::now()),
        Err(close) => connection.close(close, Instant::now()),
    }
}

fn tell_end<A: Application>(peer: SocketAddr, was_open: bool, outcome: &Outcome) {
    program::tell_more(&format!("connection with {peer} ended: {outcome}"));
    match outcome {
        _ if !was_open => log::trouble(peer, "the handshake failed", outcome),
        Outcome::Closed(close) if close.code == A::NO_ERROR => {}
        Outcome::Closed(_) | Outcome::Failed(_) => {
            log::trouble(peer, "the connection failed", outcome);
        }
        _ => {}
    }
}

/// Works for one peer. A fault of this program that shows then is told, and the others are served as before.
fn apart<T>(peer: SocketAddr, work: impl FnOnce() -> T) -> Option<T> {
    let done = catch_unwind(AssertUnwindSafe(work));
    done.inspect_err(|panic| log::fault(peer, panic.as_ref()))
        .ok()
}

impl<A: Application> Served<A> {
    // After a fault the connection is closed. Where there is another one as that is done, it is forgotten.
    fn apart<T>(&mut self, work: impl FnOnce(&mut Served<A>) -> T) -> Option<T> {
        let done = apart(self.peer, || work(self));
        if done.is_none() {
            match self.connection.outcome() {
                None => self.connection.fail(
                    Fault::new(INTERNAL_ERROR, 0, "the server has a fault"),
                    Instant::now(),
                ),
                Some(_) => self.connection.forget(),
            }
        }
        done
    }

    fn take(&mut self, datagram: &mut [u8], from: Path) {
        self.connection.receive(datagram, from, Instant::now());
        let peer = self.connection.path().peer;
        if self.peer != peer {
            program::tell_more(&format!("{} goes on as {peer}", self.peer));
            self.peer = peer;
        }
    }

    // Answers whether there is more.
    fn go_on(&mut self, phase: Phase, socket: &Socket, out: &mut Outbox) -> bool {
        let connection = &mut self.connection;
        part(phase, connection, &mut self.application);
        let more = turn(connection, &mut self.application, out, |bytes, size, to| {
            socket.send(bytes, size, to)
        });
        if let (Some(outcome), false) = (connection.outcome(), self.was_told) {
            self.was_told = true;
            tell_end::<A>(self.peer, connection.was_open(), outcome);
            self.application.ended(connection.last_end(), outcome);
        }
        more
    }
}

impl<A> Table<A> {
    fn get(&mut self, key: u64) -> Option<&mut Served<A>> {
        self.looks += 1;
        self.places.get_mut(&key).map(|place| &mut **place)
    }

    fn insert(&mut self, key: u64, served: Served<A>) {
        self.places.insert(key, Box::new(served));
        self.peak = self.peak.max(self.places.len());
    }

    // Once one half of the connections is gone, their memory goes back to the system: the allocator would keep it.
    fn remove(&mut self, key: u64) {
        self.places.remove(&key);
        if 2 * self.places.len() <= self.peak {
            self.places.shrink_to_fit();
            self.peak = self.places.len();
            memory::give_back();
        }
    }
}

// Of this thread: what others take of the machine doesn't count.
fn processor_time() -> Duration {
    clock_gettime(ClockId::CLOCK_THREAD_CPUTIME_ID).map_or(Duration::ZERO, Duration::from)
}

impl<A: Application> Server<A> {
    pub fn new(
        socket: UdpSocket,
        tls: Arc<ServerConfig>,
        config: Config,
        make: impl Fn(SocketAddr) -> A + 'static,
    ) -> io::Result<Server<A>> {
        Ok(Server {
            socket: Rc::new(Socket::new(socket)?),
            wake: None,
            buffer: vec![0; MOST_DATAGRAM],
            tls,
            config,
            make: Box::new(make),
            served: Table {
                places: HashMap::new(),
                looks: 0,
                peak: 0,
            },
            timers: Timers::default(),
            ids: HashMap::new(),
            next: 0,
            busy: VecDeque::new(),
            phase: Phase::Serves,
            longest: Duration::ZERO,
        })
    }

    pub fn looks(&self) -> u64 {
        self.served.looks
    }

    pub fn run(&mut self, stop: &Stop) -> io::Result<()> {
        self.wake = stop.wake();
        let mut out = Outbox::default();
        while !stop.is_asked() {
            self.turn(self.waits_until(), &mut out)?;
        }
        let longest = self.longest.as_secs_f64() * 1e3;
        program::tell_more(&format!("the longest turn took {longest:.1} ms"));
        self.stop(&mut out)
    }

    // Tells all clients. A connection ends once nothing is under way on it, and all within a second.
    fn stop(&mut self, out: &mut Outbox) -> io::Result<()> {
        self.wake = None;
        let begin = Instant::now();
        for (phase, time) in [(Phase::Stops, GRACE), (Phase::Closes, 2 * GRACE)] {
            self.phase = phase;
            self.busy = self.served.places.keys().copied().collect();
            while !self.served.places.is_empty() && begin.elapsed() < time {
                let until = self.waits_until().into_iter().chain([begin + time]);
                self.turn(until.min(), out)?;
            }
        }
        Ok(())
    }

    fn waits_until(&self) -> Option<Instant> {
        match self.busy.is_empty() {
            true => self.timers.next(),
            false => Some(Instant::now()),
        }
    }

    // Waits until something comes, or until a time. Lets the connections go on for which something came, or whose time is up.
    fn turn(&mut self, until: Option<Instant>, out: &mut Outbox) -> io::Result<()> {
        let socket = self.socket.clone();
        let mut woken = BTreeSet::new();
        socket.wait(until, self.wake)?;
        let begin = processor_time();
        let mut buffer = std::mem::take(&mut self.buffer);
        // Where a client's socket is gone its silence tells.
        _ = receive_batch(&socket, &mut buffer, |datagram, from| {
            woken.extend(self.take(datagram, from, out));
        });
        self.buffer = buffer;
        woken.extend(self.timers_are_up());
        self.wake_up(woken, out);
        self.longest = self.longest.max(processor_time().saturating_sub(begin));
        Ok(())
    }

    // Who took little before goes first, so that it doesn't wait for who asks for much. Those that are busy have their while, too.
    fn wake_up(&mut self, mut woken: BTreeSet<u64>, out: &mut Outbox) {
        self.busy.iter().for_each(|key| _ = woken.remove(key));
        let mut woken = Vec::from_iter(woken);
        woken.sort_by_cached_key(|key| self.served.get(*key).map(|served| served.took));
        let busy = std::mem::take(&mut self.busy);
        let woken = self.go_through(woken.into(), out);
        let mut left = self.go_through(busy, out);
        left.extend(woken);
        left.append(&mut self.busy);
        self.busy = left;
    }

    // Lets connections go on for a while; those with more to do are busy. Answers the rest of them.
    fn go_through(&mut self, mut queue: VecDeque<u64>, out: &mut Outbox) -> VecDeque<u64> {
        let begin = Instant::now();
        while begin.elapsed() < PART {
            let Some(key) = queue.pop_front() else {
                break;
            };
            if self.go_on(key, out) {
                self.busy.push_back(key);
            }
        }
        queue
    }

    fn timers_are_up(&mut self) -> Vec<u64> {
        let now = Instant::now();
        let due = self.timers.take_due(now);
        for key in &due {
            if let Some(served) = self.served.get(*key) {
                served.apart(|served| served.connection.time_is_up(now));
            }
        }
        due
    }

    // A datagram came: it belongs to a connection, or begins one.
    fn take(&mut self, datagram: &mut [u8], from: Path, out: &mut Outbox) -> Option<u64> {
        let packet = read_packet(datagram)?;
        if let Some(key) = self.ids.get(&packet.destination) {
            let served = self.served.get(*key)?;
            served.apart(|served| served.take(datagram, from));
            return Some(*key);
        }
        if packet.version != VERSION_1 && packet.version != 0 && datagram.len() >= DATAGRAM {
            let answer = version_negotiation(&packet);
            // Where it is lost, the client asks again.
            _ = self.socket.send(&answer, answer.len(), from);
            return None;
        }
        self.begin(&packet, datagram, from, out)
    }

    // Only an Initial that authenticates begins a connection: of others no state is kept, so that anybody's datagrams fill no memory.
    fn begin(
        &mut self,
        packet: &Packet,
        datagram: &mut [u8],
        from: Path,
        out: &mut Outbox,
    ) -> Option<u64> {
        let is_initial = packet.kind == Kind::Protected(Level::Initial);
        if self.phase != Phase::Serves {
            return None;
        }
        if !is_initial || datagram.len() < DATAGRAM || packet.destination.len() < LEAST_FIRST_ID {
            return None;
        }
        let now = Instant::now();
        let (destination, source) = (packet.destination, packet.source);
        let tls = self.tls.clone();
        let is_full = self.served.places.len() >= self.config.connections;
        let mut connection = Connection::server(tls, self.config, destination, source, now)
            .inspect_err(|fault| log::tell(format_args!("no connection: {fault}")))
            .ok()?;
        let peer = from.peer;
        if is_full {
            let refused = Fault::new(CONNECTION_REFUSED, 0, "too many connections");
            connection.refuse(from, datagram.len(), refused, now);
            let to = connection.send(&mut out.datagram, now)?;
            // Where it is lost, the client asks again.
            _ = self.socket.send(&out.datagram, out.datagram.len(), to);
            return None;
        }
        apart(peer, || connection.receive(datagram, from, now))?;
        if !connection.has_peer() {
            return None;
        }
        let key = self.next;
        self.next += 1;
        for id in connection.ids() {
            self.ids.insert(id, key);
        }
        let application = (self.make)(peer);
        let served = Served {
            connection,
            peer,
            application,
            was_told: false,
            took: Duration::ZERO,
        };
        self.served.insert(key, served);
        Some(key)
    }

    fn go_on(&mut self, key: u64, out: &mut Outbox) -> bool {
        let Some(served) = self.served.get(key) else {
            return false;
        };
        let now = Instant::now();
        let went = served.apart(|served| served.go_on(self.phase, &self.socket, out));
        served.took = now.elapsed();
        // (what is closed has that to tell)
        let more = went.unwrap_or(true);
        let connection = &mut served.connection;
        for id in connection.take_new_ids() {
            self.ids.insert(id, key);
        }
        if connection.is_gone() {
            for id in connection.ids() {
                self.ids.remove(&id);
            }
            self.timers.set(key, None);
            self.served.remove(key);
            return false;
        }
        self.timers.set(key, connection.timer(Instant::now()));
        more
    }
}

#[cfg(test)]
mod tests {
    use super::*;
    use crate::certificate::Identity;
    use crate::client::connect;
    use crate::files::Folder;
    use crate::packet::VERSION_1;
    use crate::program::client;
    use crate::raw::{PROTOCOL, RawClient, RawServer};
    use crate::tls::server_config;
    use gotsavena::{Endpoint, Settings, Tuning};
    use std::cell::{Cell, RefCell};

    const IDLE: usize = 30;
    const FILES: usize = 50;
    const SLOW: usize = 5;

    struct Nothing;

    impl Application for Nothing {
        const NO_ERROR: u64 = 0;

        fn progress(&mut self, _end: &mut Endpoint) -> Result<(), Close> {
            Ok(())
        }
    }

    struct World<S = RawServer> {
        server: Server<S>,
        config: Config,
    }

    struct Client<A> {
        socket: Socket,
        connection: Connection,
        application: A,
        sent: u64,
    }

    impl World {
        fn new() -> World {
            let folder = Folder::open(env!("CARGO_MANIFEST_DIR")).unwrap();
            World::of(move |_| RawServer::new(folder.clone()))
        }
    }

    impl<S: Application> World<S> {
        fn of(make: impl Fn(SocketAddr) -> S + 'static) -> World<S> {
            // Files come one at a time, so that a client of many is at work as long as a test needs it to be. No test asks for 1,000.
            let settings = Settings::small().bidi_streams(1, 1000);
            let config = Config {
                settings,
                tuning: Tuning::default(),
                most_window: 0,
                idle: Duration::from_secs(30),
                connections: 100,
            };
            let socket = UdpSocket::bind("127.0.0.1:0").unwrap();
            let tls = server_config(Identity::new().unwrap(), &[PROTOCOL]).unwrap();
            World {
                server: Server::new(socket, tls, config, make).unwrap(),
                config,
            }
        }

        fn client<A: Application>(&mut self, application: A) -> Client<A> {
            let server = self.server.socket.local_addr().unwrap();
            let mut client = Client {
                socket: connect(server).unwrap(),
                connection: client(PROTOCOL, "localhost", VERSION_1, self.config).unwrap(),
                application,
                sent: 0,
            };
            while client.connection.end().is_none() {
                self.step(&mut client);
            }
            client
        }

        fn step<A: Application>(&mut self, client: &mut Client<A>) {
            let connection = &mut client.connection;
            let mut out = Outbox::default();
            let transmit = |bytes: &[u8], size, to| {
                client.sent += bytes.len().div_ceil(size) as u64;
                client.socket.send(bytes, size, to)
            };
            turn(connection, &mut client.application, &mut out, transmit);
            let now = Some(Instant::now());
            self.server.turn(now, &mut out).unwrap();
            receive_batch(&client.socket, &mut [0; MOST_DATAGRAM], |datagram, from| {
                connection.receive(datagram, from, Instant::now());
            });
            let now = Instant::now();
            if connection.timer(now).is_some_and(|at| at <= now) {
                connection.time_is_up(now);
            }
        }
    }

    #[test]
    fn a_handshake_that_fails_is_told() {
        let mut world = World::new();
        let server = world.server.socket.local_addr().unwrap();
        let mut client = Client {
            socket: connect(server).unwrap(),
            connection: client(b"another", "localhost", VERSION_1, world.config).unwrap(),
            application: Nothing,
            sent: 0,
        };
        while client.connection.outcome().is_none() {
            world.step(&mut client);
        }
        let said = log::SAID.take();
        assert_eq!(said.len(), 1, "{said:?}");
        // no_application_protocol (RFC 7301, section 3.2; RFC 9001, section 8.1)
        let told = " the handshake failed: failed with code 0x178 ";
        assert!(said[0].contains(told), "{said:?}");
    }

    // Where it has no server it panics.
    struct Perhaps(Option<RawServer>);

    impl Application for Perhaps {
        const NO_ERROR: u64 = 0;

        fn progress(&mut self, end: &mut Endpoint) -> Result<(), Close> {
            self.0.as_mut().expect("of the test").progress(end)
        }
    }

    #[test]
    fn a_panic_ends_its_connection_alone() {
        let folder = Folder::open(env!("CARGO_MANIFEST_DIR")).unwrap();
        let is_first = Cell::new(true);
        let mut world =
            World::of(move |_| Perhaps((!is_first.take()).then(|| RawServer::new(folder.clone()))));
        let wanted = || RawClient::new(vec!["Cargo.toml".to_owned()]);
        let [mut first, mut second] = [wanted(), wanted()].map(|wanted| world.client(wanted));
        while first.connection.outcome().is_none() || second.connection.outcome().is_none() {
            world.step(&mut first);
            world.step(&mut second);
        }
        let told = Outcome::PeerClosed {
            by_application: false,
            code: INTERNAL_ERROR,
            reason: "the server has a fault".to_owned(),
        };
        assert_eq!(first.connection.outcome(), Some(&told));
        assert!(matches!(second.application.loaded[..], [(_, Some(_))]));
        let said = log::SAID.take();
        assert!(
            said[0].ends_with(" the server has a fault: of the test"),
            "{said:?}"
        );
    }

    // Tells its number as it goes on. The slow ones take longer than a turn has for them.
    struct Told(usize, Rc<RefCell<Vec<usize>>>);

    impl Application for Told {
        const NO_ERROR: u64 = 0;

        fn progress(&mut self, _end: &mut Endpoint) -> Result<(), Close> {
            if self.0 < SLOW {
                std::thread::sleep(2 * PART);
            }
            self.1.borrow_mut().push(self.0);
            Ok(())
        }
    }

    #[test]
    fn who_takes_little_waits_for_none_that_takes_much() {
        let told = Rc::new(RefCell::new(Vec::new()));
        let (made, of_all) = (Cell::new(0), told.clone());
        let mut world = World::of(move |_| Told(made.replace(made.get() + 1), of_all.clone()));
        let mut clients = [(); SLOW + 1].map(|()| world.client(Nothing));
        // (their handshakes are over at both ends)
        for _ in 0..20 {
            clients.iter_mut().for_each(|client| world.step(client));
        }
        world.server.busy.clear();
        let mut woken: BTreeSet<u64> = (0..=SLOW as u64).collect();
        let mut slow = Vec::new();
        while slow.len() < SLOW {
            told.take();
            world
                .server
                .wake_up(std::mem::take(&mut woken), &mut Outbox::default());
            let went = told.take();
            assert_eq!(went[0], SLOW);
            assert!(went.len() <= 3, "{went:?}");
            slow.extend_from_slice(&went[1..]);
            assert_eq!(world.server.busy.len(), SLOW - slow.len());
            woken.insert(SLOW as u64);
        }
        slow.sort();
        assert_eq!(slow, Vec::from_iter(0..SLOW));
    }

    #[test]
    fn a_client_too_many_is_refused() {
        let mut world = World::new();
        world.server.config.connections = 1;
        _ = world.client(Nothing);
        let server = world.server.socket.local_addr().unwrap();
        let mut second = Client {
            socket: connect(server).unwrap(),
            connection: client(PROTOCOL, "localhost", VERSION_1, world.config).unwrap(),
            application: Nothing,
            sent: 0,
        };
        while second.connection.outcome().is_none() {
            world.step(&mut second);
        }
        let told = Outcome::PeerClosed {
            by_application: false,
            code: CONNECTION_REFUSED,
            reason: "too many connections".to_owned(),
        };
        assert_eq!(second.connection.outcome(), Some(&told));
    }

    #[test]
    fn a_client_that_moves_is_followed() {
        let mut world = World::new();
        let wanted = vec!["Cargo.toml".to_owned(); FILES];
        let mut client = world.client(RawClient::new(wanted));
        let server = world.server.socket.local_addr().unwrap();
        let mut moves = 0;
        while client.connection.outcome().is_none() {
            if client.application.loaded.len() >= 15 * (moves + 1) {
                client.socket = connect(server).unwrap();
                moves += 1;
            }
            world.step(&mut client);
        }
        assert_eq!(moves, 3);
        assert_eq!(client.application.loaded.len(), FILES);
        assert!(matches!(
            client.connection.outcome(),
            Some(Outcome::Closed(_))
        ));
    }

    #[test]
    fn a_stop_tells_the_clients() {
        let mut world = World::new();
        let mut client = world.client(Nothing);
        // (its handshake is over at both ends)
        (0..20).for_each(|_| world.step(&mut client));
        world.server.stop(&mut Outbox::default()).unwrap();
        let connection = &mut client.connection;
        receive_batch(&client.socket, &mut [0; MOST_DATAGRAM], |datagram, from| {
            connection.receive(datagram, from, Instant::now());
        });
        let told = Outcome::PeerClosed {
            by_application: true,
            code: 0,
            reason: "the server stops".to_owned(),
        };
        assert_eq!(client.connection.outcome(), Some(&told));
    }

    #[test]
    fn connections_that_idle_are_not_looked_at() {
        let mut world = World::new();
        let idle: Vec<_> = (0..IDLE).map(|_| world.client(Nothing)).collect();
        let wanted = vec!["Cargo.toml".to_owned(); FILES];
        let mut loader = world.client(RawClient::new(wanted));
        let before = world.server.looks();
        loader.sent = 0;
        let mut turns = 0;
        while loader.connection.outcome().is_none() {
            world.step(&mut loader);
            turns += 1;
        }
        assert_eq!(loader.application.loaded.len(), FILES);
        let looks = world.server.looks() - before;
        // One as a datagram comes, and one as the connection goes on; its timers and those of each idle one are up now and then.
        let most = 4 * loader.sent + 5 * idle.len() as u64;
        assert!(
            looks <= most,
            "{looks} looks in {turns} turns, at most {most}"
        );
    }
}
