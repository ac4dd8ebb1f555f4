//! A client: one connection on a socket of its own.

use crate::connection::Connection;
use crate::fault::{Close, Outcome};
use crate::program::{Refusal, tell_more};
use crate::server::{receive_batch, turn};
use crate::socket::{MOST_DATAGRAM, Outbox, Socket};
use crate::streams::Application;
use gotsavena::Endpoint;
use std::io::{self, ErrorKind};
use std::net::{SocketAddr, UdpSocket};
use std::thread;
use std::time::{Duration, Instant};

/// How long a server may be silent if its name has another address: long enough for a slow path, and short enough to try the next.
const PATIENCE: Duration = Duration::from_secs(3);

/// How long a client waits if streams are all that it waits for: the server's grant may be lost with its close.
const STREAM_PATIENCE: Duration = Duration::from_secs(1);

pub fn connect(server: SocketAddr) -> io::Result<Socket> {
    let own = match server {
        SocketAddr::V4(_) => "0.0.0.0:0",
        SocketAddr::V6(_) => "[::]:0",
    };
    let socket = UdpSocket::bind(own)?;
    socket.connect(server)?;
    Socket::new(socket)
}

/// Goes to the first of a server's addresses that answers, and on until the connection ends. A connection is made for each, since a
/// handshake can't move to another server.
pub fn visit<A: Application>(
    addresses: &[SocketAddr],
    make: impl Fn() -> Result<Connection, Refusal>,
    application: &mut A,
) -> Result<Outcome, Refusal> {
    let mut rest = addresses.iter();
    while let Some(address) = rest.next() {
        let is_last = rest.len() == 0;
        let mut connection = make()?;
        let patience = Patience {
            word_until: (!is_last).then(|| Instant::now() + PATIENCE),
            stream_until: None,
        };
        let ended = connect(*address)
            .and_then(|socket| run_until(&socket, &mut connection, application, patience));
        match ended {
            Ok(outcome) if is_last || connection.has_peer() => return Ok(outcome),
            Err(error) if is_last => return Err(Refusal::failure(error)),
            Ok(outcome) => tell_more(&format!("{address}: {outcome}")),
            Err(error) => tell_more(&format!("{address}: {error}")),
        }
    }
    Err(Refusal::failure("a server without an address"))
}

struct Nothing;

impl Application for Nothing {
    const NO_ERROR: u64 = 0;

    fn progress(&mut self, _end: &mut Endpoint) -> Result<(), Close> {
        Ok(())
    }
}

/// How many connections are opened at once: more datagrams than so many begin with don't fit into a socket's buffer.
const AT_ONCE: usize = 50;

/// The server has so long to process the closes of so many, before the next ones fill its buffer.
const PAUSE: Duration = Duration::from_millis(50);

pub fn connect_often(
    server: SocketAddr,
    make: impl Fn() -> Result<Connection, Refusal>,
    count: usize,
) -> Result<(), Refusal> {
    let mut visits = Vec::new();
    for _ in 0..count {
        visits.push((connect(server).map_err(Refusal::failure)?, make()?));
    }
    for some in visits.chunks_mut(AT_ONCE) {
        while some
            .iter_mut()
            .any(|(_, connection)| connection.end().is_none())
        {
            for (socket, connection) in &mut *some {
                go_on(socket, connection);
                if let Some(outcome) = connection.outcome() {
                    return Err(Refusal::Failure(format!("a connection ended: {outcome}")));
                }
            }
        }
    }
    for some in visits.chunks_mut(AT_ONCE) {
        for (socket, connection) in some {
            connection.close(Close::new(Nothing::NO_ERROR, "enough"), Instant::now());
            go_on(socket, connection);
        }
        thread::sleep(PAUSE);
    }
    Ok(())
}

fn go_on(socket: &Socket, connection: &mut Connection) {
    let now = Instant::now();
    let out = &mut Outbox::default();
    turn(connection, &mut Nothing, out, |bytes, size, to| {
        socket.send(bytes, size, to)
    });
    receive_batch(socket, &mut [0; MOST_DATAGRAM], |datagram, from| {
        connection.receive(datagram, from, now);
    });
    if connection.timer(now).is_some_and(|at| at <= now) {
        connection.time_is_up(now);
    }
}

pub trait Errand: Application {
    fn is_over(&self) -> bool;

    fn done(&self) -> usize;

    /// Goes on with a new connection: what wasn't answered is asked for again, because the server refused only what it hadn't begun.
    fn begin_anew(&mut self);
}

/// Does an errand, and answers over how many connections. Each ends with this code, by either end's wish, or, where something was done
/// on it, by silence: a close may be lost.
pub fn run_errand<E: Errand>(
    addresses: &[SocketAddr],
    make: impl Fn() -> Result<Connection, Refusal>,
    errand: &mut E,
    no_error: u64,
) -> Result<usize, Refusal> {
    for connections in 1.. {
        let before = errand.done();
        let outcome = visit(addresses, &make, errand)?;
        let ended_well = match &outcome {
            Outcome::Closed(close) => close.code == no_error,
            Outcome::PeerClosed {
                by_application,
                code,
                ..
            } => *by_application && *code == no_error,
            _ => false,
        };
        match ended_well {
            true if errand.is_over() => return Ok(connections),
            _ if errand.done() > before && (ended_well || outcome == Outcome::Idle) => {
                errand.begin_anew();
            }
            _ => {
                let reason = format!("the connection ended: {outcome}");
                return Err(Refusal::Failure(reason));
            }
        }
    }
    Ok(0)
}

struct Patience {
    /// Until when the server has to say something, where its name has another address.
    word_until: Option<Instant>,
    /// Until when it has to grant a stream, where the client waits for nothing else: its close may be lost.
    stream_until: Option<Instant>,
}

impl Patience {
    fn until<A: Application>(
        &mut self,
        connection: &mut Connection,
        application: &A,
        now: Instant,
    ) -> Option<Instant> {
        let waits = connection.end().is_some() && application.waits_for_streams();
        self.stream_until = waits.then(|| self.stream_until.unwrap_or(now + STREAM_PATIENCE));
        let word_until = self.word_until.filter(|_| !connection.has_peer());
        word_until.or(self.stream_until)
    }
}

fn is_refusal(sent: &io::Result<()>) -> bool {
    matches!(sent, Err(error) if error.kind() == ErrorKind::ConnectionRefused)
}

fn run_until<A: Application>(
    socket: &Socket,
    connection: &mut Connection,
    application: &mut A,
    mut patience: Patience,
) -> io::Result<Outcome> {
    let (mut out, mut buffer) = (Outbox::default(), vec![0; MOST_DATAGRAM]);
    loop {
        let mut is_refused = false;
        let more = turn(connection, application, &mut out, |bytes, size, to| {
            let sent = socket.send(bytes, size, to);
            is_refused |= is_refusal(&sent);
            sent
        });
        if let (Some(outcome), false) = (connection.outcome(), more) {
            return Ok(outcome.clone());
        }
        let now = Instant::now();
        let patient_until = patience.until(connection, application, now);
        if patient_until.is_some_and(|at| at <= now) {
            return Ok(Outcome::Idle);
        }
        let timers = connection.timer(now).into_iter().chain(patient_until);
        let until = timers.chain(more.then_some(now)).min();
        socket.wait(until, None)?;
        is_refused |= receive_batch(socket, &mut buffer, |datagram, from| {
            connection.receive(datagram, from, Instant::now());
        });
        // A server that answered before has a port: then only its silence tells that it is gone.
        if is_refused && !connection.has_peer() {
            return Ok(Outcome::Refused);
        }
        let now = Instant::now();
        if connection.timer(now).is_some_and(|at| at <= now) {
            connection.time_is_up(now);
        }
    }
}

#[cfg(test)]
mod tests {
    use super::*;
    use crate::certificate::Identity;
    use crate::connection::Config;
    use crate::files::Folder;
    use crate::packet::VERSION_1;
    use crate::program::client;
    use crate::raw::{PROTOCOL, RawClient, RawServer};
    use crate::server::Server;
    use crate::stop::Stop;
    use crate::tls::server_config;
    use gotsavena::{Settings, Tuning};

    const FILE: &str = "src/client.rs";

    fn config() -> Config {
        let settings = Settings::small()
            .conn_window(1 << 20)
            .stream_windows(1 << 16);
        let idle = Duration::from_secs(30);
        Config {
            settings,
            tuning: Tuning::default(),
            most_window: 0,
            connections: 1,
            idle,
        }
    }

    fn begin_server() -> SocketAddr {
        let socket = UdpSocket::bind("127.0.0.1:0").unwrap();
        let address = socket.local_addr().unwrap();
        let folder = Folder::open(env!("CARGO_MANIFEST_DIR")).unwrap();
        let tls = server_config(Identity::new().unwrap(), &[PROTOCOL]).unwrap();
        thread::spawn(move || {
            let make = move |_| RawServer::new(folder.clone());
            Server::new(socket, tls, config(), make)?.run(&Stop::default())
        });
        address
    }

    #[test]
    fn addresses_are_tried_in_order() {
        let make = || client(PROTOCOL, "localhost", VERSION_1, config());
        let load = |addresses: &[SocketAddr]| {
            let begin = Instant::now();
            let mut loader = RawClient::new(vec![FILE.to_owned()]);
            let outcome = visit(addresses, make, &mut loader).unwrap();
            (outcome, loader.loaded, begin.elapsed())
        };
        let server = begin_server();
        let silent = UdpSocket::bind("127.0.0.1:0").unwrap();
        let silent = (silent.local_addr().unwrap(), silent);
        // No one listens there once the socket is gone.
        let gone = UdpSocket::bind("127.0.0.1:0").unwrap().local_addr();
        let gone = gone.unwrap();

        let (outcome, loaded, _) = load(&[gone, server, silent.0]);
        assert!(matches!(outcome, Outcome::Closed(_)));
        let text = std::fs::read(concat!(env!("CARGO_MANIFEST_DIR"), "/src/client.rs")).unwrap();
        assert_eq!(loaded, [(FILE.to_owned(), Some(text))]);
        let (outcome, loaded, time) = load(&[silent.0, gone, server]);
        assert!(matches!(outcome, Outcome::Closed(_)));
        assert_eq!(loaded.len(), 1);
        assert!(time >= PATIENCE && time < 4 * PATIENCE, "{time:?}");
        let (outcome, _, time) = load(&[gone, gone]);
        assert_eq!(outcome, Outcome::Refused);
        assert!(time < Duration::from_secs(1), "{time:?}");
    }
}
