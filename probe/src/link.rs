//! A connection that is done with its handshake, over which any payload may go.

use crate::mirror::Place;
use crate::wire::frame;
use gotsavena::{Frame, PeerLimits, Role, Settings, Tuning, frames, put_ack};
use gotsavena_interop::certificate::Identity;
use gotsavena_interop::connection::{Config, Connection, Path};
use gotsavena_interop::packet::{VERSION_1, read_packet};
use gotsavena_interop::program;
use gotsavena_interop::ranges::Numbers;
use gotsavena_interop::tls::server_config;
use std::net::{SocketAddr, UdpSocket};
use std::time::{Duration, Instant};

/// How the other endpoint is reached, and what it is told.
#[derive(Clone, Debug)]
pub struct Way {
    pub alpn: String,
    pub sni: String,
    /// How long a handshake may take.
    pub timeout: Duration,
}

pub struct Link {
    socket: UdpSocket,
    connection: Connection,
    next: u64,
    received: Numbers,
    /// Packets that are never acknowledged: the peer has to take them for lost.
    hidden: Vec<u64>,
    grants: PeerLimits,
    role: Role,
    unopened: u64,
    /// Whether something came that asks for an ACK, and none went since (RFC 9000, section 13.2.1).
    owes_ack: bool,
}

/// No case opens more streams of one direction.
pub const MOST_STREAMS: u64 = 1 << 12;

/// Less than one of the system's ticks is never waited for.
const TICK: Duration = Duration::from_millis(1);

/// What the prober grants: more than any case asks for; or so little that an answer meets each limit.
pub fn settings(is_tight: bool) -> Settings {
    let wide = Settings::default()
        .conn_window(1 << 20)
        .stream_windows(1 << 18)
        .streams(100, 1 << 20);
    match is_tight {
        false => wide,
        true => wide
            .conn_window(5)
            .stream_windows(3)
            .bidi_streams(1, 1)
            .uni_streams(3, 3),
    }
}

impl Link {
    /// A client's, to a server.
    ///
    /// # Errors
    ///
    /// Says why there is no connection.
    pub fn to(address: SocketAddr, way: &Way, is_tight: bool) -> Result<Link, String> {
        let config = config(is_tight);
        let connection = program::client(way.alpn.as_bytes(), &way.sni, VERSION_1, config);
        let connection = connection.map_err(|error| format!("{error:?}"))?;
        let own = match address {
            SocketAddr::V4(_) => "0.0.0.0:0",
            SocketAddr::V6(_) => "[::]:0",
        };
        let socket = UdpSocket::bind(own).map_err(|error| error.to_string())?;
        socket.connect(address).map_err(|error| error.to_string())?;
        Link::begin(socket, connection, Role::Client, config, way)
    }

    /// A server's, to the client that comes.
    ///
    /// # Errors
    ///
    /// Says why there is no connection.
    pub fn from(socket: UdpSocket, way: &Way, is_tight: bool) -> Result<Link, String> {
        let text = |error: std::io::Error| error.to_string();
        let config = config(is_tight);
        let identity = Identity::new().map_err(|error| error.to_string())?;
        let tls = server_config(identity, &[way.alpn.as_bytes()]);
        let tls = tls.map_err(|error| format!("{error:?}"))?;
        socket.set_read_timeout(Some(way.timeout)).map_err(text)?;
        let mut first = vec![0; 65_536];
        let (len, from) = socket
            .recv_from(&mut first)
            .map_err(|_| "no client came".to_owned())?;
        socket.connect(from).map_err(text)?;
        let packet = read_packet(&first[..len]).ok_or("the first datagram is no packet")?;
        let (id, source) = (packet.destination, packet.source);
        let connection = Connection::server(tls, config, id, source, Instant::now());
        let mut connection = connection.map_err(|fault| fault.to_string())?;
        connection.hear();
        connection.receive(&mut first[..len], Path::default(), Instant::now());
        Link::begin(socket, connection, Role::Server, config, way)
    }

    fn begin(
        socket: UdpSocket,
        mut connection: Connection,
        role: Role,
        config: Config,
        way: &Way,
    ) -> Result<Link, String> {
        if role == Role::Client {
            connection.hear();
        }
        shake_hands(&socket, &mut connection, way.timeout)?;
        let next = connection.next_number();
        Ok(Link {
            socket,
            connection,
            next,
            received: Numbers::default(),
            hidden: Vec::new(),
            grants: config.settings.limits(),
            role,
            unopened: 0,
            owes_ack: false,
        })
    }

    /// Where the other endpoint stands, and where this one does.
    pub fn places(&self) -> [Place; 2] {
        let parameters = self.connection.peer_parameters();
        let other = Place {
            role: self.role.peer(),
            grants: parameters.limits,
            peer: self.grants,
            active_ids: parameters.active_ids,
        };
        // Whatever this side sends, the other judges it: here it is followed alone.
        let all = PeerLimits::default()
            .max_data(1 << 60)
            .stream_data(1 << 60)
            .streams_bidi(MOST_STREAMS)
            .streams_uni(MOST_STREAMS);
        let own = Place {
            role: self.role,
            grants: self.grants,
            peer: all,
            active_ids: u64::MAX,
        };
        [other, own]
    }

    pub fn next_number(&self) -> u64 {
        self.next
    }

    /// Datagrams that came and weren't this connection's.
    pub fn unopened(&self) -> u64 {
        self.unopened
    }

    pub fn send(&mut self, payload: &[u8]) -> u64 {
        let number = self.next;
        self.next += 1;
        self.send_as(number, payload);
        number
    }

    /// The same packet may go twice.
    pub fn send_as(&mut self, number: u64, payload: &[u8]) {
        let datagram = self.connection.seal(number, payload);
        // A datagram that the system doesn't take is lost as any other.
        _ = self.socket.send(&datagram);
    }

    /// What is to be acknowledged, and a PING.
    pub fn ping(&mut self) -> u64 {
        let mut payload = self.ack();
        payload.push(0x01);
        self.send(&payload)
    }

    pub fn acknowledge(&mut self) {
        let payload = self.ack();
        if !payload.is_empty() {
            self.send(&payload);
        }
    }

    pub fn owes_ack(&self) -> bool {
        self.owes_ack
    }

    fn ack(&mut self) -> Vec<u8> {
        self.owes_ack = false;
        let mut shown = Numbers::default();
        for &(lowest, highest) in self.received.as_slice() {
            for number in lowest..=highest {
                if !self.hidden.contains(&number) {
                    shown.insert(number);
                }
            }
        }
        let mut text = vec![0; 400];
        let len = put_ack(shown.as_slice(), 0, &mut text).map_or(0, |(_, len)| len);
        text.truncate(len);
        text
    }

    /// From now on this packet counts as lost.
    pub fn hide(&mut self, number: u64) {
        self.hidden.push(number);
    }

    pub fn largest(&self) -> u64 {
        self.received.end().saturating_sub(1)
    }

    /// Takes in what comes within a tick.
    pub fn hear(&mut self) -> Vec<(u64, Vec<u8>)> {
        let mut buffer = [0; 65_536];
        if let Ok(len) = self.socket.recv(&mut buffer) {
            self.connection.overhear(&mut buffer[..len]);
        }
        let heard = self.connection.heard();
        self.unopened += heard.unopened;
        let mut new = Vec::new();
        for (number, payload) in heard.payloads {
            if !self.received.has(number) {
                self.received.insert(number);
                self.owes_ack |= has(&payload, asks_for_ack);
                new.push((number, payload));
            }
        }
        new
    }
}

impl Drop for Link {
    // So that the other side needn't keep it.
    fn drop(&mut self) {
        let close = frame(0x1c, &[0, 0, 0]);
        self.send(&close);
    }
}

fn config(is_tight: bool) -> Config {
    Config {
        settings: settings(is_tight),
        tuning: Tuning::default(),
        most_window: 0,
        idle: Duration::from_secs(30),
        connections: 1,
    }
}

fn shake_hands(
    socket: &UdpSocket,
    connection: &mut Connection,
    timeout: Duration,
) -> Result<(), String> {
    socket
        .set_read_timeout(Some(TICK))
        .map_err(|error| error.to_string())?;
    let begin = Instant::now();
    let (mut out, mut buffer) = (Vec::new(), vec![0; 65_536]);
    loop {
        let now = Instant::now();
        while connection.send(&mut out, now).is_some() {
            _ = socket.send(&out);
        }
        if connection.is_confirmed() {
            return Ok(());
        }
        if now - begin > timeout {
            return Err("no handshake".to_owned());
        }
        match socket.recv(&mut buffer) {
            Ok(len) => {
                connection.receive(&mut buffer[..len], Path::default(), Instant::now());
            }
            Err(error) if error.kind() == std::io::ErrorKind::ConnectionRefused => {
                return Err("no program listens on that port".to_owned());
            }
            Err(_) => {}
        }
        if connection.timer(now).is_some_and(|at| at <= now) {
            connection.time_is_up(now);
        }
        if let Some(outcome) = connection.outcome() {
            return Err(format!("no handshake: {outcome}"));
        }
    }
}

// (RFC 9002, section 2)
fn asks_for_ack(frame: &Frame<'_>) -> bool {
    use Frame::{Ack, ApplicationClose, ConnectionClose, Padding};
    !matches!(
        frame,
        Ack { .. } | Padding | ConnectionClose { .. } | ApplicationClose { .. }
    )
}

/// Whether a payload has such a frame.
pub fn has(payload: &[u8], so: impl Fn(&Frame<'_>) -> bool) -> bool {
    frames(payload).flatten().any(|placed| so(&placed.frame))
}
