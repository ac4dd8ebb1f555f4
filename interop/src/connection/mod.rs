//! One connection: the stream layer's endpoint, with handshake, protection, loss detection and timers around it.
//!
//! Datagrams go in by [`Connection::receive`] and come out of [`Connection::send`]; [`Connection::timer`] says when
//! [`Connection::time_is_up`] is to be called. Once the handshake is done, [`Connection::end`] is the endpoint, whose streams the
//! application uses.

mod ending;
mod frames;
mod handshake;
mod moving;
pub mod probing;
mod receive;
mod send;
#[cfg(test)]
mod tests;

use crate::crypto::{CryptoIn, CryptoOut};
use crate::fault::{Fault, Outcome};
use crate::ids::{ACTIVE_IDS, PeerIds};
use crate::packet::{ConnectionId, Level, OWN_ID_LEN, VERSION_1};
use crate::parameters::Parameters;
use crate::priorities::Priorities;
use crate::protection::DataKeys;
use crate::qlog::Trace;
use crate::ranges::Numbers;
use crate::recovery::{Control, Recovery, Standing};
use crate::tls::Session;
use crate::windows::Windows;
use ending::State;
use gotsavena::{Endpoint, Role, Settings, StreamId, Tuning};
use moving::Moving;
use ring::rand::{SecureRandom, SystemRandom};
use rustls::quic::{Keys, Version};
use rustls::{ClientConfig, ServerConfig};
use std::collections::VecDeque;
use std::sync::Arc;
use std::time::{Duration, Instant};

pub use crate::path_size::DATAGRAM;
pub use moving::Path;

/// How late an ACK is at the most (RFC 9000, section 13.2.1). One is due with each packet: it waits for the loop's turn alone.
const MAX_ACK_DELAY: Duration = Duration::from_millis(5);

/// A bound on 1-RTT packets kept before the handshake is done, as nobody has proved an address yet.
const MOST_EARLY: usize = 32;

#[derive(Clone, Copy, Debug)]
pub struct Config {
    pub settings: Settings,
    pub tuning: Tuning,
    /// How far the window of a stream may grow by itself.
    pub most_window: u64,
    pub idle: Duration,
    /// How many a server has at most.
    pub connections: usize,
}

#[derive(Clone)]
pub struct ClientSetup {
    pub tls: Arc<ClientConfig>,
    pub name: String,
    /// One that the server doesn't speak makes it negotiate, which a test wants.
    pub version: u32,
}

#[derive(Default)]
struct Space {
    keys: Option<Keys>,
    next_number: u64,
    received: Numbers,
    is_ack_due: bool,
    out: CryptoOut,
    incoming: CryptoIn,
    /// Probes go whatever the window says: without them nothing would end a silence.
    probes: u32,
}

#[derive(Default)]
struct Known {
    has_opened: bool,
    has_peer_id: bool,
    /// Until then little is sent there, lest it be somebody else's (RFC 9000, section 8.1).
    is_validated: bool,
    /// Whether it acknowledged a packet of the Handshake space.
    is_handshake_acked: bool,
    is_confirmed: bool,
}

pub struct Connection {
    role: Role,
    config: Config,
    version: u32,
    session: Session,
    client: Option<ClientSetup>,
    write_level: Level,
    spaces: [Space; 3],
    data_keys: Option<DataKeys>,
    end: Option<Endpoint>,
    windows: Windows,
    /// The stream behind the one that sent last, for round-robin: from it on the next packet takes data.
    turn: StreamId,
    priorities: Priorities,
    /// One more than the largest number of a 1-RTT packet that came.
    expected: u64,
    early: Vec<Vec<u8>>,
    recovery: Recovery,
    own_id: ConnectionId,
    first_destination: ConnectionId,
    retry_source: Option<ConnectionId>,
    token: Vec<u8>,
    peer_ids: PeerIds,
    moving: Moving,
    peer: Parameters,
    controls: VecDeque<Control>,
    known: Known,
    bytes_in: usize,
    bytes_out: usize,
    last_active: Instant,
    asked_since_active: bool,
    state: State,
    outcome: Option<Outcome>,
    trace: Option<Trace>,
    heard: Option<probing::Heard>,
}

// Around to the lowest, so that no stream waits for ever.
fn stream_behind(last: Option<StreamId>) -> StreamId {
    last.and_then(StreamId::next)
        .unwrap_or(StreamId::new(0).expect("it is below 2^62"))
}

fn random_id() -> Result<ConnectionId, Fault> {
    let mut bytes = [0; OWN_ID_LEN];
    SystemRandom::new()
        .fill(&mut bytes)
        .map_err(|_| Fault::new(crate::fault::INTERNAL_ERROR, 0, "no random bytes"))?;
    Ok(ConnectionId::new(&bytes).unwrap_or_default())
}

impl Connection {
    pub fn client(setup: ClientSetup, config: Config, now: Instant) -> Result<Connection, Fault> {
        let own_id = random_id()?;
        let destination = random_id()?;
        let told = own_parameters(&config, own_id);
        let session = Session::client(setup.tls.clone(), &setup.name, told.write())?;
        let mut connection =
            Connection::new(Role::Client, config, session, own_id, destination, now);
        connection.tell_parameters(&told, now);
        connection.version = setup.version;
        connection.client = Some(setup);
        connection.known.is_validated = true;
        connection.peer_ids = PeerIds::new(destination);
        connection.pull_handshake()?;
        Ok(connection)
    }

    pub fn server(
        tls: Arc<ServerConfig>,
        config: Config,
        destination: ConnectionId,
        source: ConnectionId,
        now: Instant,
    ) -> Result<Connection, Fault> {
        let own_id = random_id()?;
        let mut told = own_parameters(&config, own_id);
        told.stays = false;
        told.original_destination = Some(destination);
        let session = Session::server(tls, told.write())?;
        let mut connection =
            Connection::new(Role::Server, config, session, own_id, destination, now);
        connection.tell_parameters(&told, now);
        connection.peer_ids = PeerIds::new(source);
        connection.known.has_peer_id = true;
        Ok(connection)
    }

    fn new(
        role: Role,
        config: Config,
        session: Session,
        own_id: ConnectionId,
        destination: ConnectionId,
        now: Instant,
    ) -> Connection {
        Connection {
            role,
            config,
            version: VERSION_1,
            session,
            client: None,
            write_level: Level::Initial,
            spaces: first_spaces(role, destination),
            data_keys: None,
            end: None,
            windows: Windows::new(role, config.settings.limits(), config.most_window, now),
            turn: stream_behind(None),
            priorities: Priorities::default(),
            expected: 0,
            early: Vec::new(),
            recovery: Recovery::new(DATAGRAM),
            own_id,
            first_destination: destination,
            retry_source: None,
            token: Vec::new(),
            peer_ids: PeerIds::new(ConnectionId::default()),
            moving: Moving::default(),
            peer: Parameters::default(),
            controls: VecDeque::new(),
            known: Known::default(),
            bytes_in: 0,
            bytes_out: 0,
            last_active: now,
            asked_since_active: false,
            state: State::Open,
            outcome: None,
            trace: Trace::begin(role, destination, now),
            heard: None,
        }
    }

    fn tell_parameters(&mut self, told: &Parameters, now: Instant) {
        if let Some(trace) = &mut self.trace {
            trace.parameters("local", told, now);
        }
    }

    pub fn end(&mut self) -> Option<&mut Endpoint> {
        match self.state {
            State::Open if self.session.is_done() => self.end.as_mut(),
            _ => None,
        }
    }

    pub fn priorities(&mut self) -> &mut Priorities {
        &mut self.priorities
    }

    pub fn last_end(&self) -> Option<&Endpoint> {
        self.end.as_ref()
    }

    pub fn protocol(&self) -> Option<&[u8]> {
        self.session.protocol()
    }

    pub fn outcome(&self) -> Option<&Outcome> {
        self.outcome.as_ref()
    }

    pub fn was_open(&self) -> bool {
        self.session.is_done()
    }

    pub fn is_gone(&self) -> bool {
        matches!(self.state, State::Gone)
    }

    pub fn has_peer(&self) -> bool {
        self.known.has_opened
    }

    /// The system didn't take a datagram of this size: the link's is smaller.
    pub fn was_too_large(&mut self, size: usize) {
        self.recovery.was_too_large(size);
    }

    /// How many key updates there were (RFC 9001, section 6).
    pub fn key_updates(&self) -> u64 {
        self.data_keys.as_ref().map_or(0, |keys| keys.updates)
    }

    fn space(&mut self, level: Level) -> &mut Space {
        &mut self.spaces[level as usize]
    }

    /// How much may go for now: three times what came, until the address is validated (RFC 9000, section 8).
    fn bound(&self) -> usize {
        match self.known.is_validated {
            true => usize::MAX,
            false => (3 * self.bytes_in).saturating_sub(self.bytes_out),
        }
    }

    fn standing(&self) -> Standing {
        Standing {
            has_handshake_keys: self.spaces[Level::Handshake as usize].keys.is_some(),
            is_confirmed: self.known.is_confirmed,
            peer_validated: self.role == Role::Server
                || self.known.is_handshake_acked
                || self.known.is_confirmed,
            is_held_back: self.bound() < DATAGRAM,
        }
    }
}

/// Known from the first packet's identifier alone, so that a server needs no state to read it (RFC 9001, section 5.2).
fn first_spaces(role: Role, destination: ConnectionId) -> [Space; 3] {
    let mut spaces: [Space; 3] = Default::default();
    let (id, is_client) = (destination.as_slice(), role == Role::Client);
    spaces[Level::Initial as usize].keys = Some(Keys::initial(Version::V1, id, is_client));
    spaces
}

fn own_parameters(config: &Config, own_id: ConnectionId) -> Parameters {
    Parameters {
        limits: config.settings.limits(),
        idle: config.idle,
        max_ack_delay: MAX_ACK_DELAY,
        active_ids: ACTIVE_IDS,
        initial_source: Some(own_id),
        stays: true,
        ..Parameters::default()
    }
}
