//! The layer beneath, as small as it can be: datagrams over UDP without protection, a fixed window, losses by packet
//! threshold and by time (RFC 9002, section 6), and a network that drops, repeats and reorders as it is told.

use gotsavena::{Endpoint, Frame, LostFault, ReceiveFault, frames};
use std::collections::BTreeMap;
use std::error::Error;
use std::io::{self, ErrorKind};
use std::net::UdpSocket;
use std::time::{Duration, Instant};

/// A packet is lost once one that was sent so many numbers later is acknowledged.
const PACKET_THRESHOLD: u64 = 3;

/// What may fail, with any error.
pub type Fallible<T> = Result<T, Box<dyn Error + Send + Sync>>;

/// What the network does to datagrams, in datagrams of a thousand.
#[derive(Clone, Copy, Default)]
pub struct Weather {
    pub dropped: u64,
    pub repeated: u64,
    pub reordered: u64,
    pub seed: u64,
}

/// What became of the packets.
#[derive(Clone, Copy, Default)]
pub struct Counts {
    pub sent: u64,
    pub dropped: u64,
    pub repeated: u64,
    pub reordered: u64,
    pub declared_lost: u64,
}

/// An end on a socket that is connected to its peer's.
pub struct Link {
    pub end: Endpoint,
    pub counts: Counts,
    socket: UdpSocket,
    weather: Weather,
    random: u64,
    held_back: Option<Vec<u8>>,
    in_flight: BTreeMap<u64, Instant>,
    window: usize,
    room: usize,
    round_trip: Duration,
}

impl Link {
    /// At most `window` packets that ask for an ACK are in flight, of at most `room` bytes each.
    pub fn new(
        end: Endpoint,
        socket: UdpSocket,
        weather: Weather,
        window: usize,
        room: usize,
    ) -> io::Result<Link> {
        socket.set_read_timeout(Some(Duration::from_millis(1)))?;
        Ok(Link {
            end,
            counts: Counts::default(),
            socket,
            weather,
            random: weather.seed.wrapping_mul(2).wrapping_add(1),
            held_back: None,
            in_flight: BTreeMap::new(),
            window,
            room,
            round_trip: Duration::from_millis(5),
        })
    }

    /// Takes in what came, waiting a moment for the first datagram where `wait` says so. Answers whether any came.
    pub fn receive(&mut self, wait: bool) -> Fallible<bool> {
        let mut datagram = [0; 16_400];
        let mut came = false;
        self.socket.set_nonblocking(!wait)?;
        loop {
            let len = match self.socket.recv(&mut datagram) {
                Ok(len) => len,
                Err(error) if error.kind() == ErrorKind::WouldBlock => return Ok(came),
                Err(error) if error.kind() == ErrorKind::TimedOut => return Ok(came),
                // The peer's socket is gone.
                Err(error) if error.kind() == ErrorKind::ConnectionRefused => return Ok(came),
                Err(error) => return Err(error.into()),
            };
            if !came {
                came = true;
                self.socket.set_nonblocking(true)?;
            }
            let Some((number, payload)) = datagram[..len].split_first_chunk() else {
                continue;
            };
            let (number, mut acked) = (u64::from_be_bytes(*number), Vec::new());
            let told = |number| acked.push(number);
            match self.end.receive_with_acks(number, payload, told) {
                Ok(_) | Err(ReceiveFault::Invalid) => self.note_acked(&acked)?,
                Err(ReceiveFault::Closing(closing)) => return Err(closing.into()),
                Err(fault) => return Err(fault.into()),
            }
        }
    }

    /// Sends what is due, as far as the window allows; packets that took too long are lost.
    pub fn send(&mut self) -> Fallible<()> {
        let too_old = 4 * self.round_trip.max(Duration::from_millis(5));
        let now = Instant::now();
        while let Some((&number, &at)) = self.in_flight.first_key_value() {
            if now - at < too_old {
                break;
            }
            self.lose(number)?;
        }
        let mut datagram = [0; 16_400];
        while self.in_flight.len() < self.window {
            let room = &mut datagram[8..8 + self.room];
            let Some(made) = self.end.make_packet(room)? else {
                break;
            };
            if asks_for_ack(&room[..made.len]) {
                self.in_flight.insert(made.number, now);
            }
            datagram[..8].copy_from_slice(&made.number.to_be_bytes());
            self.put_on_the_wire(&datagram[..8 + made.len])?;
        }
        Ok(())
    }

    // What is newly acknowledged is in flight no more, and what was sent long before is lost.
    fn note_acked(&mut self, acked: &[u64]) -> Fallible<()> {
        let Some(&largest) = acked.iter().max() else {
            return Ok(());
        };
        if let Some(at) = self.in_flight.get(&largest) {
            self.round_trip = (7 * self.round_trip + at.elapsed()) / 8;
        }
        for number in acked {
            self.in_flight.remove(number);
        }
        while let Some((&number, _)) = self.in_flight.first_key_value() {
            if number + PACKET_THRESHOLD > largest {
                break;
            }
            self.lose(number)?;
        }
        Ok(())
    }

    fn lose(&mut self, number: u64) -> Fallible<()> {
        self.in_flight.remove(&number);
        match self.end.declare_lost(number) {
            Ok(()) => self.counts.declared_lost += 1,
            Err(LostFault::NotOutstanding) => {}
            Err(fault) => return Err(fault.into()),
        }
        Ok(())
    }

    fn put_on_the_wire(&mut self, datagram: &[u8]) -> io::Result<()> {
        self.counts.sent += 1;
        if self.happens(self.weather.dropped) {
            self.counts.dropped += 1;
            return Ok(());
        }
        if self.held_back.is_none() && self.happens(self.weather.reordered) {
            self.counts.reordered += 1;
            self.held_back = Some(datagram.to_vec());
            return Ok(());
        }
        self.transmit(datagram)?;
        if self.happens(self.weather.repeated) {
            self.counts.repeated += 1;
            self.transmit(datagram)?;
        }
        if self.happens(300) {
            if let Some(late) = self.held_back.take() {
                self.transmit(&late)?;
            }
        }
        Ok(())
    }

    // A datagram that the system has no room for, or whose receiver is gone, is lost as any other.
    fn transmit(&self, datagram: &[u8]) -> io::Result<()> {
        match self.socket.send(datagram) {
            Ok(_) => Ok(()),
            Err(error) if error.kind() == ErrorKind::WouldBlock => Ok(()),
            Err(error) if error.kind() == ErrorKind::ConnectionRefused => Ok(()),
            Err(error) => Err(error),
        }
    }

    // Whether something happens to a datagram, by the numbers of a generator (xorshift64*).
    fn happens(&mut self, of_a_thousand: u64) -> bool {
        self.random ^= self.random >> 12;
        self.random ^= self.random << 25;
        self.random ^= self.random >> 27;
        let word = self.random.wrapping_mul(0x2545_f491_4f6c_dd1d) >> 32;
        word % 1000 < of_a_thousand
    }
}

// Whether a packet asks for an ACK (RFC 9002, section 2).
fn asks_for_ack(payload: &[u8]) -> bool {
    frames(payload)
        .flatten()
        .any(|placed| !matches!(placed.frame, Frame::Ack { .. } | Frame::Padding))
}
