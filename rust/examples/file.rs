//! Sends a file from one process to another over UDP: `file receive ADDRESS COPY` in one terminal, then
//! `file send ADDRESS FILE` in another. A datagram is a packet number and a payload; a real transport encrypts both.

use gotsavena::{Dir, Endpoint, LostFault, Read, Received, Role, SendState, Settings};
use std::collections::BTreeMap;
use std::fs::File;
use std::io::{ErrorKind, Read as _, Write as _};
use std::net::{SocketAddr, UdpSocket};
use std::time::{Duration, Instant};

type Fallible<T> = Result<T, Box<dyn std::error::Error>>;

/// How many packets may be in flight. A real transport adapts this to the path (RFC 9002, section 7).
const WINDOW: usize = 64;
/// How long a packet may be in flight before it counts as lost. A real transport measures the path (RFC 9002, section 6).
const LOST_AFTER: Duration = Duration::from_millis(25);
/// The receiver's last ACK may be lost, and the sender then repeats its last packets. So the receiver stays until it
/// hears nothing for so long.
const SILENCE: Duration = Duration::from_millis(500);

struct Link {
    socket: UdpSocket,
    peer: SocketAddr,
    end: Endpoint,
    in_flight: BTreeMap<u64, Instant>,
}

impl Link {
    fn new(role: Role, socket: UdpSocket, peer: SocketAddr) -> Fallible<Link> {
        socket.set_read_timeout(Some(Duration::from_millis(1)))?;
        // A handshake would carry the limits of each endpoint to the other. Here both have the same settings.
        let settings = Settings::default();
        let end = Endpoint::new(role, settings, settings.limits())?;
        Ok(Link {
            socket,
            peer,
            end,
            in_flight: BTreeMap::new(),
        })
    }

    /// Takes in one datagram. It waits a millisecond for it at most, and returns whether one came.
    fn receive(&mut self) -> Fallible<bool> {
        let mut datagram = [0; 1500];
        let len = match self.socket.recv_from(&mut datagram) {
            Ok((len, from)) if from == self.peer => len,
            Ok(_) => return Ok(false),
            Err(error) if error.kind() == ErrorKind::WouldBlock => return Ok(false),
            Err(error) => return Err(error.into()),
        };
        if let Some((number, payload)) = datagram[..len].split_first_chunk() {
            let (number, end) = (u64::from_be_bytes(*number), &mut self.end);
            let acked = |number| _ = self.in_flight.remove(&number);
            let received = end.receive_with_acks(number, payload, acked)?;
            if let Received::PeerClosed(code) = received {
                return Err(format!("the peer closed with code {code}").into());
            }
            // Any other took effect, or came before, or memory was refused: then it counts as lost and comes again.
        }
        Ok(true)
    }

    /// Sends what is pending, as far as the window allows: data, limits and ACKs. What a lost packet carried is pending again.
    fn send(&mut self) -> Fallible<()> {
        let now = Instant::now();
        while let Some((&number, &sent)) = self.in_flight.first_key_value() {
            if now - sent < LOST_AFTER {
                break;
            }
            self.in_flight.remove(&number);
            match self.end.declare_lost(number) {
                Ok(()) | Err(LostFault::NotOutstanding) => {}
                Err(fault) => return Err(fault.into()),
            }
        }
        let mut datagram = [0; 1208];
        while self.in_flight.len() < WINDOW {
            let Some(made) = self.end.make_packet(&mut datagram[8..])? else {
                break;
            };
            if made.is_ack_eliciting {
                self.in_flight.insert(made.number, now);
            }
            datagram[..8].copy_from_slice(&made.number.to_be_bytes());
            self.socket.send_to(&datagram[..8 + made.len], self.peer)?;
        }
        Ok(())
    }
}

fn send(address: &str, mut file: File) -> Fallible<()> {
    let socket = UdpSocket::bind("127.0.0.1:0")?;
    let mut link = Link::new(Role::Client, socket, address.parse()?)?;
    let stream = link.end.open(Dir::Uni)?;
    let (mut bytes, mut rest) = ([0; 4096], 0..0);
    let mut is_whole = false;
    loop {
        // Bytes are written until the stream's buffer is full: there is room again as packets are acknowledged.
        while !is_whole && link.end.room(stream) > 0 {
            if rest.is_empty() {
                rest = 0..file.read(&mut bytes)?;
            }
            if rest.is_empty() {
                link.end.finish(stream)?;
                is_whole = true;
            } else {
                rest.start += link.end.write(stream, &bytes[rest.clone()])?;
            }
        }
        // The sender may leave once the receiver has acknowledged every byte and the end of the stream.
        let half = link.end.report(stream).and_then(|both| both.send);
        if half.is_some_and(|half| half.state == SendState::DataRecvd) {
            return Ok(());
        }
        link.send()?;
        link.receive()?;
    }
}

fn receive(address: &str, mut file: File) -> Fallible<()> {
    let socket = UdpSocket::bind(address)?;
    let (_, sender) = socket.peek_from(&mut [0; 8])?;
    let mut link = Link::new(Role::Server, socket, sender)?;
    let (mut stream, mut bytes, mut heard) = (None, [0; 4096], Instant::now());
    loop {
        if link.receive()? {
            heard = Instant::now();
        }
        stream = stream.or_else(|| link.end.accept());
        while let Some(stream) = stream {
            match link.end.read(stream, &mut bytes)? {
                Read::Bytes(count) => file.write_all(&bytes[..count])?,
                Read::End if heard.elapsed() > SILENCE => return Ok(()),
                Read::Reset(code) => return Err(format!("the sender gave up: {code}").into()),
                Read::Wait | Read::End => break,
            }
        }
        link.send()?;
    }
}

fn main() -> Fallible<()> {
    let words: Vec<String> = std::env::args().skip(1).collect();
    match words.iter().map(String::as_str).collect::<Vec<_>>()[..] {
        ["send", address, path] => send(address, File::open(path)?),
        ["receive", address, path] => receive(address, File::create(path)?),
        _ => Err("usage: file send ADDRESS FILE, or file receive ADDRESS COPY".into()),
    }
}
