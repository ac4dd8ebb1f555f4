//! The loop of a server: every stream that a client opens gets back what it sends. A datagram is a payload behind its
//! number; a real transport protects it, measures the path (RFC 9002) and has many connections.

use gotsavena::{
    Endpoint, LostFault, MakeFault, Read, ReceiveFault, Received, Role, Settings, StreamId,
    UseFault,
};
use std::collections::BTreeMap;
use std::io::ErrorKind::{TimedOut, WouldBlock};
use std::net::UdpSocket;
use std::time::{Duration, Instant};

type Fallible<T> = Result<T, Box<dyn std::error::Error>>;

/// How many packets may be in flight, and after how long one counts as lost. A real transport measures both.
const WINDOW: usize = 64;
const LOST_AFTER: Duration = Duration::from_millis(25);

struct Server {
    socket: UdpSocket,
    end: Endpoint,
    in_flight: BTreeMap<u64, Instant>,
}

fn main() -> Fallible<()> {
    serve(UdpSocket::bind("127.0.0.1:4433")?)
}

/// Serves the first client that sends something, until it closes the connection or breaks a rule.
pub fn serve(socket: UdpSocket) -> Fallible<()> {
    let (_, client) = socket.peek_from(&mut [0; 8])?;
    socket.connect(client)?;
    // So short, so that losses are noticed in time.
    socket.set_read_timeout(Some(Duration::from_millis(1)))?;
    // A server's defaults, without streams on which nothing can go back. A handshake would tell what the client grants.
    let settings = Settings::default().uni_streams(0, 0);
    let end = Endpoint::new(Role::Server, settings, settings.limits())?;
    let (in_flight, mut streams) = (BTreeMap::new(), Vec::new());
    let mut server = Server {
        socket,
        end,
        in_flight,
    };
    while server.receive()? {
        let end = &mut server.end;
        streams.extend(std::iter::from_fn(|| end.accept()).map(|stream| (stream, Vec::new())));
        // Streams that go on stay in the list. One that is refused memory is tried again.
        streams.retain_mut(|(stream, kept)| {
            echo(end, *stream, kept).unwrap_or_else(|fault| fault == UseFault::NoMemory)
        });
        server.lose();
        server.send()?;
    }
    Ok(())
}

impl Server {
    /// One datagram takes effect, if one comes soon. Answers whether the connection goes on.
    fn receive(&mut self) -> Fallible<bool> {
        let mut datagram = [0; 1500];
        let len = match self.socket.recv(&mut datagram) {
            Ok(len) => len,
            Err(error) if matches!(error.kind(), WouldBlock | TimedOut) => return Ok(true),
            Err(error) => return Err(error.into()),
        };
        let Some((number, payload)) = datagram[..len].split_first_chunk() else {
            return Ok(true);
        };
        let acked = |number| _ = self.in_flight.remove(&number);
        let number = u64::from_be_bytes(*number);
        match self.end.receive_with_acks(number, payload, acked) {
            Ok(Received::PeerClosed(_)) => Ok(false),
            // It took effect or came before. Or memory was refused: then it counts as lost, and comes again.
            Ok(_) | Err(ReceiveFault::Invalid) => Ok(true),
            Err(fault) => self.close().and(Err(fault.into())),
        }
    }

    /// What is in flight for too long is lost: it is due again.
    fn lose(&mut self) {
        while let Some((&number, sent)) = self.in_flight.first_key_value() {
            let is_late = sent.elapsed() >= LOST_AFTER;
            if !is_late || self.end.declare_lost(number) == Err(LostFault::NoMemory) {
                return;
            }
            self.in_flight.remove(&number);
        }
    }

    /// What is due goes out, as far as the window permits. A packet with an ACK alone always may.
    fn send(&mut self) -> Fallible<()> {
        let mut datagram = [0; 1208];
        loop {
            let made = match self.in_flight.len() < WINDOW {
                true => self.end.make_packet(&mut datagram[8..]),
                false => self.end.make_ack(0, &mut datagram[8..]),
            };
            let made = match made {
                Ok(Some(made)) => made,
                Ok(None) | Err(MakeFault::NoMemory) => return Ok(()),
                Err(fault) => return Err(fault.into()),
            };
            if made.is_ack_eliciting {
                self.in_flight.insert(made.number, Instant::now());
            }
            datagram[..8].copy_from_slice(&made.number.to_be_bytes());
            self.socket.send(&datagram[..8 + made.len])?;
        }
    }

    /// Tells the client why, in a packet of its own. A real transport does so again if more comes (RFC 9000, section 10.2.1).
    fn close(&mut self) -> Fallible<()> {
        let mut datagram = [0; 128];
        datagram[..8].copy_from_slice(&self.end.claim_number()?.to_be_bytes());
        if let Some(len) = self.end.close_payload(&mut datagram[8..]) {
            self.socket.send(&datagram[..8 + len])?;
        }
        Ok(())
    }
}

/// Sends back what came until nothing is left, or the stream's buffer is full. Answers whether the stream goes on.
fn echo(end: &mut Endpoint, stream: StreamId, kept: &mut Vec<u8>) -> Result<bool, UseFault> {
    let mut bytes = [0; 4096];
    loop {
        if kept.is_empty() {
            match end.read(stream, &mut bytes)? {
                Read::Bytes(count) => kept.extend_from_slice(&bytes[..count]),
                Read::Wait => return Ok(true),
                Read::End => return end.finish(stream).and(Ok(false)),
                Read::Reset(code) => return end.reset(stream, code).and(Ok(false)),
            }
        }
        match end.write(stream, kept) {
            Ok(0) => return Ok(true),
            Ok(count) => drop(kept.drain(..count)),
            // The client stopped it. What it sends is read on to its end, or it could open no stream in place of this one.
            Err(UseFault::WasReset) => kept.clear(),
            Err(fault) => return Err(fault),
        }
    }
}
