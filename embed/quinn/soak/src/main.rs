//! Streams between two processes, each byte compared.
//!
//! `soak server CERTIFICATE WINDOW STREAMS` makes a certificate and writes it there, and serves one connection with so many streams.
//! `soak client ADDRESS CERTIFICATE WINDOW STREAMS` opens them, 32 at a time; both ends write on each and read it. `soak relay ADDRESS
//! DROPS` carries datagrams between a client and that address, and drops so many of 100. Those that listen say 'listening on ADDRESS'.
//! What a stream carries, and whether its writer resets it or its reader stops it half way, follows from its number.
use std::error::Error;
use std::net::{SocketAddr, UdpSocket};
use std::sync::Arc;
use std::time::Duration;
use std::{env, fs, io, thread};

use quinn::{
    ClientConfig, Connection, ConnectionError, Endpoint, ReadError, RecvStream, SendStream,
    ServerConfig,
};
use quinn::{TransportConfig, VarInt, WriteError};
use tokio::sync::Semaphore;

const RESET: VarInt = VarInt::from_u32(7);
const STOPPED: VarInt = VarInt::from_u32(9);

type Fault = Box<dyn Error + Send + Sync>;

/// One direction of a stream.
#[derive(Clone, Copy)]
struct Way {
    mixed: u64,
}

impl Way {
    fn new(stream: u64, is_answer: bool) -> Way {
        Way {
            mixed: ((stream * 2 + u64::from(is_answer) + 1).wrapping_mul(0x9e37_79b9_7f4a_7c15))
                >> 20,
        }
    }

    fn size(self) -> usize {
        match self.mixed / 8 % 8 {
            0 => 0,
            1 => (self.mixed / 64 % 1_000_000) as usize,
            _ => (self.mixed / 64 % 30_000) as usize,
        }
    }

    fn is_reset(self) -> bool {
        self.mixed % 8 == 1
    }

    fn is_stopped(self) -> bool {
        self.mixed % 8 == 2
    }

    fn byte(self, offset: usize) -> u8 {
        (self.mixed as usize ^ offset ^ (offset >> 8)) as u8
    }
}

fn wrong(stream: &str, what: impl std::fmt::Debug) -> Fault {
    format!("stream {stream}: {what:?}").into()
}

async fn write(mut half: SendStream, way: Way) -> Result<usize, Fault> {
    let name = half.id().to_string();
    let until = if way.is_reset() { way.size() / 2 } else { way.size() };
    let mut at = 0;
    while at < until {
        let end = until.min(at + 1 + (way.mixed as usize + at) % 9_000);
        let bytes: Vec<u8> = (at..end).map(|offset| way.byte(offset)).collect();
        match half.write(&bytes).await {
            Ok(count) => at += count,
            Err(WriteError::Stopped(STOPPED)) if way.is_stopped() => return Ok(at),
            Err(error) => return Err(wrong(&name, error)),
        }
    }
    if way.is_reset() {
        half.reset(RESET).map_err(|_| wrong(&name, "reset"))?;
        return Ok(at);
    }
    match half.finish().await {
        Ok(()) => Ok(at),
        Err(WriteError::Stopped(STOPPED)) if way.is_stopped() => Ok(at),
        // (the client closes once it has all)
        Err(WriteError::ConnectionLost(ConnectionError::ApplicationClosed(_))) => Ok(at),
        Err(error) => Err(wrong(&name, error)),
    }
}

async fn read(mut half: RecvStream, way: Way) -> Result<usize, Fault> {
    let name = half.id().to_string();
    let mut at = 0;
    loop {
        if way.is_stopped() && at >= way.size() / 2 {
            let _ = half.stop(STOPPED);
            return Ok(at);
        }
        match half.read_chunk(usize::MAX, true).await {
            Ok(Some(chunk)) => {
                if chunk.offset != at as u64 || at + chunk.bytes.len() > way.size() {
                    return Err(wrong(&name, (chunk.offset, chunk.bytes.len())));
                }
                if let Some(place) =
                    (0..chunk.bytes.len()).find(|place| chunk.bytes[*place] != way.byte(at + place))
                {
                    return Err(wrong(&name, ("another byte", at + place)));
                }
                at += chunk.bytes.len();
            }
            Ok(None) if at == way.size() && !way.is_reset() => return Ok(at),
            Err(ReadError::Reset(RESET)) if way.is_reset() => return Ok(at),
            end => return Err(wrong(&name, (end.map(|_| ()), at, way.size()))),
        }
    }
}

/// Both halves of a stream at one end. It answers how many bytes were read.
async fn both(
    halves: (SendStream, RecvStream),
    stream: u64,
    is_client: bool,
) -> Result<usize, Fault> {
    let sending = tokio::spawn(write(halves.0, Way::new(stream, !is_client)));
    let count = read(halves.1, Way::new(stream, is_client)).await?;
    sending.await??;
    Ok(count)
}

fn transport(window: &str) -> Result<Arc<TransportConfig>, Fault> {
    let window: u32 = window.parse()?;
    let mut config = TransportConfig::default();
    config.stream_receive_window(window.into()).receive_window(window.saturating_mul(4).into());
    Ok(Arc::new(config))
}

async fn server(certificate: &str, window: &str, streams: u64) -> Result<(), Fault> {
    let made = rcgen::generate_simple_self_signed(vec!["localhost".into()])?;
    let key = rustls::PrivateKey(made.serialize_private_key_der());
    let mut config =
        ServerConfig::with_single_cert(vec![rustls::Certificate(made.serialize_der()?)], key)?;
    config.transport_config(transport(window)?);
    let endpoint = Endpoint::server(config, "127.0.0.1:0".parse()?)?;
    fs::write(certificate, made.serialize_der()?)?;
    println!("listening on {}", endpoint.local_addr()?);
    let connection = endpoint.accept().await.ok_or("no connection")?.await?;
    let mut all = Vec::new();
    for stream in 0..streams {
        all.push(tokio::spawn(both(connection.accept_bi().await?, stream, false)));
    }
    told(all).await?;
    // (where the word of it is lost, the connection ends by itself)
    connection.closed().await;
    Ok(())
}

async fn told(streams: Vec<tokio::task::JoinHandle<Result<usize, Fault>>>) -> Result<(), Fault> {
    let (count, mut bytes) = (streams.len(), 0);
    for stream in streams {
        bytes += stream.await??;
    }
    println!("{count} streams, {bytes} bytes read");
    Ok(())
}

async fn client(address: &str, certificate: &str, window: &str, streams: u64) -> Result<(), Fault> {
    let mut roots = rustls::RootCertStore::empty();
    roots.add(&rustls::Certificate(fs::read(certificate)?))?;
    let mut config = ClientConfig::with_root_certificates(roots);
    config.transport_config(transport(window)?);
    let endpoint = Endpoint::client("127.0.0.1:0".parse()?)?;
    let connection: Connection =
        endpoint.connect_with(config, address.parse()?, "localhost")?.await?;
    let places = Arc::new(Semaphore::new(32));
    let mut all = Vec::new();
    for stream in 0..streams {
        let place = places.clone().acquire_owned().await?;
        let halves = connection.open_bi().await?;
        all.push(tokio::spawn(async move {
            let read = both(halves, stream, true).await;
            drop(place);
            read
        }));
    }
    told(all).await?;
    // The server may still wait for a reset to come.
    tokio::time::sleep(Duration::from_millis(500)).await;
    connection.close(0u32.into(), b"done");
    endpoint.wait_idle().await;
    Ok(())
}

fn relay(address: &str, drops: u64) -> Result<(), Fault> {
    let (front, back) = (UdpSocket::bind("127.0.0.1:0")?, UdpSocket::bind("127.0.0.1:0")?);
    back.connect(address)?;
    println!("listening on {}", front.local_addr()?);
    let client: Arc<std::sync::Mutex<Option<SocketAddr>>> = Arc::default();
    let (there, theirs, backward) = (front.try_clone()?, client.clone(), back.try_clone()?);
    thread::spawn(move || {
        carry(
            drops,
            1,
            |bytes| backward.recv(bytes),
            |bytes| {
                let client = *theirs.lock().unwrap();
                client.map_or(Ok(0), |client| there.send_to(bytes, client))
            },
        )
    });
    let receive = |bytes: &mut [u8]| {
        let (count, from) = front.recv_from(bytes)?;
        *client.lock().unwrap() = Some(from);
        Ok(count)
    };
    carry(drops, 2, receive, |bytes| back.send(bytes));
    Ok(())
}

fn carry(
    drops: u64,
    seed: u64,
    receive: impl Fn(&mut [u8]) -> io::Result<usize>,
    send: impl Fn(&[u8]) -> io::Result<usize>,
) {
    let (mut bytes, mut random) = ([0; 65_536], seed.wrapping_mul(0x9e37_79b9_7f4a_7c15));
    loop {
        random ^= random << 13;
        random ^= random >> 7;
        random ^= random << 17;
        // (a port on which no one listens yet, or any more)
        let Ok(count) = receive(&mut bytes) else { continue };
        if random % 100 >= drops {
            let _ = send(&bytes[..count]);
        }
    }
}

fn main() -> Result<(), Fault> {
    let words: Vec<String> = env::args().skip(1).collect();
    let words: Vec<&str> = words.iter().map(String::as_str).collect();
    let runtime = tokio::runtime::Builder::new_current_thread().enable_all().build()?;
    match words[..] {
        ["server", certificate, window, streams] => runtime.block_on(server(certificate, window, streams.parse()?)),
        ["client", address, certificate, window, streams] => {
            runtime.block_on(client(address, certificate, window, streams.parse()?))
        }
        ["relay", address, drops] => relay(address, drops.parse()?),
        _ => Err("server CERTIFICATE WINDOW STREAMS | client ADDRESS CERTIFICATE WINDOW STREAMS | relay ADDRESS DROPS".into()),
    }
}
