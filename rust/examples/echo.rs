//! A server that sends back what comes on each stream, and a client that sends it the lines of its standard input, each
//! on a stream of its own:
//!
//!     cargo run --example echo -- server 127.0.0.1:4433
//!     printf 'one\ntwo\n' | cargo run --example echo -- client 127.0.0.1:4433
//!
//! There is no handshake: the client's first byte connects them, and both know the limits. A stream that is reset or
//! stopped ends the program: `loop.rs` goes on.

mod link;

use gotsavena::{Dir, Endpoint, Role, Settings, StreamId};
use link::{Fallible, Link, Weather};
use std::collections::BTreeMap;
use std::io::{ErrorKind, Read, Write};
use std::net::UdpSocket;

fn main() -> Fallible<()> {
    let words: Vec<String> = std::env::args().collect();
    let words: Vec<&str> = words.iter().map(String::as_str).collect();
    match words[..] {
        [_, "server", address] => serve(UdpSocket::bind(address)?),
        [_, "client", address] => {
            let socket = UdpSocket::bind("127.0.0.1:0")?;
            socket.connect(address)?;
            socket.send(b"?")?;
            ask(socket)
        }
        _ => Err("echo server ADDRESS, or echo client ADDRESS".into()),
    }
}

fn link(role: Role, socket: UdpSocket) -> Fallible<Link> {
    let settings = Settings::default().streams(1000, 1000);
    let end = Endpoint::new(role, settings, settings.limits())?;
    Ok(Link::new(end, socket, Weather::default(), 64, 1200)?)
}

fn serve(socket: UdpSocket) -> Fallible<()> {
    let (_, client) = socket.recv_from(&mut [0])?;
    socket.connect(client)?;
    let mut link = link(Role::Server, socket)?;
    let mut streams = BTreeMap::new();
    loop {
        link.receive(true)?;
        while let Some(stream) = link.end.accept() {
            streams.insert(stream, Vec::new());
        }
        let mut over = Vec::new();
        for (stream, kept) in &mut streams {
            if echo(&mut link.end, *stream, kept)? {
                over.push(*stream);
            }
        }
        for stream in over {
            streams.remove(&stream);
        }
        link.send()?;
    }
}

// Sends back what came. Answers whether it is all.
fn echo(end: &mut Endpoint, stream: StreamId, kept: &mut Vec<u8>) -> Fallible<bool> {
    let ended = !would_block(end.recv_stream(stream).read_to_end(kept))?;
    if !kept.is_empty() {
        let count = end.write(stream, kept)?;
        kept.drain(..count);
    }
    if ended && kept.is_empty() {
        end.finish(stream)?;
        return Ok(true);
    }
    Ok(false)
}

fn ask(socket: UdpSocket) -> Fallible<()> {
    let mut link = link(Role::Client, socket)?;
    for line in std::io::stdin().lines() {
        let line = line?;
        let stream = link.end.open(Dir::Bidi)?;
        let mut rest = line.as_bytes();
        let mut answer = Vec::new();
        loop {
            if !rest.is_empty() {
                let count = link.end.write(stream, rest)?;
                rest = &rest[count..];
            }
            if rest.is_empty() {
                // It was asked for before where this refuses.
                _ = link.end.finish(stream);
            }
            link.send()?;
            link.receive(true)?;
            if !would_block(link.end.recv_stream(stream).read_to_end(&mut answer))? {
                break;
            }
        }
        std::io::stdout().write_all(&answer)?;
        println!();
    }
    link.send()
}

// Whether a call would have to wait.
fn would_block(result: std::io::Result<usize>) -> Fallible<bool> {
    match result {
        Ok(_) => Ok(false),
        Err(error) if error.kind() == ErrorKind::WouldBlock => Ok(true),
        Err(error) => Err(error.into()),
    }
}
