//! Sockets.

use super::{HostRuntime, io};
use std::time::Duration;

pub use std::net::{Ipv4Addr, SocketAddr};

/// The leave to open sockets.
pub trait Net {}

impl Net for HostRuntime {}

/// A socket for datagrams.
pub struct UdpSocket {
    socket: std::net::UdpSocket,
}

impl UdpSocket {
    pub fn bind<R: Net>(_net: &R, address: SocketAddr) -> io::Result<Self> {
        let socket = std::net::UdpSocket::bind(address)?;
        Ok(UdpSocket { socket })
    }

    pub fn set_read_timeout(&self, time: Option<Duration>) -> io::Result<()> {
        self.socket.set_read_timeout(time)
    }

    pub fn local_addr(&self) -> io::Result<SocketAddr> {
        self.socket.local_addr()
    }

    pub fn send_to(&self, bytes: &[u8], to: SocketAddr) -> io::Result<usize> {
        self.socket.send_to(bytes, to)
    }

    pub fn recv(&self, into: &mut [u8]) -> io::Result<usize> {
        self.socket.recv(into)
    }
}
