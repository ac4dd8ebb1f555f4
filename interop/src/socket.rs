//! A UDP socket as QUIC wants one: it answers from the address that it was asked at, and IP doesn't fragment what it sends (RFC 9000,
//! section 14).

use crate::connection::Path;
use nix::cmsg_space;
use nix::errno::Errno;
use nix::poll::{PollFd, PollFlags, ppoll};
use nix::sys::socket::sockopt::{Ipv4PacketInfo, Ipv6RecvPacketInfo, UdpGroSegment};
use nix::sys::socket::{
    ControlMessage, ControlMessageOwned, MsgFlags, SockaddrStorage, recvmsg, sendmsg, setsockopt,
};
use std::cell::Cell;
use std::ffi::c_int;
use std::io::{self, IoSlice, IoSliceMut};
use std::mem::size_of_val;
use std::net::{IpAddr, Ipv4Addr, Ipv6Addr, SocketAddr, UdpSocket};
use std::os::fd::{AsRawFd, RawFd};
use std::time::Instant;

/// A buffer of so many bytes takes any.
pub const MOST_DATAGRAM: usize = 65_536;

/// What the kernel cuts up at once, at most.
const MOST_TOGETHER: usize = 64;
const MOST_BYTES: usize = 65_000;

pub struct Socket {
    inner: UdpSocket,
    /// Whether the kernel cuts up what is sent.
    cuts: Cell<bool>,
}

/// Datagrams of one size to one place, which wait until they go together.
#[derive(Default)]
pub struct Outbox {
    /// The one that is made.
    pub datagram: Vec<u8>,
    waiting: Vec<u8>,
    size: usize,
    to: Path,
}

impl Socket {
    ///
    /// # Errors
    pub fn new(inner: UdpSocket) -> io::Result<Socket> {
        inner.set_nonblocking(true)?;
        let (fd, own) = (inner.as_raw_fd(), inner.local_addr()?);
        // (one of IPv6 may have datagrams of IPv4, too)
        let (any, never) = (libc::IP_MTU_DISCOVER, libc::IP_PMTUDISC_PROBE);
        set(fd, libc::IPPROTO_IP, any, never)?;
        if own.is_ipv6() {
            let (any, never) = (libc::IPV6_MTU_DISCOVER, libc::IPV6_PMTUDISC_PROBE);
            set(fd, libc::IPPROTO_IPV6, any, never)?;
        }
        match own.ip() {
            IpAddr::V4(own) if own.is_unspecified() => setsockopt(fd, Ipv4PacketInfo, &true)?,
            IpAddr::V6(own) if own.is_unspecified() => setsockopt(fd, Ipv6RecvPacketInfo, &true)?,
            _ => {}
        }
        // Where the kernel has it.
        _ = setsockopt(fd, UdpGroSegment, &true);
        // (who reads along sees each datagram)
        let cuts = Cell::new(std::env::var_os("SSLKEYLOGFILE").is_none());
        Ok(Socket { inner, cuts })
    }

    ///
    /// # Errors
    pub fn local_addr(&self) -> io::Result<SocketAddr> {
        self.inner.local_addr()
    }

    /// Waits for a datagram until a time, or until there is something to read from `wake`.
    ///
    /// # Errors
    pub fn wait(&self, until: Option<Instant>, wake: Option<RawFd>) -> io::Result<()> {
        let read = [Some(self.inner.as_raw_fd()), wake].into_iter().flatten();
        let mut polled: Vec<PollFd> = read.map(|fd| PollFd::new(fd, PollFlags::POLLIN)).collect();
        let left = until.map(|until| until.saturating_duration_since(Instant::now()).into());
        match ppoll(&mut polled, left, None) {
            Ok(_) | Err(Errno::EINTR) => Ok(()),
            Err(error) => Err(error.into()),
        }
    }

    /// Datagrams that are there, of one size but for the last one: the kernel puts some together (UDP_GRO). Answers how many bytes they have,
    /// that size, and where they came from.
    ///
    /// # Errors
    ///
    /// Where none is; what the network told of one that went.
    pub fn receive(&self, buffer: &mut [u8]) -> io::Result<(usize, usize, Path)> {
        let mut room = cmsg_space!(libc::in6_pktinfo, c_int);
        let mut parts = [IoSliceMut::new(buffer)];
        let came = recvmsg::<SockaddrStorage>(
            self.inner.as_raw_fd(),
            &mut parts,
            Some(&mut room),
            MsgFlags::empty(),
        )?;
        let (mut path, mut size) = (Path::default(), came.bytes.max(1));
        if let Some(peer) = came.address.as_ref().and_then(address) {
            path.peer = peer;
        }
        for message in came.cmsgs() {
            match message {
                ControlMessageOwned::Ipv4PacketInfo(info) => {
                    let own = info.ipi_spec_dst.s_addr.to_ne_bytes();
                    path.own = Some(Ipv4Addr::from(own).into());
                }
                ControlMessageOwned::Ipv6PacketInfo(info) => {
                    path.own = Some(info.ipi6_addr.s6_addr.into());
                }
                ControlMessageOwned::UdpGroSegments(each) => size = usize::from(each).max(1),
                _ => {}
            }
        }
        Ok((came.bytes, size, path))
    }

    /// Sends bytes as datagrams of this size, but for the last one, which may be shorter: where the kernel does that, it cuts them up
    /// (UDP_SEGMENT).
    ///
    /// # Errors
    ///
    /// Where the system doesn't take a datagram.
    pub fn send(&self, bytes: &[u8], size: usize, to: Path) -> io::Result<()> {
        if bytes.len() <= size {
            return self.send_at_once(bytes, None, to);
        }
        if let (true, Ok(each)) = (self.cuts.get(), u16::try_from(size)) {
            match self.send_at_once(bytes, Some(each), to) {
                Err(error) if is_unable(&error) => self.cuts.set(false),
                sent => return sent,
            }
        }
        let datagrams = bytes.chunks(size.max(1));
        let sent = datagrams.map(|datagram| self.send_at_once(datagram, None, to));
        sent.fold(Ok(()), Result::and)
    }

    fn send_at_once(&self, bytes: &[u8], each: Option<u16>, to: Path) -> io::Result<()> {
        // (the port 0 stands for that of a socket that is connected)
        let peer = (to.peer.port() != 0).then(|| SockaddrStorage::from(to.peer));
        let (four, six);
        let own = match to.own {
            Some(IpAddr::V4(own)) => {
                four = of_four(own);
                Some(ControlMessage::Ipv4PacketInfo(&four))
            }
            Some(IpAddr::V6(own)) => {
                six = of_six(own);
                Some(ControlMessage::Ipv6PacketInfo(&six))
            }
            None => None,
        };
        let cut = each.as_ref().map(ControlMessage::UdpGsoSegments);
        let about: Vec<ControlMessage> = own.into_iter().chain(cut).collect();
        let (fd, parts) = (self.inner.as_raw_fd(), [IoSlice::new(bytes)]);
        sendmsg(fd, &parts, &about, MsgFlags::empty(), peer.as_ref())?;
        Ok(())
    }
}

impl Outbox {
    /// Whether a datagram goes together with those that wait.
    fn takes(&self, datagram: &[u8], to: Path) -> bool {
        let count = self.waiting.len() / self.size.max(1);
        self.waiting.is_empty()
            || self.to == to
                && self.waiting.len() % self.size == 0
                && datagram.len() <= self.size
                && count < MOST_TOGETHER
                && self.waiting.len() + datagram.len() <= MOST_BYTES
    }

    fn put(&mut self, to: Path) {
        if self.waiting.is_empty() {
            (self.size, self.to) = (self.datagram.len(), to);
        }
        self.waiting.extend_from_slice(&self.datagram);
    }

    /// Sends what waits, and what has come to be made, by `transmit`, which has bytes, the size of their datagrams, and where they go to.
    /// Answers the size of those that the link doesn't take.
    pub fn push(
        &mut self,
        to: Path,
        transmit: &mut impl FnMut(&[u8], usize, Path) -> io::Result<()>,
    ) -> Option<usize> {
        let refused = match self.takes(&self.datagram, to) {
            true => None,
            false => self.flush(transmit),
        };
        self.put(to);
        refused
    }

    pub fn flush(
        &mut self,
        transmit: &mut impl FnMut(&[u8], usize, Path) -> io::Result<()>,
    ) -> Option<usize> {
        if self.waiting.is_empty() {
            return None;
        }
        let sent = transmit(&self.waiting, self.size, self.to);
        self.waiting.clear();
        let is_too_large = |error: io::Error| error.raw_os_error() == Some(libc::EMSGSIZE);
        sent.is_err_and(is_too_large).then_some(self.size)
    }
}

// What a kernel says, or a device, that cuts nothing up.
fn is_unable(error: &io::Error) -> bool {
    matches!(
        error.raw_os_error(),
        Some(libc::EIO | libc::EINVAL | libc::EOPNOTSUPP)
    )
}

fn of_four(own: Ipv4Addr) -> libc::in_pktinfo {
    libc::in_pktinfo {
        ipi_ifindex: 0,
        ipi_spec_dst: libc::in_addr {
            s_addr: u32::from_ne_bytes(own.octets()),
        },
        ipi_addr: libc::in_addr { s_addr: 0 },
    }
}

fn of_six(own: Ipv6Addr) -> libc::in6_pktinfo {
    libc::in6_pktinfo {
        ipi6_addr: libc::in6_addr {
            s6_addr: own.octets(),
        },
        ipi6_ifindex: 0,
    }
}

fn address(storage: &SockaddrStorage) -> Option<SocketAddr> {
    let four = storage
        .as_sockaddr_in()
        .map(|four| SocketAddr::V4((*four).into()));
    four.or_else(|| {
        storage
            .as_sockaddr_in6()
            .map(|six| SocketAddr::V6((*six).into()))
    })
}

fn set(fd: RawFd, level: c_int, option: c_int, value: c_int) -> io::Result<()> {
    let (at, len) = ((&raw const value).cast(), size_of_val(&value));
    // Sound: the kernel reads so many bytes there.
    Errno::result(unsafe { libc::setsockopt(fd, level, option, at, len as u32) })?;
    Ok(())
}
