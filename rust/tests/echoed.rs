//! The loop of a server on the first page of the documents lasts: 10 MB come back over a network that drops 5 of 100 datagrams on each way,
//! streams that are reset or stopped don't end it, and who breaks a rule is told.

#[allow(dead_code)]
#[path = "../examples/link/mod.rs"]
mod link;
#[allow(dead_code)]
#[path = "../examples/loop.rs"]
mod served;

use gotsavena::{Dir, Endpoint, Frame, Read, RecvState, Role, Settings, StreamId, frames, put};
use link::{Link, Weather};
use std::net::{SocketAddr, UdpSocket};
use std::sync::Arc;
use std::thread;
use std::time::{Duration, Instant};

/// More than any run takes, so that one that stands still ends.
const PATIENCE: Duration = Duration::from_secs(300);

/// How the server ended, in words where it is a fault.
type Ended = thread::JoinHandle<Result<(), String>>;

fn server() -> (SocketAddr, Ended) {
    let socket = UdpSocket::bind("127.0.0.1:0").expect("a socket");
    let address = socket.local_addr().expect("an address");
    let ended = thread::spawn(|| served::serve(socket).map_err(|fault| fault.to_string()));
    (address, ended)
}

/// Passes datagrams on, but for one in 20 by chance.
fn pass_on(from: Arc<UdpSocket>, to: Arc<UdpSocket>, mut random: u64) {
    let mut datagram = [0; 1500];
    while let Ok(len) = from.recv(&mut datagram) {
        // xorshift64*
        random ^= random >> 12;
        random ^= random << 25;
        random ^= random >> 27;
        if (random.wrapping_mul(0x2545_f491_4f6c_dd1d) >> 32) % 20 != 0 {
            // One that has no receiver any more is lost as any other.
            _ = to.send(&datagram[..len]);
        }
    }
}

/// A client whose datagrams, and those that answer them, may be lost; and its socket, for what it sends beside.
fn client(address: SocketAddr) -> (Link, UdpSocket) {
    let [inner, outer, socket] = [(); 3].map(|()| UdpSocket::bind("127.0.0.1:0").expect("free"));
    outer.connect(address).expect("the server's");
    inner
        .connect(socket.local_addr().expect("bound"))
        .expect("the client's");
    socket
        .connect(inner.local_addr().expect("bound"))
        .expect("the relay's");
    let [inner, outer] = [inner, outer].map(Arc::new);
    let (up, down) = (inner.clone(), outer.clone());
    thread::spawn(|| pass_on(up, outer, 7));
    thread::spawn(|| pass_on(down, inner, 11));
    let beside = socket.try_clone().expect("a descriptor");
    // The server has the same settings, and grants no unidirectional streams.
    let settings = Settings::default().uni_streams(0, 0);
    let end = Endpoint::new(Role::Client, settings, settings.limits()).expect("in range");
    let link = Link::new(end, socket, Weather::default(), 64, 1200).expect("a socket");
    (link, beside)
}

fn byte(offset: usize) -> u8 {
    (offset * 7 + offset / 256) as u8
}

/// Plays until a condition holds.
fn until(link: &mut Link, mut is_done: impl FnMut(&mut Endpoint) -> bool) {
    let begin = Instant::now();
    while !is_done(&mut link.end) {
        link.send().expect("the server is there");
        link.receive(true).expect("the server breaks no rule");
        assert!(begin.elapsed() < PATIENCE, "it stands still");
    }
}

/// Writes so many bytes and reads as many back.
fn echoes(link: &mut Link, stream: StreamId, count: usize) {
    let bytes: Vec<u8> = (0..count).map(byte).collect();
    let (mut written, mut read, mut into) = (0, 0, [0; 4096]);
    until(link, |end| {
        if written < count {
            written += end.write(stream, &bytes[written..]).expect("open");
            if written == count {
                end.finish(stream).expect("open");
            }
        }
        loop {
            match end.read(stream, &mut into).expect("open") {
                Read::Bytes(more) => {
                    assert!(into[..more] == bytes[read..read + more], "at {read}");
                    read += more;
                }
                Read::Wait => return false,
                Read::End => return true,
                Read::Reset(code) => panic!("reset with {code}"),
            }
        }
    });
    assert_eq!(read, count);
}

/// The client closes, as often as it takes until that arrives.
fn leaves(link: &mut Link, socket: &UdpSocket, ended: Ended) {
    let begin = Instant::now();
    while !ended.is_finished() {
        assert!(begin.elapsed() < PATIENCE, "the server goes on");
        let mut datagram = [0; 64];
        let number = link.end.claim_number().expect("a number");
        datagram[..8].copy_from_slice(&number.to_be_bytes());
        let close = Frame::ApplicationClose {
            code: 0,
            reason: &[],
        };
        let len = put(&close, &mut datagram[8..]).expect("it fits");
        _ = socket.send(&datagram[..8 + len]);
        thread::sleep(Duration::from_millis(1));
    }
    assert_eq!(ended.join().expect("no panic"), Ok(()));
}

#[test]
fn ten_megabytes_come_back_where_one_datagram_in_20_is_lost() {
    let (address, ended) = server();
    let (mut link, beside) = client(address);
    let stream = link.end.open(Dir::Bidi).expect("granted");
    echoes(&mut link, stream, 10_000_000);
    leaves(&mut link, &beside, ended);
    assert!(link.counts.declared_lost > 100, "nothing was lost");
}

/// Whether what comes of a stream is over.
fn is_over(end: &Endpoint, stream: StreamId) -> bool {
    let half = end.report(stream).and_then(|report| report.recv);
    half.is_some_and(|half| matches!(half.state, RecvState::DataRead | RecvState::ResetRead))
}

/// More than may be open at a time, so that each has to make room.
#[test]
fn streams_that_are_reset_or_stopped_make_room() {
    let (address, ended) = server();
    let (mut link, beside) = client(address);
    let mut into = [0; 4096];
    for count in 0..250 {
        until(&mut link, |end| end.open_left(Dir::Bidi) > 0);
        let stream = link.end.open(Dir::Bidi).expect("one is left");
        assert_eq!(link.end.write(stream, &[7; 5000]), Ok(5000));
        match count % 3 {
            0 => link.end.reset(stream, 5).expect("open"),
            1 => {
                link.end.stop(stream, 6).expect("open");
                link.end.finish(stream).expect("open");
            }
            _ => link.end.finish(stream).expect("open"),
        }
        until(&mut link, |end| {
            while let Ok(Read::Bytes(_)) = end.read(stream, &mut into) {}
            is_over(end, stream)
        });
    }
    leaves(&mut link, &beside, ended);
}

#[test]
fn who_breaks_a_rule_is_told() {
    let (address, ended) = server();
    let socket = UdpSocket::bind("127.0.0.1:0").expect("free");
    socket.connect(address).expect("the server's");
    socket.set_read_timeout(Some(PATIENCE)).expect("not zero");
    // Packet 0 with a frame of a type that no frame has (RFC 9000, section 12.4).
    socket.send(&[0, 0, 0, 0, 0, 0, 0, 0, 0x1f]).expect("sent");
    let mut datagram = [0; 1500];
    let len = socket.recv(&mut datagram).expect("the close");
    let close = frames(&datagram[8..len]).next().expect("a frame");
    let close = close.expect("a lawful one").frame;
    let (code, frame_type, reason) = (7, 0x1f, &b""[..]);
    let wanted = Frame::ConnectionClose {
        code,
        frame_type,
        reason,
    };
    assert_eq!(close, wanted);
    let fault = ended.join().expect("no panic").expect_err("a fault");
    assert!(fault.contains("0x07"), "{fault}");
}
