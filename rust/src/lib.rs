//! The stream layer of a QUIC version 1 endpoint (RFC 9000, sections 2, 3, 4, 13.3, 16 and the stream and flow control frames of 19): **the
//! proved source with its contracts removed**.
//!
//! It turns packets that may be lost, repeated and reordered into ordered byte streams, each with its own credit, its own end and its own
//! abort. Payloads of packets go in and come out. It has no handshake, packet protection, loss detection, congestion control or timers, and
//! no socket, clock or thread: that is the transport's.
//!
//! ```
//! use gotsavena::{Dir, Endpoint, Read, Received, Role, Settings};
//! fn main() -> Result<(), Box<dyn std::error::Error>> {
//!     let settings = Settings::default(); // 100 streams of each direction
//!     let mut client = Endpoint::new(Role::Client, settings, settings.limits())?; // own, peer's
//!     let mut server = Endpoint::new(Role::Server, settings, settings.limits())?;
//!     let stream = client.open(Dir::Bidi)?;
//!     assert_eq!(client.write(stream, b"hello")?, 5);
//!     client.finish(stream)?;
//!     let (mut payload, mut bytes) = ([0; 1200], [0; 16]);
//!     let lost = client.make_packet(&mut payload)?.expect("bytes are pending"); // dropped by the network
//!     client.declare_lost(lost.number)?;
//!     while let Some(made) = client.make_packet(&mut payload)? {
//!         // The network.
//!         assert_eq!(server.receive(made.number, &payload[..made.len])?, Received::Done);
//!     }
//!     assert_eq!(server.accept(), Some(stream));
//!     assert_eq!(server.read(stream, &mut bytes)?, Read::Bytes(5));
//!     assert_eq!(server.read(stream, &mut bytes)?, Read::End);
//!     Ok(())
//! }
//! ```
//!
//! | Types | What they are |
//! |---|---|
//! | [`Endpoint`] | an endpoint of a connection, with all its calls |
//! | [`Settings`], [`PeerLimits`], [`Tuning`], [`Share`] | what an endpoint grants its peer, what its peer grants, and what the application may choose beside |
//! | [`StreamId`], [`Dir`], [`Role`] | the number of a stream, its direction, and who opened it |
//! | [`SendStream`], [`RecvStream`] | the halves of a stream, with std's `Write` and `Read` |
//! | [`Read`], [`Peek`], [`Consumed`] | what reading returns |
//! | [`StreamReport`], [`SendReport`], [`RecvReport`], [`SendState`], [`RecvState`] | the states of a stream's halves |
//! | [`Event`] | what happened, from `next_event` |
//! | [`Made`], [`Received`] | a packet that was made, and what came of a payload |
//! | [`Fill`], [`Filled`], [`Token`], [`Taken`] | frames and tokens, for a stack that owns its packet numbers and its ACKs |
//! | [`Frame`], [`Frames`], [`Placed`], [`AckRanges`], [`EcnCounts`], [`WireFault`], [`FaultKind`] | the frames of a payload, which `frames`, `put` and `put_ack` read and write without an endpoint |
//! | [`Closing`], [`NotedClose`], [`Closer`], [`CloseKind`] | why a connection is closed |
//! | [`Held`] | how much memory an endpoint takes for bytes of streams |
//! | [`SetupFault`], [`OpenFault`], [`UseFault`], [`MakeFault`], [`ReceiveFault`], [`LostFault`], [`TakeFault`], [`TokenFault`], [`EventFault`], [`SetFault`], [`RaiseFault`], [`PutFault`], [`StreamIdFault`] | why a call was refused: each is an `Error`, and takes no memory |
//!
//! An [`Endpoint`] is one side of a connection. [`Endpoint::receive`] processes a payload, [`Endpoint::make_packet`] makes the next one,
//! [`Endpoint::declare_lost`] says that one was lost. The application [opens](Endpoint::open) and [accepts](Endpoint::accept) streams,
//! [writes](Endpoint::write), [finishes](Endpoint::finish), [resets](Endpoint::reset), [reads](Endpoint::read) and [stops](Endpoint::stop)
//! them, and [`Endpoint::next_event`] returns what became of them. [`SendStream`] and [`RecvStream`] are one stream's halves, and std's
//! `Write` and `Read`. [`frames`], [`put`] and [`put_ack`] read and write payloads without an endpoint.
//!
//! # The loop of a server
//!
//! ```no_run
#![doc = include_str!("../examples/loop.rs")]
//! ```
//!
//! # What the transport brings
//!
//! Each payload that it passes to `receive` is that of an authenticated packet of the application's number space, with its full packet
//! number. It sends each payload that was made under its number, in a packet of its own, once. It declares packets lost (RFC 9002, section
//! 6), so that what they carried goes out again. It calls `make_packet` only if the congestion window permits a packet; if not, a packet
//! with an ACK alone may still go ([`Endpoint::make_ack`]). The limits of each endpoint go to the other one in the handshake
//! ([`Settings::limits`], [`PeerLimits`]).
//!
//! # What was proved, and of what
//!
//! The source of this crate's `proved` modules is written in Rattle, Rust with contracts. There each of its functions is proved to meet its
//! contract, to be safe and to end. Of that source it is proved, among more, that
//!
//! - `receive` takes effect exactly as the frames in the bytes say, one after the other, or closes with the code, the frame type and the
//!   place of the first frame that offends;
//! - a packet that is made is the canonical text of permitted frames, and spends no credit that wasn't granted;
//! - no more is stored than was granted beyond what was consumed, whatever the peer sends, and that is at most a window;
//! - each refusal leaves what is stated, refused memory too: every allocation may fail, and returns `NoMemory`;
//! - of two such endpoints, whatever the network loses, repeats and reorders, what is read is a prefix of what was written, a stream
//!   counted as received was taken in whole, and neither closes unless a close was noted there or at its peer.
//!
//! The modules here are that text, token by token, with the contracts removed by a tool. No proof covers them. Whoever compiles them
//! trusts, beside what the proof rests on:
//!
//! - **the tool** (`rust/erase`), which an audit with a lexer of its own (`rust/audit`) checks against the source, token by token: each
//!   difference is of a kind on a committed list;
//! - **the shim** (`shim`), a few hundred lines that put the containers of Rattle's library over those of `alloc`, with `try_reserve`;
//! - **this wrapper**: the types of this page, and the tests in place of what the contracts require of a caller;
//! - **rustc**, its `core` and its `alloc`, where the proof trusts Rattle's compiler.
//!
//! # Calls
//!
//! No call panics, whatever its arguments: what a contract requires of its caller is checked first, and refused as `Invalid`, with nothing
//! changed. Every allocation may fail. There is no `unsafe` code. The crate needs `alloc` and a 64-bit target.
//!
//! # Features
//!
//! `std`, on by default: std's `Read` and `Write` for the halves of streams.
#![no_std]
#![forbid(unsafe_code)]
#![deny(missing_docs)]
// The examples look at what each call returns.
#![doc(test(attr(deny(unused_must_use))))]

#[cfg(not(target_pointer_width = "64"))]
compile_error!("gotsavena needs a target with pointers of 64 bits");

#[cfg(feature = "std")]
extern crate std;

mod answers;
mod endpoint;
mod event;
mod faults;
mod filling;
mod frame;
mod ids;
#[rustfmt::skip]
pub(crate) mod proved;
mod settings;
pub(crate) mod shim;
mod streams;
mod tuning;

pub use answers::{
    CloseKind, Closer, Closing, Consumed, Held, Made, NotedClose, Peek, Read, Received, RecvReport,
    RecvState, SendReport, SendState, StreamReport, Taken, Token,
};
pub use endpoint::{Endpoint, MAX_PAYLOAD, MAX_ROOM, MIN_ROOM};
pub use event::Event;
pub use faults::{
    EventFault, LostFault, MakeFault, OpenFault, PutFault, RaiseFault, ReceiveFault, SetFault,
    SetupFault, StreamIdFault, TakeFault, TokenFault, UseFault,
};
pub use filling::{Fill, Filled, MIN_FILL};
pub use frame::{
    AckRanges, EcnCounts, FaultKind, Frame, Frames, Placed, WireFault, frames, last_stream, put,
    put_ack, read_varint, write_varint,
};
pub use ids::{Dir, Role, StreamId};
pub use settings::{PeerLimits, Settings};
pub use streams::{RecvStream, SendStream};
pub use tuning::{Share, Tuning};
