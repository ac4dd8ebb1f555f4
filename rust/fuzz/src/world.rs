//! Two endpoints that talk to each other, and what is known of them.

use crate::codes::{Answer, NO_MEMORY, code};
use crate::input::Input;
use crate::looks::look_at_all;
use crate::refusing::{Memory, within};
use crate::seen::Seen;
use gotsavena::{Closer, Endpoint, Role, StreamId, Token};

pub const PACKETS: usize = 16;
pub const STREAMS: usize = 256;
pub const LOOKED_AT: u64 = 64;
pub const MOST_ROOM: usize = 16_383;
pub const MOST_PAYLOAD: usize = 65_535;
pub const MOST_WRITTEN: usize = 1 << 17;
pub const NUMBERS: u64 = 1 << 62;

pub struct Packet {
    pub bytes: Vec<u8>,
    /// The side that made it.
    pub from: usize,
    /// Whether the other side processed it.
    pub came: bool,
    pub token: Token,
}

pub struct Side {
    pub end: Endpoint,
    /// 0 or 1.
    pub name: usize,
    pub role: Role,
    pub memory: Memory,
    pub is_refusable: bool,
    pub bounds_writes: bool,
    /// Whether bytes of streams may have come that follow no pattern.
    pub is_foreign: bool,
    pub was_closed: bool,
    /// The widest window of the connection that was set, and the largest buffer of a stream.
    pub widest: u64,
    pub widest_buffer: u64,
    pub granted: u64,
    pub spent: u64,
    pub taken: u64,
    pub next_number: u64,
    pub joined: Token,
    pub seen: [Seen; STREAMS],
    /// Which events came of a stream, a bit for each kind.
    pub news: [u16; STREAMS],
}

/// Where answers are mixed into one number.
pub struct Digest {
    pub value: u64,
    /// Not once memory was refused, which C and Rust ask for in other places.
    pub is_compared: bool,
}

pub struct World<'a> {
    pub input: Input<'a>,
    pub sides: [Side; 2],
    pub packets: [Option<Packet>; PACKETS],
    /// Where the next packet is kept.
    pub place: usize,
    /// Whether each side got only what the other one made, under limits that the other one granted: then no rule is broken.
    pub is_honest: bool,
    /// Whether no packet counts as acknowledged that didn't come.
    pub is_whole: bool,
    pub digest: Digest,
}

pub fn fold(hash: &mut u64, value: u64) {
    *hash = (*hash ^ value).wrapping_mul(0x100_0000_01b3);
    *hash ^= *hash >> 29;
}

impl Digest {
    pub fn new() -> Digest {
        Digest {
            value: 0,
            is_compared: true,
        }
    }

    pub fn mix(&mut self, value: impl Into<u64>) {
        if self.is_compared {
            fold(&mut self.value, value.into());
        }
    }

    pub fn mix_len(&mut self, len: usize) {
        self.mix(len as u64);
    }
}

impl World<'_> {
    pub fn mix(&mut self, value: impl Into<u64>) {
        self.digest.mix(value);
    }

    pub fn mix_code<T>(&mut self, answer: &Answer<T>) {
        self.digest.mix(code(answer));
    }

    pub fn mix_len(&mut self, len: usize) {
        self.digest.mix_len(len);
    }

    pub fn was_hostile(&mut self) {
        self.is_honest = false;
        self.is_whole = false;
    }
}

impl Side {
    /// A call of the endpoint, with the memory of its side.
    pub fn call<T>(&mut self, call: impl FnOnce(&mut Endpoint) -> T) -> T {
        within(&mut self.memory, || call(&mut self.end))
    }

    /// A call that changes nothing where memory is refused. It is made again then.
    pub fn call_again<T>(&mut self, call: impl Fn(&mut Endpoint) -> Answer<T>) -> Answer<T> {
        loop {
            let before = (self.memory.refusals > 0).then(|| look_at_all(self));
            let answer = self.call_once(&call);
            if code(&answer) != NO_MEMORY {
                return answer;
            }
            let is_same = before == Some(look_at_all(self));
            assert!(is_same, "nothing changed where memory was refused");
        }
    }

    /// A call that may have done a part of its work where memory is refused. It is made again then.
    pub fn insist<T>(&mut self, mut call: impl FnMut(&mut Endpoint) -> Answer<T>) -> Answer<T> {
        loop {
            let answer = self.call_once(&mut call);
            if code(&answer) != NO_MEMORY {
                return answer;
            }
        }
    }

    fn call_once<T>(&mut self, call: impl FnOnce(&mut Endpoint) -> Answer<T>) -> Answer<T> {
        self.memory.refused = 0;
        let answer = self.call(call);
        let was_refused = self.memory.refused > 0;
        assert!(
            code(&answer) != NO_MEMORY || was_refused,
            "no memory, though none was refused"
        );
        answer
    }

    pub fn is_peers(&self, stream: StreamId) -> bool {
        stream.initiator() != self.role
    }

    pub fn is_closed(&self) -> bool {
        let end = &self.end;
        end.closing().is_some() || end.peer_closed().is_some() || end.noted_close().is_some()
    }
}

/// The byte that a side writes at an offset of a stream: each place has another one.
pub fn pattern(sender: usize, stream: u64, offset: u64) -> u8 {
    let place = offset.wrapping_add(1).wrapping_mul(0x9e37_79b9_7f4a_7c15);
    let row = stream.wrapping_mul(0xd1b5_4a32_d192_ed03);
    (place.wrapping_add(row).wrapping_add(sender as u64) >> 48) as u8
}

pub fn has_pattern(sender: usize, stream: u64, offset: u64, bytes: &[u8]) -> bool {
    let wanted = (offset..).map(|at| pattern(sender, stream, at));
    bytes.iter().zip(wanted).all(|(is, wanted)| *is == wanted)
}

pub fn closer(code: u64) -> Closer {
    if code & 1 == 0 {
        Closer::Us
    } else {
        Closer::Peer
    }
}
