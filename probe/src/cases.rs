//! Cases: frames alone. What is to come of them the mirror says.

mod coordinates;
mod fields;
mod owed;

use crate::seen::Seen;
use crate::wire::{byte_at, frame, stream_frame, stream_number};
use gotsavena::{Dir, Role, StreamId};
use std::collections::BTreeMap;

/// The code of resets and stops: one that means no harm in HTTP/3 (RFC 9114, section 8.1, H3_REQUEST_CANCELLED).
pub const CODE: u64 = 0x10c;

/// What a payload is made of: limits as they stand, and the bytes of streams.
pub struct Context<'a> {
    pub seen: &'a Seen,
    /// The role of the endpoint that is looked at.
    pub role: Role,
    /// The largest number of its packets that came.
    pub largest: u64,
    pub active_ids: u64,
    pub is_http: bool,
    /// How long a stream is in all, where HTTP/3 has to know.
    pub totals: &'a BTreeMap<u64, u64>,
}

pub type Payload = Box<dyn Fn(&Context<'_>) -> Vec<u8> + Send + Sync>;
type Number = Box<dyn Fn(&Context<'_>) -> u64 + Send + Sync>;

/// What the endpoint has to send.
#[derive(Clone, Copy, Debug, PartialEq, Eq)]
pub enum Owed {
    /// By what an endpoint sends that acts in its place.
    Reset(Whose, Dir),
    /// (of its peer's first stream)
    Stream(Dir),
    Data,
    Streams(Dir),
    Blocked,
    /// By hand.
    PathResponse,
    Again,
    ResetAgain,
}

pub enum Step {
    /// A payload, which is judged.
    Send(Payload),
    /// The same, in a packet that goes twice.
    Twice(Payload),
    /// Two payloads, one right behind the other.
    Both(Payload, Payload),
    /// All of a stream, so that it is over.
    Over(Number, u64),
    /// The endpoint's own half of a stream may end, and is waited for a moment.
    MayEnd(Number),
    /// Up to the stream's limit, in order, so that what is read has to be granted again.
    FillStream(Dir),
    Owes(Owed),
    /// Whether the client acknowledges nothing.
    Quiet(bool),
    /// What came with STREAM or RESET_STREAM so far counts as lost.
    Lose,
    Pause(u64),
}

/// What the endpoint has to be for a case to make sense.
#[derive(Clone, Copy, Debug, PartialEq, Eq)]
pub enum Need {
    /// Bytes of streams may be any.
    AnyBytes,
    /// It opened a stream of its own, of this direction.
    Own(Dir),
    /// The limit of the first such stream is no wider than the mirror's windows and than the connection's limit.
    Limit(Whose, Dir),
    /// That limit is soon used up by payloads of a packet's size.
    SmallLimit(Whose, Dir),
    /// The connection's credit is used up by few streams.
    Credit,
    /// It is a server: a client has other identifiers of connections, as its peer gave them.
    Server,
    /// It permits at least so many streams.
    Streams(u64),
    /// It permits no more than can be opened soon.
    FewStreams,
}

pub struct Case {
    /// Its coordinates.
    pub name: String,
    pub steps: Vec<Step>,
    pub needs: Vec<Need>,
    pub is_tight: bool,
    /// Whether it depends on which of two packets comes first, and may have two outcomes.
    pub by_order: bool,
}

/// Whose stream it is, as the endpoint that is looked at has it.
#[derive(Clone, Copy, Debug, PartialEq, Eq)]
pub enum Whose {
    Own,
    Peers,
}

impl Context<'_> {
    pub fn id(&self, whose: Whose, dir: Dir, index: u64) -> u64 {
        let initiator = match whose {
            Whose::Own => self.role,
            Whose::Peers => self.role.peer(),
        };
        stream_number(initiator, dir, index)
    }

    pub fn limit(&self, stream: u64) -> u64 {
        StreamId::new(stream).map_or(0, |stream| self.seen.limit(stream))
    }

    pub fn stream(&self, stream: u64, offset: u64, len: u64, fin: bool) -> Vec<u8> {
        let bytes: Vec<u8> = (offset..offset + len)
            .map(|at| self.byte(stream, at))
            .collect();
        stream_frame(stream, offset, &bytes, fin)
    }

    // Where HTTP/3 reads them they are a request, or what it ignores: frames and streams of type 0x21 (RFC 9114, sections 6.2.3 and 7.2.8).
    fn byte(&self, stream: u64, at: u64) -> u8 {
        let plain = byte_at(stream, at);
        if !self.is_http {
            return plain;
        }
        if stream & 2 != 0 {
            return if at == 0 { 0x21 } else { plain };
        }
        let total = self.totals.get(&stream).copied().unwrap_or(1 << 29);
        request(total).get(at as usize).copied().unwrap_or(plain)
    }

    /// Frames that use up the connection's credit on unidirectional streams, each by its last byte alone, and so many bytes more.
    pub fn fill(&self, past: u64, by_resets: bool) -> Vec<u8> {
        let mut left = self.seen.max_data.saturating_add(past);
        let mut out = Vec::new();
        let mut index = 0;
        while left > 0 && index < MOST_TO_FILL + 1 {
            let stream = self.id(Whose::Peers, Dir::Uni, index);
            let some = left.min(self.limit(stream)).max(1);
            out.extend(match by_resets {
                true => frame(crate::wire::RESET_STREAM, &[stream, CODE, some]),
                false => self.stream(stream, some - 1, 1, false),
            });
            left -= some.min(left);
            index += 1;
        }
        out
    }
}

/// So many streams use up the connection's credit at the most, where a case does so.
pub const MOST_TO_FILL: u64 = 6;

// A GET, and behind it a frame without a meaning up to the stream's end.
fn request(total: u64) -> Vec<u8> {
    let mut text = vec![1, 16, 0, 0, 0xd1, 0xd7, 0xc1, 0x50, 9];
    text.extend_from_slice(b"localhost");
    if let Some(rest) = total.checked_sub(23).filter(|rest| *rest > 0) {
        text.push(0x21);
        text.extend_from_slice(&(rest as u32 | 2 << 30).to_be_bytes());
    }
    text
}

fn send(make: impl Fn(&Context<'_>) -> Vec<u8> + Send + Sync + 'static) -> Step {
    Step::Send(Box::new(make))
}

fn plain(payload: Vec<u8>) -> Step {
    send(move |_| payload.clone())
}

impl Case {
    pub fn new(name: impl Into<String>, steps: Vec<Step>) -> Case {
        Case {
            name: name.into(),
            steps,
            needs: Vec::new(),
            is_tight: false,
            by_order: false,
        }
    }

    fn needs(mut self, needs: &[Need]) -> Case {
        self.needs.extend_from_slice(needs);
        self
    }
}

pub fn all() -> Vec<Case> {
    let mut all = coordinates::all();
    all.extend(fields::all());
    all.extend(owed::all());
    all
}

#[cfg(test)]
mod tests {
    use super::all;
    use std::collections::BTreeSet;

    #[test]
    fn each_case_has_a_name_of_its_own() {
        let all = all();
        let names: BTreeSet<&str> = all.iter().map(|case| case.name.as_str()).collect();
        assert_eq!(names.len(), all.len());
    }
}
