//! A client that moves to another address (RFC 9000, section 9): the server follows it, and asks there whether it is the client's. Where no
//! answer comes it goes back. It gives out identifiers, so that the client needn't use one at two addresses.

use super::send::{Planned, sent_now};
use super::{Connection, DATAGRAM, random_id};
use crate::crypto::push_frame;
use crate::fault::{Fault, INTERNAL_ERROR};
use crate::packet::{ConnectionId, Level};
use crate::recovery::{Control, FIRST_PROBE_TIMEOUT};
use gotsavena::{Frame, Role, frames};
use ring::rand::{SecureRandom, SystemRandom};
use std::collections::{BTreeSet, VecDeque};
use std::net::{IpAddr, Ipv4Addr, SocketAddr};
use std::time::{Duration, Instant};

/// A few at once, so that a client needn't use one at two addresses; and a bound in all, so that it can't ask for ever.
const AT_ONCE: u64 = 3;
const IN_ALL: usize = 32;

/// What is left of the bound for two small datagrams that ask, at least.
pub(super) const QUESTIONS: usize = 2 * 64;

/// How many words about paths wait at most.
const MOST_WORDS: usize = 8;

/// Where datagrams come from and go to.
#[derive(Clone, Copy, Debug, PartialEq, Eq)]
pub struct Path {
    pub peer: SocketAddr,
    /// The address at which they come, where the socket has several.
    pub own: Option<IpAddr>,
}

impl Default for Path {
    fn default() -> Path {
        let peer = SocketAddr::from((Ipv4Addr::UNSPECIFIED, 0));
        Path { peer, own: None }
    }
}

#[derive(Default)]
pub(super) struct Moving {
    /// Only a newer packet moves the connection: an old one may have been delayed at the old address.
    pub newest: Option<u64>,
    /// Where the peer is.
    pub at: Path,
    /// Where it was before, where it answered: the way back.
    before: Option<Path>,
    search: Option<Search>,
    words: VecDeque<Word>,
    /// Of the datagram that is read.
    from: Path,
    from_len: usize,
    given: Vec<ConnectionId>,
    retired: BTreeSet<u64>,
    known: usize,
}

/// Whether the peer is at its address. An answer that was lost isn't sent again, so the question is (sections 8.2.1 and 8.2.4).
struct Search {
    asked: Vec<Question>,
    ask_at: Instant,
    wait: Duration,
    until: Instant,
}

/// A datagram of 1,200 bytes shows that the path carries as much, too.
struct Question {
    bytes: [u8; 8],
    is_wide: bool,
}

/// About the path that it takes, in a datagram of its own: an answer, or a question.
struct Word {
    to: Path,
    is_answer: bool,
    bytes: [u8; 8],
    is_wide: bool,
}

fn random<const N: usize>() -> Result<[u8; N], Fault> {
    let mut bytes = [0; N];
    match SystemRandom::new().fill(&mut bytes) {
        Ok(()) => Ok(bytes),
        Err(_) => Err(Fault::new(INTERNAL_ERROR, 0, "no random bytes")),
    }
}

impl Moving {
    pub fn timer(&self) -> Option<Instant> {
        let search = self.search.as_ref();
        search.map(|search| search.ask_at.min(search.until))
    }
}

/// Such a payload doesn't move the connection (section 9.1).
pub(super) fn is_probing(payload: &[u8]) -> bool {
    frames(payload).flatten().all(|placed| {
        matches!(
            placed.frame,
            Frame::PathChallenge { .. }
                | Frame::PathResponse { .. }
                | Frame::NewConnectionId { .. }
                | Frame::Padding
        )
    })
}

impl Connection {
    pub fn take_new_ids(&mut self) -> Vec<ConnectionId> {
        let known = std::mem::replace(&mut self.moving.known, self.moving.given.len());
        self.moving.given[known..].to_vec()
    }

    pub fn ids(&self) -> Vec<ConnectionId> {
        let first = [self.own_id, self.first_destination];
        first
            .into_iter()
            .chain(self.moving.given.iter().copied())
            .collect()
    }

    pub fn path(&self) -> Path {
        self.moving.at
    }

    /// A datagram comes; the first one tells where the peer is.
    pub(super) fn comes(&mut self, from: Path, len: usize) {
        (self.moving.from, self.moving.from_len) = (from, len);
        if self.bytes_in == 0 {
            self.moving.at = from;
        }
        if self.moving.at == from {
            self.bytes_in += len;
        }
    }

    pub(super) fn follow(&mut self, to: Path, bytes: usize, now: Instant) -> Result<(), Fault> {
        let from = self.moving.at;
        if to == from || self.role == Role::Client {
            return Ok(());
        }
        if self.known.is_validated {
            self.moving.before = Some(from);
            // Where it is there still, somebody else sent its packets on: what it says then leads back (section 9.3.3).
            self.word(from, false, random()?, true);
        }
        self.moving.at = to;
        // Until it answers, little goes there (sections 8.1 and 9.3.1); where it answered just before it needn't again.
        self.known.is_validated = self.moving.before == Some(to);
        (self.bytes_in, self.bytes_out) = (bytes, 0);
        let wait = self.recovery.probe_timeout(Level::Data);
        self.moving.search = (!self.known.is_validated).then(|| Search {
            asked: Vec::new(),
            ask_at: now,
            wait,
            until: now + self.patience(),
        });
        self.controls
            .extend(self.peer_ids.advance().map(Control::RetireId));
        if from.peer.ip() != to.peer.ip() {
            self.recovery.congestion.collapse();
            self.recovery.path.narrow();
        }
        Ok(())
    }

    // (section 8.2.4)
    fn patience(&self) -> Duration {
        3 * self
            .recovery
            .probe_timeout(Level::Data)
            .max(FIRST_PROBE_TIMEOUT)
    }

    fn word(&mut self, to: Path, is_answer: bool, bytes: [u8; 8], is_wide: bool) {
        if self.moving.words.len() < MOST_WORDS {
            self.moving.words.push_back(Word {
                to,
                is_answer,
                bytes,
                is_wide,
            });
        }
    }

    /// No answer came: the peer is where it was (section 9.3.2).
    pub(super) fn give_way_up(&mut self, now: Instant) {
        let is_over = |search: &mut Search| search.until <= now;
        if self.moving.search.take_if(is_over).is_some() {
            self.moving.at = self.moving.before.unwrap_or(self.moving.at);
            self.known.is_validated = true;
        }
    }

    /// Makes a datagram that is about a path alone. Answers where it goes to, where there is one.
    pub(super) fn send_of_paths(&mut self, out: &mut Vec<u8>, now: Instant) -> Option<Path> {
        if let Some(word) = self.moving.words.pop_front() {
            let bytes = &word.bytes;
            let frame = match word.is_answer {
                true => Frame::PathResponse { bytes },
                false => Frame::PathChallenge { bytes },
            };
            self.send_alone(&frame, word.is_wide, out, now)?;
            return Some(word.to);
        }
        let bound = self.bound();
        let search = self.moving.search.as_mut()?;
        if search.ask_at > now {
            return None;
        }
        search.wait *= 2;
        search.ask_at = now + search.wait / 2;
        if bound < QUESTIONS / 2 {
            return None;
        }
        let (bytes, is_wide) = (random().ok()?, bound >= DATAGRAM);
        search.asked.push(Question { bytes, is_wide });
        self.send_alone(&Frame::PathChallenge { bytes: &bytes }, is_wide, out, now)?;
        self.bytes_out += out.len();
        Some(self.moving.at)
    }

    // Recovery needn't know of it: its loss says nothing of the path that the rest takes, and it isn't sent again.
    fn send_alone(
        &mut self,
        frame: &Frame<'_>,
        is_wide: bool,
        out: &mut Vec<u8>,
        now: Instant,
    ) -> Option<()> {
        let number = self.claim().ok()?;
        let mut draft = self.header(Level::Data, number).write(out);
        push_frame(out, frame);
        draft.finish(out);
        if is_wide {
            draft.pad(out, DATAGRAM);
        }
        let sent = sent_now(now, false, Vec::new(), Vec::new());
        self.note_sent(Planned { draft, sent }, out);
        Some(())
    }

    /// The answer goes where the question came from, in a datagram of 1,200 bytes if that is at most three times as many (section 8.2.2).
    pub(super) fn take_challenge(&mut self, bytes: &[u8]) {
        let Moving { from, from_len, .. } = self.moving;
        let is_wide = self.known.is_validated && from == self.moving.at || 3 * from_len >= DATAGRAM;
        self.word(from, true, bytes.try_into().unwrap_or_default(), is_wide);
    }

    /// Whichever way it came. Where the question was small it goes again in a datagram of 1,200 bytes (section 8.2.3).
    pub(super) fn take_path_response(&mut self, bytes: &[u8], now: Instant) {
        let until = now + self.patience();
        let Some(search) = &mut self.moving.search else {
            return;
        };
        let mut asked = search.asked.iter();
        if let Some(question) = asked.find(|question| question.bytes == bytes) {
            self.known.is_validated = true;
            match question.is_wide {
                true => self.moving.search = None,
                false => (search.ask_at, search.until) = (now, until),
            }
        }
    }

    pub(super) fn give_ids(&mut self) -> Result<(), Fault> {
        (1..self.peer.active_ids.min(AT_ONCE)).try_for_each(|_| self.give_id())
    }

    fn give_id(&mut self) -> Result<(), Fault> {
        if self.moving.given.len() < IN_ALL {
            let id = random_id()?;
            self.moving.given.push(id);
            let sequence = self.moving.given.len() as u64;
            let token = random()?;
            self.controls.push_back(Control::NewId {
                sequence,
                id,
                token,
            });
        }
        Ok(())
    }

    /// One takes the place of each that is retired. That comes again where its ACK was lost, and counts once.
    pub(super) fn take_retired(&mut self, sequence: u64) -> Result<(), Fault> {
        match self.moving.retired.insert(sequence) {
            true => self.give_id(),
            false => Ok(()),
        }
    }

    /// The only one can't be retired: the peer would have none to use.
    pub(super) fn may_retire(&self, sequence: u64) -> bool {
        let given = self.moving.given.len() as u64;
        self.role == Role::Server && given > 0 && sequence <= given
    }
}
