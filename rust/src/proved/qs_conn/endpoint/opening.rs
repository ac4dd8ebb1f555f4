// Made from crates/qs_conn/src/endpoint/opening.rt by rust/erase; not edited by hand.
use super::{Endpoint, is_uni, role_bit};
use crate::proved::qs_conn::outbox::Outbox;
use crate::proved::qs_conn::recv_tables::RecvTables;
use crate::proved::qs_calls::{OpenFault, Share};
use crate::proved::qs_ranges::NoMemory;
use crate::proved::qs_streams::type_of;
use crate::proved::qs_wire::{Dir, StreamId};

impl Endpoint {
    /// Opens the next stream of that direction, and returns its number.
    ///
    /// Refused: `Closed`; `Blocked` with the peer's count if as many are open; and `NoMemory`, and then nothing changed.
    #[inline]
    pub fn open(&mut self, dir: Dir) -> Result<StreamId, OpenFault> {
        if self.closed.is_some() {
            return Err(OpenFault::Closed);
        }
        let stream_type = self.own_type(dir);
        let count = self.opened_count(stream_type);
        let known = self.known_count(dir);
        if known <= count as u64 {
            self.want(dir, known);
            self.settle();
            return Err(OpenFault::Blocked(known));
        }
        let stream = StreamId::new(count as u64 * 4 + stream_type as u64).unwrap();
        if let Err(_refused) = self.open_stream(stream) {
            return Err(OpenFault::NoMemory);
        }
        self.settle();
        Ok(stream)
    }

    /// Returns each stream that the peer opened, once: bidirectional ones first, lower numbers first.
    #[inline]
    pub fn accept(&mut self) -> Option<StreamId> {
        match self.accept_of(Dir::Bidi) {
            Some(stream) => Some(stream),
            None => self.accept_of(Dir::Uni),
        }
    }

    /// Returns each stream of one direction that the peer opened, once: lower numbers first (RFC 9000, section 2.1). What this call
    /// returned `accept` doesn't, and the other way round.
    #[inline]
    pub fn accept_of(&mut self, dir: Dir) -> Option<StreamId> {
        if self.closed.is_some() {
            return None;
        }
        let stream_type = self.peer_type(dir);
        let count = self.accepted.of(dir);
        if count >= self.opened_count(stream_type) as u64 {
            return None;
        }
        self.accepted.set(dir, count + 1);
        self.settle();
        Some(StreamId::new(count * 4 + stream_type as u64).unwrap())
    }

    // A frame that names a stream of the peer opens it (RFC 9000, section 3.2). Memory is asked for only if it isn't open yet, so a repeat
    // needs none.
    #[inline]
    pub(super) fn open_by_peer(&mut self, stream: StreamId) -> Result<(), NoMemory> {
        if self.is_yet_to_open(stream) {
            return self.open_stream(stream);
        }
        Ok(())
    }

    fn open_stream(&mut self, stream: StreamId) -> Result<(), NoMemory> {
        let (uni, own) = (is_uni(stream), self.is_own(stream));
        let limit = self.first_send_limit(stream);
        let window = self.window(stream);
        let share = self.core.limits.tuning.credit_step;
        let buffer = self.send_buffer();
        let before = self.core.outbox.count_of(type_of(stream));
        self.core.due.make_room(stream)?;
        open_sends(&mut self.core.outbox, uni & !own, limit, buffer, stream)?;
        if let Err(refused) = open_recvs(&mut self.core.recvs, uni & own, window, share, stream) {
            self.core.outbox.close_to(stream, before);
            self.is_settled = false;
            return Err(refused);
        }
        self.is_settled = false;
        Ok(())
    }

    fn want(&mut self, dir: Dir, count: u64) {
        self.core.limits.wanted_streams.set(dir, Some(count));
    }

    #[inline]
    pub(super) fn known_count(&self, dir: Dir) -> u64 {
        self.core.limits.known_streams.of(dir)
    }

    #[inline]
    pub(super) fn opened_count(&self, stream_type: usize) -> usize {
        debug_assert!(stream_type < 4);
        self.core
            .outbox
            .count_of(stream_type)
            .max(self.core.recvs.count_of(stream_type))
    }

    #[inline]
    pub(super) fn own_type(&self, dir: Dir) -> usize {
        match dir {
            Dir::Bidi => role_bit(self.core.limits.role),
            Dir::Uni => 2 + role_bit(self.core.limits.role),
        }
    }

    #[inline]
    pub(super) fn peer_type(&self, dir: Dir) -> usize {
        match dir {
            Dir::Bidi => 1 - role_bit(self.core.limits.role),
            Dir::Uni => 3 - role_bit(self.core.limits.role),
        }
    }
}

#[inline(always)]
fn open_sends(
    outbox: &mut Outbox,
    absent: bool,
    limit: u64,
    buffer: u32,
    stream: StreamId,
) -> Result<(), NoMemory> {
    debug_assert!(limit <= 0x3fff_ffff_ffff_ffff);
    if absent {
        return Ok(());
    }
    outbox.open_to(limit, buffer, stream)
}

fn open_recvs(
    recvs: &mut RecvTables,
    absent: bool,
    window: u64,
    share: Share,
    stream: StreamId,
) -> Result<(), NoMemory> {
    debug_assert!(1 <= window);
    debug_assert!(window <= 1 << 30);
    if absent {
        return Ok(());
    }
    recvs.open_to(window, share, stream)
}
