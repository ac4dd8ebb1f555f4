// Made from crates/qs_conn/src/endpoint.rt by rust/erase; not edited by hand.
//! One endpoint of a connection.

use crate::proved::qs_conn::by_dir::ByDir;
use crate::proved::qs_conn::held::Held;
use crate::proved::qs_conn::limits::Limits;
use crate::proved::qs_conn::middle::Core;
use crate::proved::qs_conn::outbox::Outbox;
use crate::proved::qs_conn::own_told::OwnTold;
use crate::proved::qs_conn::recv_tables::RecvTables;
use crate::proved::qs_conn::setup::{setup_fault, wide_setup_fault};
use crate::proved::qs_calls::{Closed, Closing, NotedClose, PeerLimits, Settings, SetupFault, Share, Tuning};
use crate::proved::qs_ranges::RangeSet;
use crate::proved::qs_recv::{next_limit, step_of};
use crate::proved::qs_streams::{Boards, type_of};
use crate::proved::qs_wire::{Dir, Frame, Role, StreamId, put};
use crate::shim::alloc::Global;

mod alone;
mod asking;
mod frames;
mod hearing;
mod making;
mod news;
mod opening;
mod owner;
mod raising;
mod receiving;
mod setting;
mod taking;
mod tokens;

/// One endpoint of a connection. It processes payloads and makes packets. The application opens, accepts, writes, finishes, resets, reads
/// and stops streams; the transport declares packets lost (RFC 9000, sections 2 to 4 and 13).
///
/// Contracts see it as a record.
pub struct Endpoint {
    core: Core,
    peer: PeerLimits,
    // A call that moved nothing which limits and counts follow looks at none of them as it ends.
    is_settled: bool,
    accepted: ByDir<u64>,
    done: RangeSet,
    floor: u64,
    ack_due: bool,
    closed: Option<Closed>,
    alloc: Global,
}

impl Endpoint {
    /// A new endpoint. Refused if a setting is out of its range, or if the peer permits more streams than have a number (RFC 9000, section
    /// 4.6).
    #[inline]
    pub fn new(
        alloc: Global,
        role: Role,
        settings: Settings,
        peer: PeerLimits,
    ) -> Result<Endpoint, SetupFault> {
        match setup_fault(&settings, &peer) {
            Some(fault) => Err(fault),
            None => Ok(Self::begun(alloc, role, settings, Tuning::by_default(), peer)),
        }
    }

    /// The same with wider ranges: windows of streams and sending buffers of up to 2^30 bytes, a connection's window of up to 2^40, grants
    /// of up to 2^17 streams of a direction and lifetimes of up to 2^21; and tuned. What [`new`](Endpoint::new) makes this makes, too.
    #[inline]
    pub fn with_tuning(
        alloc: Global,
        role: Role,
        settings: Settings,
        tuning: Tuning,
        peer: PeerLimits,
    ) -> Result<Endpoint, SetupFault> {
        match wide_setup_fault(&settings, &peer) {
            Some(fault) => Err(fault),
            None => Ok(Self::begun(alloc, role, settings, tuning, peer)),
        }
    }

    fn begun(
        alloc: Global,
        role: Role,
        settings: Settings,
        tuning: Tuning,
        peer: PeerLimits,
    ) -> Endpoint {
        Endpoint {
            core: Core {
                limits: Limits {
                    role,
                    settings,
                    tuning,
                    conn_window: settings.conn_window,
                    widest: settings.conn_window,
                    grants: ByDir::new(settings.grant_bidi, settings.grant_uni),
                    granted: settings.conn_window,
                    known_data: peer.max_data,
                    granted_streams: ByDir::new(settings.grant_bidi, settings.grant_uni),
                    known_streams: ByDir::new(peer.streams_bidi, peer.streams_uni),
                    wanted_streams: ByDir::new(None, None),
                },
                outbox: Outbox::new(alloc),
                recvs: RecvTables::new(alloc),
                due: Boards::new(alloc),
                own: OwnTold::new(),
                ended: ByDir::new(0, 0),
            },
            peer,
            is_settled: false,
            accepted: ByDir::new(0, 0),
            done: RangeSet::new(alloc),
            floor: 0,
            ack_due: false,
            closed: None,
            alloc,
        }
    }

    /// How many bytes are stored: at most what was granted beyond what was consumed.
    #[inline]
    pub fn stored(&self) -> u64 {
        let _granted = self.core.limits.granted;
        self.core.recvs.tally().stored
    }

    /// How much memory the receive buffers take and the sending buffers, by a walk over all streams that were opened, so for a look from
    /// time to time: a sum would have to be kept at each call. A peer within its credit can't make the receive buffers take more than four
    /// times the widest window of the connection that was set, and 4,096 bytes for each receiving half that still keeps bytes. A sending
    /// half that was reset, or of which all was acknowledged, takes none.
    #[inline]
    pub fn held(&self) -> Held {
        let _granted = self.core.limits.granted;
        Held {
            receiving: self.core.recvs.held(),
            sending: self.core.outbox.held(),
        }
    }

    /// The connection limit granted to the peer (RFC 9000, section 4.1).
    #[inline]
    pub fn granted(&self) -> u64 {
        self.core.limits.granted
    }

    /// How many streams of a direction the peer may open: the grant, and one more for each of its streams that ended, up to the lifetime's
    /// count, and no fewer than before (RFC 9000, section 4.6). It takes no memory.
    #[inline]
    pub fn granted_streams(&self, dir: Dir) -> u64 {
        self.core.limits.granted_streams.of(dir)
    }

    /// The sum of the highest offsets of all streams, which the connection limit bounds.
    #[inline]
    pub fn spent(&self) -> u64 {
        let _granted = self.core.limits.granted;
        self.core.recvs.tally().spent
    }

    /// Writes the payload for this endpoint's own close: a CONNECTION_CLOSE with an empty reason (RFC 9000, section 10.2). Returns its
    /// length. `None` if it didn't close, or if it doesn't fit; then nothing is written.
    #[inline]
    pub fn close_payload(&self, out: &mut [u8]) -> Option<usize> {
        let Some(Closed::ByUs(closing)) = self.closed else {
            return None;
        };
        put_close(closing, out)
    }

    // As a call ends, and never between the frames of a payload: so what a frame is judged by doesn't depend on where it stands in its
    // payload.
    fn settle(&mut self) {
        if self.is_settled {
            return;
        }
        self.core.recvs.raise_all(&mut self.core.due);
        let taken = self.core.recvs.tally().taken;
        let settings = &self.core.limits.settings;
        let step = self.core.limits.tuning.count_step;
        self.core.limits.granted = next_limit(
            self.core.limits.granted,
            taken,
            self.core.limits.conn_window,
            self.core.limits.tuning.credit_step,
        );
        self.core.limits.granted_streams = ByDir {
            bidi: next_count(
                step,
                self.core.limits.granted_streams.bidi,
                self.core.limits.grants.bidi,
                settings.lifetime_bidi,
                self.core.ended.bidi,
            ),
            uni: next_count(
                step,
                self.core.limits.granted_streams.uni,
                self.core.limits.grants.uni,
                settings.lifetime_uni,
                self.core.ended.uni,
            ),
        };
        self.is_settled = true;
    }

    fn is_own(&self, stream: StreamId) -> bool {
        type_of(stream) % 2 == role_bit(self.core.limits.role)
    }

    // Its first limit too, which is what the peer counts with.
    fn window(&self, stream: StreamId) -> u64 {
        self.core.limits.window(stream)
    }

    fn send_buffer(&self) -> u32 {
        self.core.limits.settings.send_buffer as u32
    }

    // By the peer's limits, which name streams as the peer sees them: what it opens is local to it.
    fn first_send_limit(&self, stream: StreamId) -> u64 {
        if is_uni(stream) {
            self.peer.uni
        } else if self.is_own(stream) {
            self.peer.bidi_remote
        } else {
            self.peer.bidi_local
        }
    }

    /// Notes a close that the stack above the packets saw or made itself, either side's, by the transport or by the application (RFC 9000,
    /// sections 10.2 and 19.19): such a stack sees CONNECTION_CLOSE frames before this endpoint does. It is closed from then on, as after
    /// any close, and `noted_close` returns what was noted; it has no payload for the peer, since such a stack writes its own. `receive`
    /// and `take_frame` return it again: the peer's close by its code, and its own as a closing of frame type 0 at place 0. An endpoint
    /// that closed before stays as it is. It takes no memory.
    #[inline]
    pub fn note_closed(&mut self, close: NotedClose) {
        if self.closed.is_some() {
            return;
        }
        self.closed = Some(Closed::Noted(close));
    }
}

#[inline]
pub(crate) fn role_bit(role: Role) -> usize {
    match role {
        Role::Client => 0,
        Role::Server => 1,
    }
}

#[inline]
pub(crate) fn is_uni(stream: StreamId) -> bool {
    type_of(stream) >= 2
}

// The grant and as many more as make whole steps, but no fewer than were granted, since no count may fall (RFC 9000, section 4.6).
fn next_count(step: Option<Share>, granted: u64, grant: u64, lifetime: u64, ended: u64) -> u64 {
    let more = match step {
        None => ended,
        Some(share) => in_steps(step_of(share, grant), ended),
    };
    granted.max(grant.saturating_add(more).min(lifetime))
}

fn in_steps(step: u64, count: u64) -> u64 {
    debug_assert!(0 < step);
    count - count % step
}

fn put_close(closing: Closing, out: &mut [u8]) -> Option<usize> {
    let frame = Frame::ConnectionClose {
        code: closing.code,
        frame_type: closing.frame_type,
        reason: &[],
    };
    match put(&frame, out) {
        Ok(len) => Some(len),
        Err(_full) => None,
    }
}
