// Made from crates/qs_conn/src/middle.rt by rust/erase; not edited by hand.
//! What an endpoint knows and has to send.

use crate::proved::qs_conn::by_dir::ByDir;
use crate::proved::qs_conn::endpoint::{is_uni, role_bit};
use crate::proved::qs_conn::limits::Limits;
use crate::proved::qs_conn::outbox::Outbox;
use crate::proved::qs_conn::own_told::OwnTold;
use crate::proved::qs_conn::recv_tables::RecvTables;
use crate::proved::qs_streams::{Boards, type_of};
use crate::proved::qs_wire::StreamId;

mod acking;
mod filling;
mod noting;
mod sendable;

/// The limits, the streams and the packets: what a packet is filled from, and what an ACK or a loss changes. Apart from received packet
/// numbers and the close, so that proofs of these carry less.
pub(crate) struct Core {
    pub limits: Limits,
    pub outbox: Outbox,
    pub recvs: RecvTables,
    pub due: Boards,
    pub own: OwnTold,
    pub ended: ByDir<u64>,
}

impl Core {
    /// Both halves, if it has two (RFC 9000, section 3): only then the peer may open another.
    #[inline(always)]
    pub(crate) fn is_over(&self, stream: StreamId) -> bool {
        if type_of(stream) % 2 == role_bit(self.limits.role) {
            return false;
        }
        self.recvs.has_ended(stream) && (is_uni(stream) || self.outbox.has_ended(stream))
    }
}
