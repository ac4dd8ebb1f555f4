// Made from crates/qs_conn/src/outbox.rt by rust/erase; not edited by hand.
use crate::shim::Vec;

use crate::proved::qs_conn::held::sum_held;
use crate::proved::qs_conn::piece_room::PieceRoom;
use crate::proved::qs_conn::send_lanes::{SendLanes, Setting};
use crate::proved::qs_conn::send_marks::{Moves, Task};
use crate::proved::qs_conn::told::ToldItems;
use halves::{half_of, is_open};
use crate::proved::qs_ranges::NoMemory;
use crate::proved::qs_send::{LostRecords, Piece, Records, SendFault, SendState, SendView};
use crate::proved::qs_streams::{index_of, type_of};
use crate::proved::qs_wire::StreamId;
use crate::shim::alloc::Global;

mod acks;
mod halves;
mod making;
mod rows;
mod telling;

pub(crate) use acks::KeptPacket;
pub(crate) use rows::Row;

/// The sending halves, what packets carried, and what was acknowledged of them. Apart from the receiving halves: a packet in the making
/// changes these and reads those, a frame with data the other way round, and each borrows what it needs of the two.
pub(crate) struct Outbox {
    // In the order of the two lowest bits of a stream's number.
    types: [SendLanes; 4],
    sent: u64,
    records: Records,
    // For late ACKs.
    lost: LostRecords,
    pending: Vec<Piece>,
    room: PieceRoom,
    // Taken before the packet is filled, so that a refusal changes nothing.
    spare: usize,
    next: u64,
    told: ToldItems,
}

impl Outbox {
    #[inline]
    pub(crate) fn new(alloc: Global) -> Self {
        Outbox {
            types: [
                SendLanes::new(alloc, 0),
                SendLanes::new(alloc, 1),
                SendLanes::new(alloc, 2),
                SendLanes::new(alloc, 3),
            ],
            sent: 0,
            records: Records::new(alloc),
            lost: LostRecords::new(alloc),
            pending: Vec::new(alloc),
            spare: 0,
            next: 0,
            told: ToldItems::new(alloc),
            room: PieceRoom::new(alloc),
        }
    }

    #[inline]
    pub(crate) fn is_open(&self, stream: StreamId) -> bool {
        is_open(&self.types, stream)
    }

    /// A stream's sending half, where it is open.
    #[inline(always)]
    pub(crate) fn half(&self, stream: StreamId) -> Option<SendView<'_>> {
        if !is_open(&self.types, stream) {
            return None;
        }
        let half = half_of(&self.types, stream);
        Some(half)
    }

    #[inline]
    pub(crate) fn count_of(&self, stream_type: usize) -> usize {
        debug_assert!(stream_type < 4);
        let lanes = &self.types[stream_type];
        lanes.len()
    }

    /// Whether a stream's sending half is in Data Recvd or Reset Recvd (RFC 9000, section 3.1).
    #[inline]
    pub(crate) fn has_ended(&self, stream: StreamId) -> bool {
        let Some(half) = self.half(stream) else {
            return false;
        };
        matches!(half.state(), SendState::DataRecvd | SendState::ResetRecvd)
    }

    /// The number of the next packet.
    #[inline]
    pub(crate) fn next(&self) -> u64 {
        self.next
    }

    #[inline(always)]
    pub(crate) fn sent_sum(&self) -> u64 {
        self.sent
    }

    #[inline]
    pub(crate) fn unsent_sum(&self) -> u64 {
        let bidi = self.types[0].promised() + self.types[1].promised();
        let uni = self.types[2].promised() + self.types[3].promised();
        let unsent = bidi + uni - self.sent as u128;
        if unsent > u64::MAX as u128 {
            return u64::MAX;
        }
        unsent as u64
    }

    #[inline]
    pub(crate) fn kept_sum(&self) -> u64 {
        let bidi = self.types[0].kept() + self.types[1].kept();
        let uni = self.types[2].kept() + self.types[3].kept();
        let kept = bidi + uni;
        if kept > u64::MAX as u128 {
            return u64::MAX;
        }
        kept as u64
    }

    #[inline]
    pub(crate) fn held(&self) -> u64 {
        sum_held(&self.types)
    }

    #[inline]
    pub(crate) fn open_to(
        &mut self,
        limit: u64,
        buffer: u32,
        stream: StreamId,
    ) -> Result<(), NoMemory> {
        debug_assert!(limit <= 0x3fff_ffff_ffff_ffff);
        let lanes = &mut self.types[type_of(stream)];
        lanes.open_to(type_of(stream) as u64, limit, buffer, index_of(stream) + 1)
    }

    /// An opening is undone: nothing of these streams was sent or is to be sent, and they keep nothing.
    #[inline]
    pub(crate) fn close_to(&mut self, stream: StreamId, count: usize) {
        let lanes = &mut self.types[type_of(stream)];
        lanes.close_to(count);
    }

    #[inline]
    pub(crate) fn write(&mut self, stream: StreamId, bytes: &[u8]) -> Result<usize, SendFault> {
        // A write to a full buffer costs no more than its marks.
        if !halves::has(&self.types, stream, Task::Writable) {
            match half_of(&self.types, stream).refusal() {
                Some(fault) => return Err(fault),
                None => return Ok(0),
            }
        }
        let types = &mut self.types;
        let over = Err(SendFault::Finished);
        halves::edit(types, stream, over, Moves::Room, |half| half.write(bytes))
    }

    #[inline]
    pub(crate) fn finish(&mut self, stream: StreamId) -> Result<(), SendFault> {
        let types = &mut self.types;
        let over = Err(SendFault::Finished);
        halves::edit(types, stream, over, Moves::End, |half| half.finish())
    }

    #[inline]
    pub(crate) fn reset(&mut self, stream: StreamId, code: u64) -> Result<(), SendFault> {
        debug_assert!(code <= 0x3fff_ffff_ffff_ffff);
        let types = &mut self.types;
        let over = Err(SendFault::Finished);
        halves::edit(types, stream, over, Moves::All, |half| half.reset(code))
    }

    #[inline]
    pub(crate) fn stopped(&mut self, stream: StreamId, code: u64, owner_answers: bool) {
        debug_assert!(code <= 0x3fff_ffff_ffff_ffff);
        let types = &mut self.types;
        halves::edit(types, stream, (), Moves::All, |half| {
            if owner_answers {
                half.told_stop(code);
            } else {
                half.stopped(code);
            }
        });
    }

    #[inline]
    pub(crate) fn set_buffer(&mut self, stream: StreamId, size: u32) {
        halves::set(&mut self.types, stream, Setting::Buffer(size));
    }

    #[inline]
    pub(crate) fn allow(&mut self, stream: StreamId, limit: u64) {
        debug_assert!(limit <= 0x3fff_ffff_ffff_ffff);
        halves::set(&mut self.types, stream, Setting::Limit(limit));
    }
}
