// Made from crates/qs_send/src/half.rt by rust/erase; not edited by hand.
//! The sending half of a stream (RFC 9000, sections 2.2, 3.1 and 13.3).

use crate::proved::qs_send::offsets::{Memory, Offsets};
use crate::proved::qs_send::parts::{Chunk, SendFault, SendState};
use crate::proved::qs_ranges::{MaybeNumber, NoMemory};
use crate::proved::qs_wire::StreamId;
use crate::shim::alloc::Global;

mod chunks;
mod over;

/// The largest value of a variable-length integer (RFC 9000, section 16).
pub const MAX_VARINT: u64 = (1 << 62) - 1;

/// The sending half of a stream: bytes are written once, go out in chunks, and stay until they are acknowledged. Lost ones go out again,
/// and a reset frees all of them (RFC 9000, sections 3.1 and 13.3).
///
/// What was noted as due and what was acknowledged are kept apart, and what is due is the difference. So `acked` and `lost` each grow one
/// set, in any order and late, and nothing has to be undone.
pub struct SendHalf {
    id: StreamId,
    offsets: Offsets,
    limit: u64,
    buffer: u32,
    // Bounds the memory after a smaller buffer was set: what was accepted isn't moved.
    widest: u32,
    // Its final size is the sent end, so it needs no field.
    reset_code: MaybeNumber,
    // Kept whatever becomes of the half, for an application that asks late.
    stop_code: MaybeNumber,
    finished: bool,
    fin_sent: bool,
    fin_acked: bool,
    fin_noted: bool,
    blocked_sent: bool,
    reset_acked: bool,
}

impl SendHalf {
    /// A half in the state Ready, which may send the offsets below `limit` and keeps at most `buffer` bytes. It takes no memory, since a
    /// stream that is opened may never carry a byte.
    #[inline]
    pub fn new(alloc: Global, id: StreamId, limit: u64, buffer: u32) -> Self {
        debug_assert!(limit <= 0x3fff_ffff_ffff_ffff);
        let _number = id.value();
        Self {
            id,
            offsets: Offsets::new(alloc),
            limit,
            buffer,
            widest: buffer,
            reset_code: MaybeNumber::none(),
            stop_code: MaybeNumber::none(),
            finished: false,
            fin_sent: false,
            fin_acked: false,
            fin_noted: false,
            blocked_sent: false,
            reset_acked: false,
        }
    }

    /// Accepts the front of the bytes, as many as there is room for, and returns how many. They are due.
    ///
    /// Refused, and then unchanged: `WasReset` after a reset, else `Finished` after `finish`, else `NoMemory`.
    #[inline]
    pub fn write(&mut self, bytes: &[u8]) -> Result<usize, SendFault> {
        if let Some(fault) = self.refusal() {
            return Err(fault);
        }
        let most = (self.room() as u64).min(MAX_VARINT - self.offsets.written());
        let len = bytes.len().min(most as usize);
        if len == 0 {
            return Ok(0);
        }
        let (taken, _) = bytes.split_at(len);
        if let Err(_) = self.offsets.write(taken, self.widest as usize) {
            return Err(SendFault::NoMemory);
        }
        Ok(len)
    }

    /// Ends the stream after the bytes written so far. The FIN is due.
    ///
    /// Refused, and then unchanged: `WasReset` after a reset, else `Finished` after another `finish`.
    #[inline]
    pub fn finish(&mut self) -> Result<(), SendFault> {
        if let Some(fault) = self.refusal() {
            return Err(fault);
        }
        self.finished = true;
        self.fin_noted = true;
        Ok(())
    }

    /// Resets the stream in Ready, Send or Data Sent, with the count of offsets that went out as its final size: what was never sent needs
    /// no credit. From then on only the RESET_STREAM is to be sent (RFC 9000, sections 3.1 and 4.5), so the buffer is freed. The code is at
    /// most 2^62 - 1, so that a frame can carry it.
    ///
    /// Refused, and then unchanged: `WasReset` after another reset, else `Finished` in Data Recvd, when there is nothing left to give up.
    #[inline]
    pub fn reset(&mut self, code: u64) -> Result<(), SendFault> {
        debug_assert!(code <= 0x3fff_ffff_ffff_ffff);
        if self.was_reset() {
            return Err(SendFault::WasReset);
        }
        if self.is_whole() {
            return Err(SendFault::Finished);
        }
        self.reset_code = MaybeNumber::some(code);
        self.offsets.let_all_go();
        self.fin_noted = false;
        Ok(())
    }

    /// Processes a STOP_SENDING: a reset with its code, if one can still be made, and the first one's code is kept. Else nothing changes,
    /// so that a half that is over keeps few numbers (RFC 9000, section 3.5).
    #[inline]
    pub fn stopped(&mut self, code: u64) {
        debug_assert!(code <= 0x3fff_ffff_ffff_ffff);
        if self.reset(code).is_err() {
            return;
        }
        self.keep_stop(code);
    }

    /// Processes a STOP_SENDING that the application answers: the first one's code is kept if a reset can still be made, and the half goes
    /// on (RFC 9000, section 3.5).
    #[inline]
    pub fn told_stop(&mut self, code: u64) {
        debug_assert!(code <= 0x3fff_ffff_ffff_ffff);
        if self.was_reset() || self.is_whole() {
            return;
        }
        self.keep_stop(code);
    }

    fn keep_stop(&mut self, code: u64) {
        debug_assert!(code <= 0x3fff_ffff_ffff_ffff);
        if self.stop_code.get().is_none() {
            self.stop_code = MaybeNumber::some(code);
        }
    }

    /// The code of the first STOP_SENDING that came (RFC 9000, section 3.5).
    #[inline]
    pub fn stop_code(&self) -> Option<u64> {
        self.stop_code.get()
    }

    /// Whether a STOP_SENDING would change the half: whether it can still be reset (RFC 9000, section 3.5).
    #[inline]
    pub fn stop_changes(&self) -> bool {
        if self.was_reset() {
            return false;
        }
        !self.is_whole()
    }

    /// Whether one that the application answers would change it: none came before either (RFC 9000, section 3.5).
    #[inline]
    pub fn asked_changes(&self) -> bool {
        if self.stop_code.get().is_some() {
            return false;
        }
        self.stop_changes()
    }

    /// Raises the peer's limit. One that is no higher changes nothing, since frames may come out of order (RFC 9000, section 4.1).
    #[inline]
    pub fn allow(&mut self, limit: u64) {
        debug_assert!(limit <= 0x3fff_ffff_ffff_ffff);
        self.limit = self.limit.max(limit);
    }

    /// Keeps at most so many bytes from now on. What is kept stays, for it is promised to the reader: if it is more, no byte is accepted
    /// until enough of it is acknowledged.
    #[inline]
    pub fn set_buffer(&mut self, size: u32) {
        self.buffer = size;
        self.widest = self.widest.max(size);
    }

    #[inline]
    pub fn note_blocked(&mut self) {
        self.blocked_sent = true;
    }

    #[inline]
    pub fn reset_acked(&mut self) {
        self.reset_acked = true;
    }

    #[inline]
    pub fn sent(&mut self, chunk: Chunk) {
        self.offsets.sent(chunk.offset + chunk.len as u64);
        self.fin_sent |= chunk.fin;
        self.fin_noted &= !chunk.fin;
    }

    /// Notes that a chunk that was sent is acknowledged, also after it was lost. The bytes below the lowest unacknowledged offset are
    /// freed. Unchanged if memory was refused.
    #[inline]
    pub fn acked(&mut self, chunk: Chunk) -> Result<(), NoMemory> {
        let fin_acked = self.fin_acked | chunk.fin;
        let end = chunk.offset + chunk.len as u64;
        self.offsets.acked(chunk.offset, end, fin_acked)?;
        self.fin_acked = fin_acked;
        Ok(())
    }

    /// Notes that a chunk that was sent is lost: what of it isn't acknowledged is due again, but after a reset nothing is (RFC 9000,
    /// section 13.3). Unchanged if memory was refused.
    #[inline]
    pub fn lost(&mut self, chunk: Chunk) -> Result<(), NoMemory> {
        if self.was_reset() {
            return Ok(());
        }
        let end = chunk.offset + chunk.len as u64;
        self.offsets.lost(chunk.offset, end)?;
        self.fin_noted |= chunk.fin;
        Ok(())
    }

    #[inline]
    pub fn state(&self) -> SendState {
        if self.reset_acked {
            SendState::ResetRecvd
        } else if self.was_reset() {
            SendState::ResetSent
        } else if self.is_whole() {
            SendState::DataRecvd
        } else if self.fin_sent {
            SendState::DataSent
        } else if self.offsets.sent_end() > 0 || self.blocked_sent {
            SendState::Send
        } else {
            SendState::Ready
        }
    }

    /// The final size that was declared, by a reset or by the FIN that was sent (RFC 9000, section 4.5).
    #[inline]
    pub fn final_size(&self) -> Option<u64> {
        match self.reset_code.get() {
            Some(_) => Some(self.offsets.sent_end()),
            None if self.fin_sent => Some(self.offsets.written()),
            None => None,
        }
    }

    /// The application's code of the reset: at most 2^62 - 1.
    #[inline(always)]
    pub fn reset_code(&self) -> Option<u64> {
        self.reset_code.get()
    }

    /// How many bytes are kept until they are acknowledged.
    #[inline]
    pub fn kept_len(&self) -> usize {
        self.offsets.kept_len()
    }

    #[inline(always)]
    pub fn written(&self) -> u64 {
        self.offsets.written()
    }

    /// The number after the largest offset that was sent; 0 where none was.
    #[inline(always)]
    pub fn sent_end(&self) -> u64 {
        self.offsets.sent_end()
    }

    /// The lowest offset that isn't acknowledged (RFC 9000, section 13.3).
    #[inline]
    pub fn unacked_from(&self) -> u64 {
        self.offsets.unacked_from()
    }

    /// The offsets below it may be sent.
    #[inline(always)]
    pub fn limit(&self) -> u64 {
        self.limit
    }

    /// How many bytes the buffer accepts: none while more are kept than it is set to.
    #[inline]
    pub fn room(&self) -> usize {
        (self.buffer as usize).saturating_sub(self.offsets.kept_len())
    }

    /// How many bytes of memory the buffer takes: at least those that are kept, and up to the most that it was set to. No more than 4,096
    /// if none is kept, and nothing after a reset and in Data Recvd. The offsets stand beside, so that it is known whose memory this is.
    #[inline]
    pub fn held(&self) -> Memory<'_> {
        Memory {
            bytes: self.offsets.held() as u64,
            offsets: Some(&self.offsets),
        }
    }

    /// Why a write and a finish are refused, `None` if they aren't: `WasReset` after a reset, else `Finished` after `finish` (RFC 9000,
    /// sections 2.4 and 3.1).
    #[inline]
    pub fn refusal(&self) -> Option<SendFault> {
        if self.was_reset() {
            Some(SendFault::WasReset)
        } else if self.finished {
            Some(SendFault::Finished)
        } else {
            None
        }
    }

    /// Whether a write of one byte would be accepted, if there is memory for it: it was neither finished nor reset, and there is room (RFC
    /// 9000, sections 2.2, 2.4 and 3.1).
    #[inline]
    pub fn is_writable(&self) -> bool {
        if self.refusal().is_some() {
            return false;
        }
        self.offsets.kept_len() < self.buffer as usize && self.offsets.written() < MAX_VARINT
    }

    fn was_reset(&self) -> bool {
        self.reset_code.get().is_some()
    }

    fn is_whole(&self) -> bool {
        self.fin_acked && self.offsets.kept_len() == 0
    }
}
