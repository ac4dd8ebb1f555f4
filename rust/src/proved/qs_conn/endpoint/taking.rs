// Made from crates/qs_conn/src/endpoint/taking.rt by rust/erase; not edited by hand.
//! A frame without a fault takes effect.

use super::Endpoint;
use crate::proved::qs_conn::newly_told::Told;
use crate::proved::qs_conn::seen::SeenFrame;
use crate::proved::qs_ranges::NoMemory;
use crate::proved::qs_send::Item;
use crate::proved::qs_streams::{Place, type_of};
use crate::proved::qs_wire::{Dir, StreamId};

impl Endpoint {
    // If it finds no memory it changes nothing, but that of an ACK some packets may be acknowledged then: each is let go by itself.
    #[inline(always)]
    pub(super) fn on_frame<T: Told>(
        &mut self,
        seen: &SeenFrame<'_>,
        told: &mut T,
    ) -> Result<(), NoMemory> {
        match *seen {
            SeenFrame::Ack { largest, ranges } => self.on_ack(largest, ranges, told),
            SeenFrame::Stream {
                stream,
                offset,
                bytes,
                fin,
            } => self.on_stream(stream, offset, bytes, fin),
            SeenFrame::Control(Item::MaxData { maximum }) => {
                self.on_max_data(maximum);
                Ok(())
            }
            SeenFrame::Control(Item::MaxStreams { dir, count }) => {
                self.on_max_streams(dir, count);
                Ok(())
            }
            SeenFrame::Control(Item::MaxStreamData { stream, maximum }) => {
                self.on_max_stream_data(stream, maximum)
            }
            SeenFrame::Control(Item::StopSending { stream, code }) => {
                self.on_stop_sending(stream, code)
            }
            SeenFrame::Control(Item::StreamDataBlocked { stream, .. }) => self.open_by_peer(stream),
            SeenFrame::Control(
                Item::ResetStream {
                    stream,
                    code,
                    final_size,
                },
            ) => self.on_reset_stream(stream, code, final_size),
            SeenFrame::Control(_) | SeenFrame::Close(_) | SeenFrame::Plain { .. } => Ok(()),
        }
    }

    // Also those that were declared lost: a late ACK shows that they arrived (RFC 9000, sections 13.2.1 and 13.3).
    fn on_ack<T: Told>(&mut self, largest: u64, ranges: &[u8], told: &mut T) -> Result<(), NoMemory> {
        debug_assert!(largest < 1 << 62);
        let before = self.core.ended;
        let taken = self.core.ack(largest, ranges, told);
        self.is_settled &= self.core.ended.is_same(before);
        taken
    }

    fn on_max_data(&mut self, maximum: u64) {
        debug_assert!(maximum <= 0x3fff_ffff_ffff_ffff);
        self.core.limits.known_data = self.core.limits.known_data.max(maximum);
    }

    fn on_max_streams(&mut self, dir: Dir, count: u64) {
        debug_assert!(count <= 1 << 60);
        let known = &mut self.core.limits.known_streams;
        known.set(dir, known.of(dir).max(count));
    }

    fn on_max_stream_data(&mut self, stream: StreamId, maximum: u64) -> Result<(), NoMemory> {
        debug_assert!(maximum <= 0x3fff_ffff_ffff_ffff);
        self.open_by_peer(stream)?;
        self.core.allow(stream, maximum);
        Ok(())
    }

    // Either the half is reset at once, which no application can forget, or the application chose to answer.
    fn on_stop_sending(&mut self, stream: StreamId, code: u64) -> Result<(), NoMemory> {
        debug_assert!(code <= 0x3fff_ffff_ffff_ffff);
        self.open_by_peer(stream)?;
        let answers = self.core.limits.tuning.answers_stops;
        let was = self.core.outbox.reset_of(stream);
        self.core.outbox.stopped(stream, code, answers);
        self.core.note_reset(stream, was);
        Ok(())
    }

    fn on_reset_stream(&mut self, stream: StreamId, code: u64, size: u64) -> Result<(), NoMemory> {
        debug_assert!(size <= 0x3fff_ffff_ffff_ffff);
        let _granted = self.core.limits.granted;
        self.open_by_peer(stream)?;
        let was = self.core.is_over(stream);
        self.core.recvs.take_reset(stream, code, size);
        let is = self.core.is_over(stream);
        self.core.ended.recount(stream, was, is);
        self.is_settled = false;
        Ok(())
    }

    // Most frames are of a stream that is open and of which no end, reset or stop came. Such a frame is taken by its half alone: no limit
    // is looked at as the call ends, and no stream counted anew.
    #[inline(always)]
    fn on_stream(
        &mut self,
        stream: Place,
        offset: u64,
        bytes: &[u8],
        fin: bool,
    ) -> Result<(), NoMemory> {
        if self.is_plain(stream) {
            self.core.recvs.take_stream(stream, offset, bytes, fin)?;
            return Ok(());
        }
        self.on_any_stream(stream.id, offset, bytes, fin)
    }

    fn is_plain(&self, stream: Place) -> bool {
        let Some(half) = self.core.recvs.half(stream) else {
            return false;
        };
        if half.is_told() {
            return false;
        }
        if half.stop_code().is_some() {
            return false;
        }
        if half.reset_code().is_some() {
            return false;
        }
        if stream.stream_type >= 2 {
            return true;
        }
        stream.index < self.core.outbox.count_of(stream.stream_type)
    }

    // The longer way: it may open streams, and end one.
    #[inline(always)]
    fn on_any_stream(
        &mut self,
        stream: StreamId,
        offset: u64,
        bytes: &[u8],
        fin: bool,
    ) -> Result<(), NoMemory> {
        let stream_type = type_of(stream);
        let sends = self.core.outbox.count_of(stream_type);
        let recvs = self.core.recvs.count_of(stream_type);
        self.open_by_peer(stream)?;
        let was = self.core.is_over(stream);
        let place = Place::of(stream);
        if let Err(refused) = self.core.recvs.take_stream(place, offset, bytes, fin) {
            self.core.outbox.close_to(stream, sends);
            self.core.recvs.close_to(stream, recvs);
            self.is_settled = false;
            return Err(refused);
        }
        let is = self.core.is_over(stream);
        self.core.ended.recount(stream, was, is);
        self.is_settled = false;
        Ok(())
    }
}
