// Made from crates/qs_conn/src/endpoint/receiving.rt by rust/erase; not edited by hand.
use super::Endpoint;
use crate::proved::qs_conn::newly_told::{Silent, Told};
use crate::proved::qs_conn::seen::{SeenFrame, asks_ack, seen};
use crate::proved::qs_calls::{Closed, Closer, Closing, NotedClose, Received};
use crate::proved::qs_ranges::{NoMemory, RangeSet};
use crate::proved::qs_wire::{Frames, Placed, WireFault};

/// What one frame does to the processing of its payload. If it goes on, the frame may ask for an ACK, which counts only when all frames
/// took effect.
pub(crate) enum Progress {
    GoesOn(bool),
    Ends(Result<Received, Closing>),
}

/// A bound on what a peer can make this endpoint keep. All of them take at most 515 bytes in an ACK.
const MAX_RUNS: usize = 32;

impl Endpoint {
    /// Processes the payload of a packet: its frames take effect, one after the other, in order (RFC 9000, sections 12.3, 12.4 and 13.1).
    /// `number` is the packet's number, below 2^62; `payload` is all bytes of its frames.
    ///
    /// Returns
    /// - `Done` once all frames took effect. The number is kept, and if a frame asks for it an ACK is due (section 13.2).
    /// - `Duplicate` if the number is kept already, and `BelowFloor` if it is below those whose history is kept (section 13.2.3). Nothing
    ///   changes.
    /// - `NoMemory`: the frames before took effect, the number isn't kept, and the same payload may come again.
    /// - `PeerClosed` with the code of the peer's CONNECTION_CLOSE. The frames before it took effect; the endpoint is closed from now on
    ///   (section 10.2.2).
    ///
    /// Refused with a `Closing` if the bytes are no frames (section 12.4) or a frame breaks a rule (sections 4, 13.1, 19 and 20.1): its
    /// code, and the type and the place of that frame. The frames before it took effect; the endpoint is closed from now on, and
    /// `close_payload` writes the close (section 10.2).
    ///
    /// A closed endpoint returns what it returned when it closed, before it looks at the number, and nothing changes.
    #[inline]
    pub fn receive(&mut self, number: u64, payload: &[u8]) -> Result<Received, Closing> {
        debug_assert!(number < 1 << 62);
        self.receive_with_acks(number, payload, &mut Silent)
    }

    /// As `receive`, and `told` is called for each packet that the payload newly acknowledges, once: one that was outstanding, that an ACK
    /// of the payload names, and that isn't outstanding any more (RFC 9000, section 13.3). They come in the order of the ACKs, of each ACK
    /// the highest number first, as soon as the packet's last piece is acknowledged: congestion control goes on from there (RFC 9002,
    /// section 7).
    ///
    /// After `NoMemory` none was named that is still outstanding: the same payload may come again, and names the others.
    #[inline]
    pub fn receive_with_acks<T: Told>(
        &mut self,
        number: u64,
        payload: &[u8],
        told: &mut T,
    ) -> Result<Received, Closing> {
        debug_assert!(number < 1 << 62);
        match self.closed {
            Some(Closed::ByUs(closing)) => return Err(closing),
            Some(Closed::ByPeer(code)) => return Ok(Received::PeerClosed(code)),
            Some(Closed::Noted(close)) => return noted_receive(close),
            None => {}
        }
        if number < self.floor {
            return Ok(Received::BelowFloor);
        }
        if self.done.has(number) {
            return Ok(Received::Duplicate);
        }
        let taken = self.take_payload(number, payload, told);
        self.settle();
        taken
    }

    fn take_payload<T: Told>(
        &mut self,
        number: u64,
        payload: &[u8],
        told: &mut T,
    ) -> Result<Received, Closing> {
        debug_assert!(number < 1 << 62);
        let mut frames = Frames::new(payload);
        let mut asks = false;
        loop {
            // Most frames are of streams: apart, so that the compiler knows which frame this is.
            if let Some(placed) = frames.next_stream() {
                match self.take_placed(&placed, told) {
                    Progress::GoesOn(asks_ack) => asks |= asks_ack,
                    Progress::Ends(result) => return result,
                }
            } else {
                match frames.next() {
                    Ok(Some(placed)) => match self.take_placed(&placed, told) {
                        Progress::GoesOn(asks_ack) => asks |= asks_ack,
                        Progress::Ends(result) => return result,
                    },
                    Ok(None) => return Ok(self.record_all(number, asks)),
                    Err(fault) => return Err(self.close_by(fault)),
                }
            }
        }
    }

    #[inline(always)]
    fn take_placed<T: Told>(&mut self, placed: &Placed<'_>, told: &mut T) -> Progress {
        let seen = seen(&placed.frame);
        if let SeenFrame::Close(code) = seen {
            self.closed = Some(Closed::ByPeer(code));
            return Progress::Ends(Ok(Received::PeerClosed(code)));
        }
        if let Some(code) = self.verdict(&seen) {
            return Progress::Ends(Err(self.close_at(placed, code)));
        }
        if let Err(_refused) = self.on_frame(&seen, told) {
            return Progress::Ends(Ok(Received::NoMemory));
        }
        Progress::GoesOn(asks_ack(&seen))
    }

    #[inline(always)]
    fn record_all(&mut self, number: u64, asks: bool) -> Received {
        debug_assert!(number < 1 << 62);
        if let Err(_refused) = self.record(number, asks) {
            return Received::NoMemory;
        }
        Received::Done
    }

    fn close_at(&mut self, placed: &Placed<'_>, code: u64) -> Closing {
        debug_assert!(code < 1 << 62);
        let closing = Closing {
            code,
            frame_type: placed.frame_type,
            place: placed.place,
        };
        self.closed = Some(Closed::ByUs(closing));
        closing
    }

    fn close_by(&mut self, fault: WireFault) -> Closing {
        let closing = Closing {
            code: fault.code,
            frame_type: fault.frame_type,
            place: fault.place,
        };
        self.closed = Some(Closed::ByUs(closing));
        closing
    }

    // Only once all frames took effect: a number that is kept is acknowledged, and its payload never processed again (RFC 9000, section
    // 13.2.3).
    #[inline(always)]
    pub(super) fn record(&mut self, number: u64, asks: bool) -> Result<(), NoMemory> {
        debug_assert!(number < 1 << 62);
        self.done.insert(number, number + 1)?;
        self.floor = trim(&mut self.done, self.floor);
        self.ack_due |= asks;
        Ok(())
    }
}

// In the words that `receive` has, so that a stack needs no other way for it.
fn noted_receive(close: NotedClose) -> Result<Received, Closing> {
    match close.by {
        Closer::Us => Err(noted_of_us(close.code)),
        Closer::Peer => Ok(Received::PeerClosed(close.code)),
    }
}

// No frame's fault, so it names none.
#[inline]
pub(super) fn noted_of_us(code: u64) -> Closing {
    Closing {
        code,
        frame_type: 0,
        place: 0,
    }
}

// The lowest leaves, even if it is the number that just came. Numbers below the floor are dropped unseen from then on, so that none is
// processed twice.
fn trim(done: &mut RangeSet, floor: u64) -> u64 {
    if done.count() <= MAX_RUNS {
        return floor;
    }
    let end = lowest_end(done);
    done.drop_below(end);
    end
}

fn lowest_end(done: &RangeSet) -> u64 {
    done.first_missing(lowest(done))
}

fn lowest(done: &RangeSet) -> u64 {
    match done.first() {
        Some(number) => number,
        None => 0,
    }
}
