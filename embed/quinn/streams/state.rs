//! What quinn's connection calls: frames in, packets out, acknowledged and lost.
use std::cmp::Reverse;
use std::collections::{BinaryHeap, VecDeque};
use std::{iter, mem};

use bytes::Bytes;
use gotsavena::{
    Closing, Endpoint, Event, Fill, Frame, MakeFault, Peek, PeerLimits, Role, Settings, Share,
    TakeFault, Token, TokenFault, Tuning, MIN_FILL,
};
use rustc_hash::FxHashMap;
use tinyvec::TinyVec;

use super::{code_of, ours, quinns, theirs, Retransmits, ShouldTransmit, StreamEvent};
use crate::coding::Codec;
use crate::connection::spaces::ThinRetransmits;
use crate::connection::stats::FrameStats;
use crate::frame::{self, StreamMeta};
use crate::transport_parameters::TransportParameters;
use crate::{Dir, Side, StreamId, TransportError, TransportErrorCode, VarInt};

// Quinn's settings may be greater, so they are cut to the layer's range.
pub const MOST_DATA: u64 = 1 << 40;
pub const MOST_STREAM_DATA: u64 = 1 << 30;
pub const MOST_STREAMS: u64 = 1 << 17;
const MOST_IN_ALL: u64 = 1 << 21;
// The pieces of received bytes, with gaps between them, that a connection may have beside what its streams and its window account for.
// More close it: on a stream that was stopped no window bounds them.
const FEW_PIECES: u64 = 1 << 14;
// The most that a window accounts for.
const MOST_OF_WINDOW: u64 = 1 << 18;

/// The streams of a connection.
pub struct StreamsState {
    pub(super) end: Endpoint,
    pub(super) side: Side,
    pub(super) settings: Settings,
    // Needed again for the fresh endpoint after a refused 0-RTT.
    pub(super) window: u64,
    grants: [u64; 2],
    send_window: u64,
    pub(super) events: VecDeque<StreamEvent>,
    opened: [bool; 2],
    // Whether something came since the last search that may be an event of a sending half.
    pub(super) has_news: bool,
    // Priorities that were set, and with which stream the next packet begins: the layer takes the order by number.
    pub(super) priorities: FxHashMap<StreamId, i32>,
    turn: gotsavena::StreamId,
    // Those that wait with priorities: found once for many packets, and again after each call that may add one.
    pub(super) waiting: Waiting,
    // The frames of the packet in the making are written here first, as quinn hands out its buffer in between.
    pub(super) carried: Carried,
    space: Vec<u8>,
    // Counted here, since no call of the layer does.
    pub(super) send_streams: usize,
    own_bidi: u64,
    // It never falls: what was granted may still come.
    most_pieces: u64,
    // The first fault that quinn didn't ask for yet: it returns none from these calls.
    fault: Option<TransportError>,
}

// Streams that may send, each with its priority and its round.
type Waiting = BinaryHeap<(i32, Reverse<u64>, Reverse<gotsavena::StreamId>)>;

/// Kept beside the packet's number: the token of its fills, and the stream of each STREAM frame for quinn's log.
#[derive(Clone, Debug, Default)]
pub struct Carried {
    token: Option<Token>,
    pub(super) streams: TinyVec<[StreamMeta; 1]>,
}

/// What the peer may be granted of a setting: no more than the layer's range.
pub fn told(setting: VarInt, most: u64) -> VarInt {
    VarInt(setting.0.min(most))
}

fn new_end(side: Side, settings: Settings, send_window: u64, epoch: u64) -> Endpoint {
    let role = if side.is_client() { Role::Client } else { Role::Server };
    let tuning = Tuning::default()
        .epoch(epoch)
        .within_credit(true)
        .send_window(Some(send_window))
        .answers_stops(true)
        .credit_step(Share::Eighth)
        .reads_when_closed(true);
    // The peer's limits come with the handshake, or are remembered.
    Endpoint::with_tuning(role, settings, tuning, PeerLimits::default()).expect("in range")
}

impl StreamsState {
    pub fn new(
        side: Side,
        max_remote_uni: VarInt,
        max_remote_bi: VarInt,
        send_window: u64,
        receive_window: VarInt,
        stream_receive_window: VarInt,
    ) -> Self {
        let settings = Settings::default()
            .conn_window(receive_window.0.clamp(1, MOST_DATA))
            .stream_windows(stream_receive_window.0.clamp(1, MOST_STREAM_DATA))
            .send_buffer(send_window.clamp(1, MOST_STREAM_DATA) as usize)
            .bidi_streams(max_remote_bi.0.min(MOST_STREAMS), MOST_IN_ALL)
            .uni_streams(max_remote_uni.0.min(MOST_STREAMS), MOST_IN_ALL);
        let mut made = Self {
            end: new_end(side, settings, send_window, 0),
            side,
            settings,
            window: settings.limits().max_data,
            grants: [settings.limits().streams_bidi, settings.limits().streams_uni],
            send_window,
            events: VecDeque::new(),
            opened: [false; 2],
            has_news: false,
            priorities: FxHashMap::default(),
            turn: ours(StreamId(0)),
            waiting: Waiting::new(),
            carried: Carried::default(),
            space: Vec::new(),
            send_streams: 0,
            own_bidi: 0,
            most_pieces: 0,
            fault: None,
        };
        made.allow_pieces();
        made
    }

    // Quinn doesn't ask for faults everywhere. The next packet received returns them, and quinn closes.

    fn keep(&mut self, answer: Result<(), TransportError>) {
        self.fault = self.fault.take().or(answer.err());
    }

    pub(super) fn lacks_memory(&mut self) {
        self.keep(Err(no_memory()));
    }

    // Limits of the peer

    pub fn set_params(&mut self, params: &TransportParameters) {
        let limits = PeerLimits::default()
            .max_data(params.initial_max_data.into())
            .bidi_local(params.initial_max_stream_data_bidi_local.into())
            .bidi_remote(params.initial_max_stream_data_bidi_remote.into())
            .uni(params.initial_max_stream_data_uni.into())
            .streams_bidi(params.initial_max_streams_bidi.into())
            .streams_uni(params.initial_max_streams_uni.into());
        self.end.raise_limits(limits).expect("quinn read them, and the end is open");
        self.has_news = true;
        self.waiting.clear();
    }

    // Limits of this endpoint

    // Two for each receiving half, as each that has bytes counts, and one for each packet that a window may have under way.
    fn allow_pieces(&mut self) {
        let halves = self.grants[0] + self.grants[1] + self.own_bidi;
        let pieces = FEW_PIECES + 2 * halves + (self.window / 1_000).min(MOST_OF_WINDOW);
        self.most_pieces = self.most_pieces.max(pieces);
    }

    pub(super) fn opened_bidi(&mut self) {
        self.own_bidi += 1;
        self.allow_pieces();
    }

    pub fn set_max_concurrent(&mut self, dir: Dir, count: VarInt) {
        // (it is in range; a closed endpoint grants nothing more)
        let grant = count.0.min(MOST_STREAMS);
        self.grants[dir as usize] = grant;
        let _ = self.end.set_grant(theirs(dir), grant);
        self.allow_pieces();
    }

    /// Whether the window grew.
    pub fn set_receive_window(&mut self, receive_window: VarInt) -> bool {
        let before = self.window;
        self.window = receive_window.0.clamp(1, MOST_DATA);
        let _ = self.end.set_conn_window(self.window);
        self.allow_pieces();
        self.window > before
    }

    /// Nothing that was sent before the handshake counts: a fresh endpoint, of another epoch so that late news of old packets finds none of
    /// its own, with what the application set.
    pub fn zero_rtt_rejected(&mut self) {
        let epoch = self.end.token_of(0).epoch + 1;
        self.end = new_end(self.side, self.settings, self.send_window, epoch);
        self.set_receive_window(VarInt(self.window));
        for dir in Dir::iter() {
            self.set_max_concurrent(dir, VarInt(self.grants[dir as usize]));
        }
        self.priorities.clear();
        self.waiting.clear();
        self.send_streams = 0;
        self.own_bidi = 0;
    }

    /// After a Retry all that was sent goes out again, since the server kept none of it.
    pub fn retransmit_all_for_0rtt(&mut self) {
        let mut from = 0;
        self.waiting.clear();
        while let Some(number) = self.end.next_outstanding(from) {
            let lost = self.end.lost(self.end.token_of(number));
            self.told(lost);
            from = number + 1;
        }
    }

    // Frames

    pub fn received(
        &mut self,
        frame: frame::Stream,
        _payload: usize,
    ) -> Result<ShouldTransmit, TransportError> {
        let stream = ours(frame.id);
        self.take_of(
            frame.id,
            Frame::Stream { stream, offset: frame.offset, fin: frame.fin, bytes: &frame.data },
        )
    }

    pub fn received_reset(
        &mut self,
        frame: frame::ResetStream,
    ) -> Result<ShouldTransmit, TransportError> {
        let stream = ours(frame.id);
        let (code, final_size) = (frame.error_code.into(), frame.final_offset.into());
        self.take_of(frame.id, Frame::ResetStream { stream, code, final_size })
    }

    pub fn received_stop_sending(&mut self, id: StreamId, error_code: VarInt) {
        let frame = Frame::StopSending { stream: ours(id), code: error_code.into() };
        let taken = self.take_opening(id, frame);
        self.keep(taken.map(drop));
    }

    pub fn received_max_data(&mut self, n: VarInt) {
        let taken = self.take(Frame::MaxData { maximum: n.into() });
        self.keep(taken);
    }

    pub fn received_max_stream_data(
        &mut self,
        id: StreamId,
        offset: u64,
    ) -> Result<(), TransportError> {
        self.take_opening(id, Frame::MaxStreamData { stream: ours(id), maximum: offset }).map(drop)
    }

    pub fn received_max_streams(&mut self, dir: Dir, count: u64) -> Result<(), TransportError> {
        let before = self.end.open_left(theirs(dir));
        self.take(Frame::MaxStreams { dir: theirs(dir), count })?;
        if self.end.open_left(theirs(dir)) > before {
            self.events.push_back(StreamEvent::Available { dir });
        }
        Ok(())
    }

    pub fn is_local_unopened(&self, id: StreamId) -> bool {
        self.end.report(ours(id)).is_none()
    }

    fn take_of(
        &mut self,
        id: StreamId,
        frame: Frame<'_>,
    ) -> Result<ShouldTransmit, TransportError> {
        let dir = id.dir();
        if id.initiator() != self.side && id.index() >= self.end.granted_streams(theirs(dir)) {
            return Err(TransportError::STREAM_LIMIT_ERROR(""));
        }
        let was_readable = self.is_readable(id);
        let opens = self.take_opening(id, frame)?;
        // (reported once until it is read empty, and not of one that was stopped; whoever hears that a stream opened reads it)
        if !opens && !was_readable && self.is_readable(id) && self.is_read(id) {
            self.events.push_back(StreamEvent::Readable { id });
        }
        // (`is_sendable` is asked)
        Ok(ShouldTransmit(false))
    }

    fn is_readable(&self, id: StreamId) -> bool {
        !matches!(self.end.peek(ours(id)), Ok(Peek::Wait) | Err(_))
    }

    // Whether it opened streams, which is reported.
    fn take_opening(&mut self, id: StreamId, frame: Frame<'_>) -> Result<bool, TransportError> {
        let dir = theirs(id.dir());
        let left = self.end.streams_left(dir);
        self.take(frame)?;
        let opens = self.end.streams_left(dir) < left;
        self.opened[id.dir() as usize] |= opens;
        Ok(opens)
    }

    fn take(&mut self, frame: Frame<'_>) -> Result<(), TransportError> {
        if !matches!(frame, Frame::Stream { .. } | Frame::ResetStream { .. }) {
            self.has_news = true;
            self.waiting.clear();
        }
        match self.end.take_frame(&frame) {
            Ok(_) if self.end.noted() > self.most_pieces => {
                Err(TransportError::PROTOCOL_VIOLATION("too many pieces with gaps between them"))
            }
            Ok(_) => Ok(()),
            Err(TakeFault::Closing(closing)) => Err(error_of(closing)),
            Err(_) => Err(no_memory()),
        }
    }

    /// Whether anything of streams or of their limits is pending.
    pub fn is_sendable(&self) -> bool {
        self.end.is_sendable()
    }

    pub fn write_control_frames(
        &mut self,
        buf: &mut Vec<u8>,
        pending: &mut Retransmits,
        _retransmits: &mut ThinRetransmits,
        stats: &mut FrameStats,
        max_size: usize,
    ) {
        let begin = buf.len();
        // (`is_sendable` has it)
        pending.max_data = false;
        self.fill(buf, max_size, &Fill::control());
        // (most packets have none)
        if buf.len() > begin {
            for frame in frame::Iter::new(Bytes::copy_from_slice(&buf[begin..])) {
                stats.record(&frame);
            }
        }
    }

    pub fn write_stream_frames(&mut self, buf: &mut Vec<u8>, max_buf_size: usize) -> Carried {
        if self.priorities.is_empty() {
            self.fill(buf, max_buf_size, &Fill::data().from(self.turn));
        } else {
            if self.waiting.is_empty() {
                self.waiting = self.in_order();
            }
            while buf.len() + MIN_FILL <= max_buf_size {
                let Some((priority, Reverse(round), stream)) = self.waiting.pop() else { break };
                if self.fill(buf, max_buf_size, &Fill::data().only(stream.0)) {
                    self.waiting.push((priority, Reverse(round + 1), stream));
                }
            }
        }
        mem::take(&mut self.carried)
    }

    // The first is the greatest. Round-robin among equals: a stream that sent goes behind the others.
    pub(super) fn in_order(&self) -> Waiting {
        let next = |from| self.end.next_sendable(from);
        let all = iter::successors(next(ours(StreamId(0))), |last| next(last.next()?));
        let round = |stream| Reverse(u64::from(stream < self.turn));
        all.map(|stream| (self.priority(quinns(stream)), round(stream), Reverse(stream))).collect()
    }

    pub(super) fn priority(&self, id: StreamId) -> i32 {
        self.priorities.get(&id).copied().unwrap_or(0)
    }

    // Whether more is there than there was room for.
    pub(super) fn fill(&mut self, buf: &mut Vec<u8>, max_size: usize, want: &Fill) -> bool {
        let room = max_size.saturating_sub(buf.len());
        if room < MIN_FILL {
            return false;
        }
        if self.space.len() < room {
            self.space.resize(room, 0);
        }
        match self.end.fill(&mut self.space[..room], want) {
            Ok(Some(filled)) => {
                let frames = &self.space[..filled.len];
                buf.extend_from_slice(frames);
                self.carried.add(filled.token, frames);
                let next = filled.last_stream.and_then(gotsavena::StreamId::next);
                self.turn = next.unwrap_or(self.turn);
                return filled.more;
            }
            Err(MakeFault::NoMemory) => self.lacks_memory(),
            _ => {}
        }
        false
    }

    pub fn received_ack_of(&mut self, packet: Carried) {
        let acked = packet.token.map_or(Ok(()), |token| self.end.acked(token));
        self.told(acked);
        // (so that halves that are over no longer count; without any there is nothing to hear)
        if self.send_streams > 0 {
            self.hear();
        }
    }

    pub fn retransmit(&mut self, packet: Carried) {
        let lost = packet.token.map_or(Ok(()), |token| self.end.lost(token));
        self.waiting.clear();
        self.told(lost);
    }

    /// A probe carries again what is outstanding (RFC 9002, section 6.2.4), unless nothing of it is needed any more.
    pub fn resend(&mut self, packet: &Carried) -> bool {
        self.retransmit(packet.clone());
        !packet.is_empty() && self.is_sendable()
    }

    // (a closed endpoint, or one of another epoch, has nothing to acknowledge)
    fn told(&mut self, told: Result<(), TokenFault>) {
        if told == Err(TokenFault::NoMemory) {
            self.lacks_memory();
        }
    }

    pub(super) fn over(&mut self, id: StreamId) {
        self.priorities.remove(&id);
        self.send_streams -= 1;
    }

    pub fn poll(&mut self) -> Option<StreamEvent> {
        // (a search begins only when all that was found is reported)
        if self.has_news && self.events.is_empty() {
            self.hear();
        }
        if let Some(dir) = Dir::iter().find(|&dir| mem::take(&mut self.opened[dir as usize])) {
            return Some(StreamEvent::Opened { dir });
        }
        self.events.pop_front()
    }

    // What became of sending halves. Each event is a search, so none is asked for that is known without.
    pub(super) fn hear(&mut self) {
        self.has_news = false;
        loop {
            let told = match self.end.next_event() {
                // (reported as their frames came)
                Ok(Some(Event::Opened(_) | Event::Readable(_))) => continue,
                Ok(Some(Event::Writable(stream))) => StreamEvent::Writable { id: quinns(stream) },
                Ok(Some(Event::Stopped(stream, code))) => {
                    let (id, error_code) = (quinns(stream), code_of(code));
                    StreamEvent::Stopped { id, error_code }
                }
                Ok(Some(Event::Finished(stream))) => {
                    self.over(quinns(stream));
                    StreamEvent::Finished { id: quinns(stream) }
                }
                Ok(Some(Event::ResetAcked(stream))) => {
                    self.over(quinns(stream));
                    continue;
                }
                // (behind these come kinds alone that aren't asked for; that another one may be opened is reported when the peer says so,
                // as quinn does)
                Ok(_) => return,
                // (it comes again)
                Err(_) => {
                    self.has_news = true;
                    return;
                }
            };
            self.events.push_back(told);
        }
    }

    pub fn reset_acked(&mut self, _id: StreamId) {}

    pub fn can_send_flow_control(&self, _id: StreamId) -> bool {
        false
    }

    /// (quinn asks for it when it took in all of a packet)
    pub fn take_max_streams_dirty(&mut self, _dir: Dir) -> Result<bool, TransportError> {
        self.fault.take().map_or(Ok(false), Err)
    }
}

fn no_memory() -> TransportError {
    TransportError::INTERNAL_ERROR("no memory")
}

fn error_of(closing: Closing) -> TransportError {
    // (the codes of section 20.1 and the types of these frames are spelled in one byte)
    let code = TransportErrorCode::decode(&mut &[closing.code as u8][..]);
    let frame = frame::Type::decode(&mut &[closing.frame_type as u8][..]).ok();
    let code = code.unwrap_or(TransportErrorCode::INTERNAL_ERROR);
    let reason = match code {
        TransportErrorCode::FLOW_CONTROL_ERROR => "more bytes than were granted",
        TransportErrorCode::STREAM_LIMIT_ERROR => "more streams than were granted",
        TransportErrorCode::STREAM_STATE_ERROR => "the stream isn't open, or not in this direction",
        TransportErrorCode::FINAL_SIZE_ERROR => {
            "the final size isn't what it was, or bytes lie past it"
        }
        _ => "a number that no frame can have",
    };
    TransportError { code, frame, reason: reason.into() }
}

// In place of quinn's list of STREAM frames, so that quinn's code of sent packets stays as it is.
impl Carried {
    fn add(&mut self, token: Token, frames: &[u8]) {
        let joined = |first: Token| first.and(token).expect("nothing else was filled between");
        self.token = Some(self.token.map_or(token, joined));
        for placed in gotsavena::frames(frames).flatten() {
            if let Frame::Stream { stream, .. } = placed.frame {
                self.streams.push(StreamMeta { id: quinns(stream), ..StreamMeta::default() });
            }
        }
    }

    // (of STREAM frames)
    pub fn len(&self) -> usize {
        self.streams.len()
    }

    pub fn is_empty(&self) -> bool {
        self.token.is_none()
    }
}

impl IntoIterator for Carried {
    type Item = Carried;
    type IntoIter = iter::Once<Carried>;

    fn into_iter(self) -> Self::IntoIter {
        iter::once(self)
    }
}
