//! Questions: they agree with each other, and stay within what was promised.

use crate::codes::{
    Answer, Code, END_OF_STREAM, INVALID, NONE, NOTHING_YET, OK, RESET_BY_PEER, code,
};
use crate::world::{LOOKED_AT, Side, World, fold};
use gotsavena::{Dir, Endpoint, Frame, Peek, RecvReport, RecvState, SendReport, SendState};
use gotsavena::{StreamId, frames};

/// The sums over the streams of an endpoint, which it tells in constant time.
#[derive(Default)]
struct Sums {
    unsent: u64,
    kept: u64,
    taken: u64,
    highest: u64,
    receiving: u64,
    sending: u64,
}

/// What grows never falls, and no more is kept than was granted.
fn check_counts(s: &mut Side) {
    let (granted, spent, taken) = (s.end.granted(), s.end.spent(), s.end.taken_sum());
    let (next, stored) = (s.end.next_number(), s.end.stored());
    let grows = granted >= s.granted && spent >= s.spent && taken >= s.taken;
    assert!(grows && next >= s.next_number, "what grows never falls");
    let is_granted = taken <= spent && spent <= granted;
    assert!(is_granted, "no more comes than was granted");
    let is_in_window = granted <= taken + s.widest;
    assert!(is_in_window, "no more is granted than the window");
    let is_stored = stored <= spent - taken && s.end.noted() <= spent;
    assert!(is_stored, "no more is stored than came, nor noted");
    let is_kept = s.end.unsent_sum() <= s.end.kept_sum();
    assert!(is_kept, "what wasn't sent is kept");
    (s.granted, s.spent, s.taken, s.next_number) = (granted, spent, taken, next);
}

/// After each call.
pub fn look(w: &mut World<'_>, at: usize) {
    let s = &mut w.sides[at];
    check_counts(s);
    let closed = s.is_closed();
    assert!(closed || !s.was_closed, "a closed endpoint stays closed");
    s.was_closed = closed;
    let is_right = !w.is_honest || s.end.closing().is_none();
    assert!(is_right, "an honest peer breaks no rule");
    let (stored, kept) = (s.end.stored(), s.end.kept_sum());
    for value in [s.granted, s.spent, stored, kept, u64::from(closed)] {
        w.digest.mix(value);
    }
}

type Search = fn(&Endpoint, StreamId) -> Option<StreamId>;

pub fn is_next(s: &Side, stream: StreamId, search: Search) -> bool {
    let found = search(&s.end, stream);
    assert!(
        found.is_none_or(|found| found >= stream),
        "a search finds none below"
    );
    found == Some(stream)
}

/// What a look at a stream answers, and the code of a reset.
pub fn peek_code(s: &Side, stream: StreamId) -> (u64, u64) {
    match s.end.peek(stream) {
        Ok(Peek::Bytes(..)) => (OK, 0),
        Ok(Peek::End) => (END_OF_STREAM, 0),
        Ok(Peek::Reset(code)) => (RESET_BY_PEER, code),
        Ok(Peek::Wait) => (NOTHING_YET, 0),
        #[allow(unreachable_patterns)]
        Ok(_) => panic!("an unknown answer"),
        Err(fault) => (fault.number(), 0),
    }
}

/// Whether a read returns something new.
fn is_readable(s: &Side, stream: StreamId, r: &RecvReport) -> bool {
    let (peeked, _) = peek_code(s, stream);
    let is_new_end = peeked == END_OF_STREAM && r.state != RecvState::DataRead;
    let is_new_reset = peeked == RESET_BY_PEER && r.state != RecvState::ResetRead;
    peeked == OK || is_new_end || is_new_reset
}

fn check_receiving(s: &Side, stream: StreamId, r: &RecvReport, taken: u64) {
    assert!(taken <= r.highest, "what counts as consumed came");
    let is_within = r.highest <= r.limit && r.read_count <= taken;
    assert!(is_within, "a stream stays within its limit");
    assert!(
        r.final_size.is_none_or(|size| size == r.highest),
        "the final size"
    );
    let (was_reset, was_stopped) = (r.reset_code.is_some(), r.stop_code.is_some());
    let is_consumed = !was_reset || Some(taken) == r.final_size;
    assert!(is_consumed, "a reset stream counts as consumed");
    let is_read = was_reset || was_stopped || taken == r.read_count;
    assert!(is_read, "what was read counts as consumed");
    let is_found = is_next(s, stream, Endpoint::next_readable);
    assert_eq!(
        is_found,
        is_readable(s, stream, r),
        "which streams are readable"
    );
}

fn look_at_receiving(
    s: &mut Side,
    stream: StreamId,
    r: &RecvReport,
    all: &mut Sums,
    hash: &mut u64,
) {
    let taken = s.end.taken(stream).expect("a receiving half");
    check_receiving(s, stream, r, taken);
    if let Some(seen) = s.seen.get_mut(stream.value() as usize) {
        seen.check_receiving(r, taken);
    }
    all.taken += taken;
    all.highest += r.highest;
    let is_over = matches!(r.state, RecvState::DataRead | RecvState::ResetRead);
    let is_kept = !is_over && r.reset_code.is_none() && r.stop_code.is_none();
    all.receiving += u64::from(is_kept);
    let stop = r.stop_code.map_or(0, |code| code + 1);
    let (state, has_size) = (r.state as u64, u64::from(r.final_size.is_some()));
    for value in [state, r.read_count, r.highest, r.limit, has_size, stop] {
        fold(hash, value);
    }
}

fn check_sending(s: &Side, stream: StreamId, r: &SendReport, acked: u64, unsent: u64) {
    let (room, is_blocked) = (s.end.room(stream), s.end.is_blocked(stream));
    assert!(
        acked + unsent <= r.written,
        "what is unsent isn't acknowledged"
    );
    assert!(
        !is_blocked || unsent > 0,
        "a blocked stream has something to send"
    );
    let is_sized = r.final_size.is_none_or(|size| size <= r.written);
    assert!(is_sized, "the final size of a sending half");
    let is_writable = is_next(s, stream, Endpoint::next_writable);
    assert!(room == 0 || is_writable, "a stream with room is writable");
    let has_room = s.bounds_writes || !is_writable || room > 0;
    assert!(has_room, "a writable stream has room");
    let is_idle = !s.is_closed() || (room == 0 && !is_blocked);
    assert!(is_idle, "nothing is written to a closed endpoint");
}

fn look_at_sending(s: &mut Side, stream: StreamId, r: &SendReport, all: &mut Sums, hash: &mut u64) {
    let acked = s.end.acked_below(stream).expect("a sending half");
    let (unsent, stopped) = (s.end.unsent(stream), s.end.stopped_with(stream));
    check_sending(s, stream, r, acked, unsent);
    if let Some(seen) = s.seen.get_mut(stream.value() as usize) {
        seen.check_sending(r, acked, stopped);
    }
    all.unsent += unsent;
    all.kept += r.reset_code.map_or(r.written - acked, |_| 0);
    all.sending += 1;
    let is_sendable = u64::from(is_next(s, stream, Endpoint::next_sendable));
    let (state, stop) = (r.state as u64, stopped.map_or(0, |code| code + 1));
    for value in [state, r.written, r.limit, acked, unsent, is_sendable, stop] {
        fold(hash, value);
    }
}

fn look_at_stream(s: &mut Side, stream: StreamId, all: &mut Sums, hash: &mut u64) -> bool {
    let Some(report) = s.end.report(stream) else {
        return false;
    };
    if let Some(sending) = &report.send {
        look_at_sending(s, stream, sending, all, hash);
    }
    if let Some(receiving) = &report.recv {
        look_at_receiving(s, stream, receiving, all, hash);
    }
    let is_sent = report
        .send
        .is_none_or(|r| matches!(r.state, SendState::DataRecvd | SendState::ResetRecvd));
    let is_read = report
        .recv
        .is_none_or(|r| matches!(r.state, RecvState::DataRead | RecvState::ResetRead));
    let is_over = is_sent && is_read;
    assert_eq!(
        is_next(s, stream, Endpoint::next_ended),
        is_over,
        "which streams are over"
    );
    true
}

/// Looks at each stream, and returns a hash of all that was seen.
pub fn look_at_all(s: &mut Side) -> u64 {
    let mut memory = s.memory;
    let (hash, is_whole, all) = crate::refusing::within(&mut memory, || look_at_streams(s));
    assert_eq!(memory.asked, s.memory.asked, "a question takes no memory");
    if !is_whole {
        return hash;
    }
    assert_eq!(all.unsent, s.end.unsent_sum(), "the sum of what is unsent");
    assert_eq!(all.kept, s.end.kept_sum(), "the sum of what is kept");
    assert_eq!(all.taken, s.end.taken_sum(), "the sum of what is consumed");
    assert_eq!(all.highest, s.end.spent(), "the sum of the highest offsets");
    let held = s.end.held();
    let most = (2 * s.widest_buffer).max(4096);
    let received = 4 * s.widest + 4096 * all.receiving;
    assert!(
        held.receiving <= received,
        "how much the receive buffers hold"
    );
    assert!(
        held.sending <= most * all.sending,
        "how much the sending buffers hold"
    );
    hash
}

fn look_at_streams(s: &mut Side) -> (u64, bool, Sums) {
    let (mut all, mut hash, mut is_whole) = (Sums::default(), 0, true);
    for kind in 0..4 {
        let mut streams = (0..LOOKED_AT).filter_map(|index| StreamId::new(4 * index + kind));
        is_whole &= !streams.all(|stream| look_at_stream(s, stream, &mut all, &mut hash));
    }
    for value in [
        s.end.stored(),
        s.end.granted(),
        s.end.next_number(),
        s.end.credit_left(),
    ] {
        fold(&mut hash, value);
    }
    (hash, is_whole, all)
}

fn value_or(found: Option<u64>) -> Answer<u64> {
    found.ok_or(NONE)
}

/// Questions with any number.
pub fn search(w: &mut World<'_>, at: usize) {
    let from = w.input.number();
    let s = &mut w.sides[at];
    let stream = StreamId::new(from);
    let of_stream = |ask: &dyn Fn(StreamId) -> Answer<u64>| stream.ok_or(INVALID).and_then(ask);
    let next =
        |search: Search| of_stream(&|stream| value_or(search(&s.end, stream).map(StreamId::value)));
    let answers = [
        next(Endpoint::next_readable),
        next(Endpoint::next_writable),
        next(Endpoint::next_sendable),
        next(Endpoint::next_ended),
        value_or(s.end.next_outstanding(from)),
        of_stream(&|stream| Ok(s.end.room(stream))),
        of_stream(&|stream| Ok(s.end.unsent(stream))),
        of_stream(&|stream| value_or(s.end.acked_below(stream))),
        of_stream(&|stream| value_or(s.end.taken(stream))),
        of_stream(&|stream| value_or(s.end.stopped_with(stream))),
    ];
    for answer in answers {
        w.digest.mix(code(&answer));
        w.digest.mix(answer.unwrap_or(0));
    }
    for dir in [Dir::Bidi, Dir::Uni] {
        w.digest.mix(s.end.streams_left(dir));
        w.digest.mix(s.end.granted_streams(dir));
        w.digest.mix(s.end.open_left(dir));
    }
    w.digest.mix(s.end.credit_left());
    w.digest.mix(look_at_all(s));
}

/// The text of an endpoint's own close is a CONNECTION_CLOSE with its code.
pub fn look_close(w: &mut World<'_>, at: usize) {
    let room = w.input.byte() as usize;
    let mut out = vec![0; room];
    let s = &w.sides[at];
    let written = s.end.close_payload(&mut out);
    w.digest.mix(if written.is_some() { OK } else { NONE });
    w.digest.mix_len(written.unwrap_or(0));
    let Some(len) = written else {
        return;
    };
    let why = s.end.closing().expect("an endpoint that closed");
    assert!(len > 0 && len <= 64, "the length of a close");
    let mut all = frames(&out[..len]);
    let Some(Ok(placed)) = all.next() else {
        panic!("a close is a frame");
    };
    let Frame::ConnectionClose {
        code, frame_type, ..
    } = placed.frame
    else {
        panic!("a close is a CONNECTION_CLOSE");
    };
    assert!(all.next().is_none(), "a close is one frame");
    assert_eq!(
        (code, frame_type),
        (why.code, why.frame_type),
        "why it closed"
    );
}
