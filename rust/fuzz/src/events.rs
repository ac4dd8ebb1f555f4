//! Events: each that comes holds now, comes as often as it may, and none is missing in the end.

use crate::codes::{Code, NONE, code};
use crate::looks::is_next;
use crate::world::{STREAMS, Side, World};
use gotsavena::{Dir, Endpoint, Event, SendState, StreamId};

const OPENED: u64 = 0;
const READABLE: u64 = 1;
const WRITABLE: u64 = 2;
const STOPPED: u64 = 3;
const FINISHED: u64 = 4;
const RESET_ACKED: u64 = 5;
const ENDED: u64 = 6;
const AVAILABLE: u64 = 7;
const DATA_BLOCKED: u64 = 8;
const STREAM_DATA_BLOCKED: u64 = 9;
const STREAMS_BLOCKED: u64 = 10;

/// An event as C has it.
#[derive(Default)]
struct News {
    kind: u64,
    stream: Option<StreamId>,
    dir: Option<Dir>,
    code: u64,
}

impl News {
    fn of(event: Event) -> News {
        let on = |kind, stream| News {
            kind,
            stream: Some(stream),
            ..News::default()
        };
        let towards = |kind, dir| News {
            kind,
            dir: Some(dir),
            ..News::default()
        };
        match event {
            Event::Opened(stream) => on(OPENED, stream),
            Event::Readable(stream) => on(READABLE, stream),
            Event::Writable(stream) => on(WRITABLE, stream),
            Event::Stopped(stream, code) => News {
                code,
                ..on(STOPPED, stream)
            },
            Event::Finished(stream) => on(FINISHED, stream),
            Event::ResetAcked(stream) => on(RESET_ACKED, stream),
            Event::Ended(stream) => on(ENDED, stream),
            Event::Available(dir) => towards(AVAILABLE, dir),
            Event::DataBlocked => News {
                kind: DATA_BLOCKED,
                ..News::default()
            },
            Event::StreamDataBlocked(stream) => on(STREAM_DATA_BLOCKED, stream),
            Event::StreamsBlocked(dir) => towards(STREAMS_BLOCKED, dir),
            other => panic!("{other}"),
        }
    }

    fn comes_once(&self) -> bool {
        [OPENED, STOPPED, FINISHED, RESET_ACKED, ENDED].contains(&self.kind)
    }
}

fn sending_state(s: &Side, stream: StreamId) -> Option<SendState> {
    Some(s.end.report(stream)?.send?.state)
}

/// Whether what an event says is so now.
fn holds(s: &Side, event: Event) -> bool {
    match event {
        Event::Opened(stream) => s.is_peers(stream) && s.end.report(stream).is_some(),
        Event::Readable(stream) => is_next(s, stream, Endpoint::next_readable),
        Event::Writable(stream) => {
            is_next(s, stream, Endpoint::next_writable) && s.end.room(stream) > 0
        }
        Event::Stopped(stream, code) => s.end.stopped_with(stream) == Some(code),
        Event::Finished(stream) => sending_state(s, stream) == Some(SendState::DataRecvd),
        Event::ResetAcked(stream) => sending_state(s, stream) == Some(SendState::ResetRecvd),
        Event::Ended(stream) => is_next(s, stream, Endpoint::next_ended),
        Event::Available(dir) => s.end.open_left(dir) > 0,
        Event::StreamDataBlocked(stream) => s.end.report(stream).is_some(),
        Event::DataBlocked | Event::StreamsBlocked(_) => !s.is_closed(),
        other => panic!("{other}"),
    }
}

fn hear_one(w: &mut World<'_>, at: usize) -> bool {
    let s = &mut w.sides[at];
    let answer = s.call_again(|end| {
        let event = end.next_event().map_err(|fault| fault.number())?;
        event.ok_or(NONE)
    });
    w.digest.mix(code(&answer));
    let Ok(event) = answer else {
        return false;
    };
    let news = News::of(event);
    w.digest.mix(news.kind);
    w.digest.mix(news.stream.map_or(0, StreamId::value));
    w.digest.mix(news.dir == Some(Dir::Uni));
    w.digest.mix(news.code);
    assert!(holds(s, event), "what an event says is so");
    let Some(stream) = news.stream.filter(|stream| stream.value() < STREAMS as u64) else {
        return true;
    };
    let is_peers = s.is_peers(stream);
    let seen = &mut s.news[stream.value() as usize];
    let bit = 1 << news.kind;
    assert!(
        !news.comes_once() || *seen & bit == 0,
        "an event that comes once"
    );
    let is_opened = news.kind == OPENED || !is_peers || *seen & 1 << OPENED != 0;
    assert!(is_opened, "a stream's first event is that it was opened");
    *seen |= bit;
    true
}

pub fn hear(w: &mut World<'_>, at: usize) {
    let mut left = 1 + w.input.byte() % 16;
    while left > 0 && hear_one(w, at) {
        left -= 1;
    }
}

pub fn report_blocked(w: &mut World<'_>, at: usize) {
    let is_chosen = w.input.flag();
    w.sides[at].call(|end| end.report_blocked(is_chosen));
}

/// All events are read, and what holds now was reported.
pub fn hear_all(w: &mut World<'_>, at: usize) {
    while hear_one(w, at) {}
    let s = &w.sides[at];
    for stream in (0..STREAMS as u64).filter_map(StreamId::new) {
        let came = |kind: u64| s.news[stream.value() as usize] >> kind & 1 != 0;
        if s.end.report(stream).is_none() {
            continue;
        }
        assert!(
            !s.is_peers(stream) || came(OPENED),
            "an opened stream was reported"
        );
        let was_stopped = s.end.stopped_with(stream).is_some();
        assert!(
            !was_stopped || came(STOPPED),
            "a stopped stream was reported"
        );
        let has_ended = is_next(s, stream, Endpoint::next_ended);
        assert!(!has_ended || came(ENDED), "an ended stream was reported");
        let is_readable = is_next(s, stream, Endpoint::next_readable);
        assert!(
            !is_readable || came(READABLE),
            "a readable stream was reported"
        );
        let state = sending_state(s, stream);
        let is_finished = state == Some(SendState::DataRecvd);
        assert!(
            !is_finished || came(FINISHED),
            "a finished stream was reported"
        );
        let is_reset = state == Some(SendState::ResetRecvd);
        assert!(
            !is_reset || came(RESET_ACKED),
            "an acknowledged reset was reported"
        );
    }
}
