//! The application's calls: streams are opened, written, read and ended, and settings change.

use crate::codes::{
    Answer, CLOSED, Code, END_OF_STREAM, INVALID, NONE, NOTHING_YET, OK, OUT_OF_RANGE,
    RESET_BY_PEER, STREAM_LIMIT, TOO_MANY_STREAMS, code,
};
use crate::input::Input;
use crate::looks::peek_code;
use crate::world::{MOST_WRITTEN, NUMBERS, Side, World, closer, has_pattern, pattern};
use gotsavena::{
    CloseKind, Consumed, Dir, Endpoint, NotedClose, OpenFault, Peek, PeerLimits, Read, RecvReport,
    RecvState, SendReport, StreamId,
};

fn dir_of(code: u64) -> Dir {
    if code & 1 == 0 { Dir::Bidi } else { Dir::Uni }
}

fn sending(s: &Side, stream: StreamId) -> Option<SendReport> {
    s.end.report(stream)?.send
}

fn receiving(s: &Side, stream: StreamId) -> Option<RecvReport> {
    s.end.report(stream)?.recv
}

pub fn open_one(w: &mut World<'_>, at: usize) {
    let dir = dir_of(w.input.byte());
    let s = &mut w.sides[at];
    let left = s.end.open_left(dir);
    let limit = std::cell::Cell::new(0);
    let answer = s.call_again(|end| {
        end.open(dir).map_err(|fault| {
            if let OpenFault::Blocked(count) = fault {
                limit.set(count);
            }
            fault.number()
        })
    });
    let status = code(&answer);
    assert!([OK, STREAM_LIMIT, CLOSED].contains(&status), "a stream");
    if let Ok(stream) = answer {
        assert!(
            !s.is_peers(stream) && stream.dir() == dir && left > 0,
            "whose stream it is"
        );
    }
    let is_at_limit = status != STREAM_LIMIT || left == 0;
    assert!(is_at_limit, "a limit is reached where no stream is left");
    w.mix(status);
    w.mix(answer.map_or(0, StreamId::value));
    w.mix(limit.get());
}

pub fn accept_one(w: &mut World<'_>, at: usize) {
    let how = w.input.byte();
    let dir = dir_of(how);
    let s = &mut w.sides[at];
    let accepted = if how & 2 != 0 {
        s.call(|end| end.accept_of(dir))
    } else {
        s.call(Endpoint::accept)
    };
    w.digest.mix(if accepted.is_some() { OK } else { NONE });
    w.digest.mix(accepted.map_or(0, StreamId::value));
    let Some(stream) = accepted else {
        return;
    };
    let is_wanted = s.is_peers(stream) && (how & 2 == 0 || stream.dir() == dir);
    assert!(is_wanted, "whose stream it is");
    let report = s.end.report(stream).expect("an accepted stream is open");
    assert_eq!(
        report.send.is_some(),
        stream.dir() == Dir::Bidi,
        "its halves"
    );
}

pub fn write_some(w: &mut World<'_>, at: usize) {
    let number = w.input.number();
    let len = w.input.size().min(MOST_WRITTEN);
    let s = &mut w.sides[at];
    let answer = StreamId::new(number)
        .ok_or(INVALID)
        .and_then(|stream| write(s, stream, len));
    w.mix_code(&answer);
    w.mix_len(answer.unwrap_or(0));
}

fn write(s: &mut Side, stream: StreamId, len: usize) -> Answer<usize> {
    let written = sending(s, stream).map_or(0, |report| report.written);
    let bytes: Vec<u8> = (written..)
        .map(|offset| pattern(s.name, stream.value(), offset))
        .take(len)
        .collect();
    let room = s.end.room(stream);
    let answer = s.call_again(|end| {
        let by_handle = len % 2 != 0;
        let written = if by_handle {
            end.send_stream(stream).try_write(&bytes)
        } else {
            end.write(stream, &bytes)
        };
        written.map_err(|fault| fault.number())
    });
    match answer {
        Ok(count) => {
            let most = len.min(usize::try_from(room).unwrap_or(usize::MAX));
            assert_eq!(
                count, most,
                "as many bytes are accepted as there is room for"
            );
            let after = sending(s, stream).map(|report| report.written);
            assert_eq!(after, Some(written + count as u64), "what was written");
        }
        Err(_) => assert_eq!(room, 0, "a write is accepted where there is room"),
    }
    answer
}

pub fn end_sending(w: &mut World<'_>, at: usize) {
    let how = w.input.byte();
    let number = w.input.number();
    let code_given = if how & 1 != 0 { w.input.number() } else { 0 };
    let s = &mut w.sides[at];
    let answer = StreamId::new(number).ok_or(INVALID).and_then(|stream| {
        if how & 1 != 0 {
            reset(s, stream, code_given)
        } else {
            finish(s, stream)
        }
    });
    w.mix_code(&answer);
}

fn reset(s: &mut Side, stream: StreamId, with: u64) -> Answer<()> {
    let answer = s.call_again(|end| end.reset(stream, with).map_err(|fault| fault.number()));
    let was_reset = sending(s, stream).is_some_and(|report| report.reset_code.is_some());
    assert!(answer.is_err() || was_reset, "a reset");
    assert_eq!(
        code(&answer) == INVALID,
        with >= NUMBERS,
        "the code of a reset"
    );
    answer
}

fn finish(s: &mut Side, stream: StreamId) -> Answer<()> {
    let answer = s
        .call(|end| end.finish(stream))
        .map_err(|fault| fault.number());
    if answer.is_ok() {
        let after = sending(s, stream).expect("a stream that is finished");
        assert!(
            after.final_size.is_none_or(|size| size == after.written),
            "where it ends"
        );
    }
    answer
}

pub fn end_receiving(w: &mut World<'_>, at: usize) {
    let how = w.input.byte();
    let number = w.input.number();
    let with = w.input.number();
    let s = &mut w.sides[at];
    let Some(stream) = StreamId::new(number) else {
        w.mix(INVALID);
        return;
    };
    let was = receiving(s, stream);
    let answer = s.call_again(|end| {
        let stopped = if how & 1 != 0 {
            end.stop_and_discard(stream, with)
        } else {
            end.stop(stream, with)
        };
        stopped.map_err(|fault| fault.number())
    });
    w.digest.mix(code(&answer));
    if answer.is_err() {
        return;
    }
    assert!(with < NUMBERS, "the code of a stop");
    let was = was.expect("a stream that can be stopped").stop_code;
    let is = receiving(s, stream)
        .expect("a stream that is stopped")
        .stop_code;
    assert!(was.is_none() || is == was, "the first code stays");
    assert!(
        was.is_some() || is.is_none_or(|is| is == with),
        "the code of a stop"
    );
    w.digest.mix(is.unwrap_or(0));
}

/// What a look at a stream shows: its answer, the code of a reset, and how many bytes there are.
fn peek(s: &Side, stream: StreamId) -> (u64, u64, usize) {
    let (status, with) = peek_code(s, stream);
    let Ok(Peek::Bytes(front, back)) = s.end.peek(stream) else {
        return (status, with, 0);
    };
    assert!(!front.is_empty(), "a look shows a byte at least");
    let report = receiving(s, stream).expect("a stream that can be read");
    let all = front.len() + back.len();
    let behind = report.read_count + front.len() as u64;
    assert!(
        report.read_count + all as u64 <= report.highest,
        "no more is shown than came"
    );
    let (sender, id) = (1 - s.name, stream.value());
    let is_first = s.is_foreign || has_pattern(sender, id, report.read_count, front);
    assert!(is_first, "the bytes that are shown first");
    let is_second = s.is_foreign || has_pattern(sender, id, behind, back);
    assert!(is_second, "the bytes that are shown behind them");
    (status, with, all)
}

fn read_count(s: &Side, stream: StreamId) -> u64 {
    receiving(s, stream).map_or(0, |report| report.read_count)
}

fn of_read(read: Read) -> (u64, usize, u64) {
    match read {
        Read::Bytes(count) => (OK, count, 0),
        Read::End => (END_OF_STREAM, 0, 0),
        Read::Reset(with) => (RESET_BY_PEER, 0, with),
        Read::Wait => (NOTHING_YET, 0, 0),
    }
}

fn read_at(w: &mut World<'_>, at: usize, stream: StreamId, size: usize) {
    let mut into = vec![0; size.min(MOST_WRITTEN)];
    let s = &mut w.sides[at];
    let before = read_count(s, stream);
    let (seen, seen_code, all) = peek(s, stream);
    let by_handle = size % 2 != 0;
    let read = s.call(|end| {
        if by_handle {
            end.recv_stream(stream).try_read(&mut into)
        } else {
            end.read(stream, &mut into)
        }
    });
    let (status, count, with) = match read {
        Ok(read) => of_read(read),
        Err(fault) => (fault.number(), 0, 0),
    };
    w.digest.mix(status);
    w.digest.mix_len(count);
    w.digest.mix(with);
    if into.is_empty() {
        return;
    }
    let is_same = (status, with) == (seen, seen_code);
    assert!(is_same, "a look answers as a read");
    if status != OK {
        return;
    }
    let is_all = count == all.min(into.len());
    assert!(is_all, "as many bytes are read as are there");
    let is_counted = read_count(s, stream) == before + count as u64;
    assert!(is_counted, "what was read is counted");
    let is_right = s.is_foreign || has_pattern(1 - s.name, stream.value(), before, &into[..count]);
    assert!(is_right, "the bytes of a stream that are read");
}

fn mix_refused(w: &mut World<'_>) {
    w.mix(INVALID);
    w.mix(0u64);
    w.mix(0u64);
}

pub fn read_some(w: &mut World<'_>, at: usize) {
    let number = w.input.number();
    let size = w.input.size();
    match StreamId::new(number) {
        Some(stream) => read_at(w, at, stream, size),
        None => mix_refused(w),
    }
}

pub fn consume_some(w: &mut World<'_>, at: usize) {
    let number = w.input.number();
    let most = w.input.size();
    let Some(stream) = StreamId::new(number) else {
        mix_refused(w);
        return;
    };
    let s = &mut w.sides[at];
    let (seen, seen_code, all) = peek(s, stream);
    let consumed = s.call(|end| end.consume(stream, most));
    let (status, count, with, at_end) = match consumed {
        Ok(Consumed { read, at_end, .. }) => {
            let (status, count, with) = of_read(read);
            (status, count, with, status == OK && at_end)
        }
        Err(fault) => (fault.number(), 0, 0, false),
    };
    w.digest.mix(status);
    w.digest.mix_len(count);
    w.digest.mix(at_end);
    if most == 0 {
        return;
    }
    assert_eq!(
        (status, with),
        (seen, seen_code),
        "a look answers as consuming"
    );
    if status != OK {
        return;
    }
    assert_eq!(
        count,
        all.min(most),
        "as many bytes are consumed as are there"
    );
    let after = receiving(s, stream).expect("a stream that was read");
    assert_eq!(at_end, after.state == RecvState::DataRead, "the end");
}

/// Reads all that can be read.
pub fn read_all(w: &mut World<'_>, at: usize) {
    let mut from = StreamId::new(0);
    while let Some(stream) = from.and_then(|from| w.sides[at].end.next_readable(from)) {
        read_at(w, at, stream, MOST_WRITTEN);
        read_at(w, at, stream, 1); // its end, or a reset
        from = StreamId::new(stream.value() + 1);
    }
}

pub fn set_one(w: &mut World<'_>, at: usize) {
    let which = w.input.byte() % 5;
    let number = if which > 2 { w.input.number() } else { 0 };
    let value = w.input.number();
    let most = [1 << 40, 1 << 17, 1 << 17, 1 << 30, 1 << 30][which as usize];
    let s = &mut w.sides[at];
    let answer = StreamId::new(number).ok_or(INVALID).and_then(|stream| {
        let set = s.call(|end| match which {
            0 => end.set_conn_window(value),
            1 => end.set_grant(Dir::Bidi, value),
            2 => end.set_grant(Dir::Uni, value),
            3 => end.set_stream_window(stream, value),
            _ => end.set_send_buffer(stream, value as usize),
        });
        set.map_err(|fault| fault.number())
    });
    let is_fit = value <= most && (value > 0 || which == 1 || which == 2);
    assert!(answer.is_err() || is_fit, "a setting out of its range");
    assert!(
        !is_fit || answer != Err(OUT_OF_RANGE),
        "a setting in its range"
    );
    if answer.is_ok() && which == 0 {
        s.widest = s.widest.max(value);
    }
    if answer.is_ok() && which == 4 {
        s.widest_buffer = s.widest_buffer.max(value);
    }
    w.mix_code(&answer);
}

// (in this order the numbers are read)
#[allow(clippy::field_reassign_with_default)]
pub fn take_limits(input: &mut Input<'_>) -> PeerLimits {
    let mut limits = PeerLimits::default();
    limits.max_data = input.number();
    limits.bidi_local = input.number();
    limits.bidi_remote = input.number();
    limits.uni = input.number();
    limits.streams_bidi = input.number();
    limits.streams_uni = input.number();
    limits
}

pub fn raise_limits(w: &mut World<'_>, at: usize) {
    let limits = take_limits(&mut w.input);
    let s = &mut w.sides[at];
    let answer = s
        .call(|end| end.raise_limits(limits))
        .map_err(|fault| fault.number());
    let known = [OK, OUT_OF_RANGE, TOO_MANY_STREAMS, CLOSED];
    assert!(known.contains(&code(&answer)), "limits are raised");
    w.was_hostile();
    w.mix_code(&answer);
}

pub fn note_closed(w: &mut World<'_>, at: usize) {
    let how = w.input.byte();
    let code = w.input.number();
    let kind = if how & 2 == 0 {
        CloseKind::Transport
    } else {
        CloseKind::Application
    };
    let close = NotedClose::new(closer(how), kind, code);
    let s = &mut w.sides[at];
    let was_open = !s.is_closed();
    s.call(|end| end.note_closed(close));
    let noted = s.end.noted_close();
    assert!(
        !was_open || noted == Some(close),
        "the close that was noted"
    );
    w.mix(OK);
    w.mix(if noted.is_some() { OK } else { NONE });
}
