//! Packets are made, filled, delivered, lost and acknowledged, and hostile ones are received.

use crate::codes::{
    Answer, CLOSED, CLOSED_BY_PEER, Code, DUPLICATE, EXHAUSTED, INVALID, NO_MEMORY, NO_SUCH_STREAM,
    NONE, NOT_GIVEN, NOT_OUTSTANDING, OK, PROTOCOL_ERROR, TOO_OLD, WRONG_DIRECTION, code,
};
use crate::frames::{check_frames, check_made, compose};
use crate::looks::look;
use crate::streams::read_all;
use crate::world::{
    MOST_PAYLOAD, MOST_ROOM, NUMBERS, PACKETS, Packet, STREAMS, Side, World, pattern,
};
use gotsavena::{
    AckRanges, Dir, Fill, Filled, Frame, MIN_FILL, Made, ReceiveFault, Received, SendState,
    StreamId, Taken, Token, frames, last_stream, put,
};

const MOST_TOLD: usize = 4096;
const TOGETHER: usize = 24;

fn keep(w: &mut World<'_>, at: usize, bytes: &[u8], token: Token) {
    let packet = Packet {
        bytes: bytes.to_vec(),
        from: at,
        came: false,
        token,
    };
    w.packets[w.place] = Some(packet);
    w.place = (w.place + 1) % PACKETS;
}

fn packet_of(w: &World<'_>, at: usize, which: u64) -> Option<usize> {
    (0..PACKETS)
        .map(|step| (which as usize + step) % PACKETS)
        .find(|&place| {
            w.packets[place]
                .as_ref()
                .is_some_and(|packet| packet.from == at)
        })
}

/// What was made under the next number.
fn check_packet(s: &Side, made: &Made, out: &[u8], expected: u64) {
    assert!(made.len > 0 && made.len <= out.len(), "a packet's length");
    assert_eq!(made.number, expected, "a packet's number");
    assert_eq!(s.end.next_number(), expected + 1, "the next number");
    let outstanding = s.end.next_outstanding(expected);
    let wanted = made.is_ack_eliciting.then_some(expected);
    assert_eq!(outstanding, wanted, "an outstanding packet");
    check_made(s, &out[..made.len], made.is_ack_eliciting);
}

fn make_by(w: &mut World<'_>, at: usize, way: u64, out: &mut [u8]) -> Answer<Made> {
    let first = if way == 1 { w.input.number() } else { 0 };
    let delay = if way != 0 { w.input.number() } else { 0 };
    let room = out.len();
    let is_fit = (128..=MOST_ROOM).contains(&room) && first < NUMBERS && delay < NUMBERS;
    let out = std::cell::RefCell::new(out);
    let answer = w.sides[at].call_again(|end| {
        let out = &mut **out.borrow_mut();
        let made = match (way, StreamId::new(first)) {
            (0, _) => end.make_packet(out),
            (1, Some(first)) => end.make_packet_from(first, delay, out),
            (1, None) => return Err(INVALID),
            _ => end.make_ack(delay, out),
        };
        made.map_err(|fault| fault.number())?.ok_or(NONE)
    });
    assert_eq!(code(&answer) == INVALID, !is_fit, "what a packet needs");
    answer
}

pub fn make(w: &mut World<'_>, at: usize) {
    let way = w.input.byte() % 3;
    let mut out = vec![0; w.input.size()];
    let end = &w.sides[at].end;
    let (expected, is_sendable, is_due) = (end.next_number(), end.is_sendable(), end.ack_is_due());
    let answer = make_by(w, at, way, &mut out);
    let status = code(&answer);
    assert!(
        [OK, NONE, INVALID, CLOSED, EXHAUSTED].contains(&status),
        "a packet"
    );
    assert!(
        way != 2 || status != NONE || !is_due,
        "an ACK goes that is due"
    );
    assert!(
        way == 2 || status != NONE || (!is_sendable && !is_due),
        "nothing may go"
    );
    w.mix(status);
    let Ok(made) = answer else {
        return;
    };
    let carries = way == 2 || made.is_ack_eliciting == is_sendable;
    assert!(carries, "a packet carries what may be sent");
    let s = &w.sides[at];
    check_packet(s, &made, &out, expected);
    let token = s.end.token_of(made.number);
    assert_eq!(
        (token.first, token.number),
        (made.number, made.number),
        "its token"
    );
    w.mix(made.number);
    w.mix_len(made.len);
    for byte in out[..made.len].iter().step_by(16) {
        w.mix(*byte);
    }
    keep(w, at, &out[..made.len], token);
}

/// What is asked for, and whether that is a stream alone and how many bytes it is capped to.
struct Wish {
    items: bool,
    streams: bool,
    alone: bool,
    first: u64,
    most: Option<usize>,
}

impl Wish {
    fn take(w: &mut World<'_>) -> Wish {
        let wishes = w.input.byte();
        let first = w.input.number();
        Wish {
            items: wishes & 1 != 0,
            streams: wishes & 2 != 0,
            alone: wishes & 4 != 0,
            first,
            most: (wishes & 8 != 0).then(|| w.input.size()),
        }
    }

    fn request(&self) -> Answer<Fill> {
        let first = StreamId::new(self.first).ok_or(INVALID)?;
        let kinds = match (self.items, self.streams) {
            (true, true) => Fill::all(),
            (true, false) => Fill::control(),
            _ => Fill::data(),
        };
        let fill = if self.alone {
            kinds.only(first)
        } else {
            kinds.from(first)
        };
        Ok(self.most.map_or(fill, |most| fill.at_most(most)))
    }

    fn is_for_all(&self) -> bool {
        self.items && self.streams && !self.alone && self.most.is_none()
    }

    fn check(&self, filled: &Filled, out: &[u8]) {
        let mut bytes_in_all = 0;
        for read in frames(out) {
            match read.expect("a payload has whole frames").frame {
                Frame::Stream { stream, bytes, .. } => {
                    assert!(self.streams, "a frame that was asked for");
                    let is_wanted = !self.alone || stream.value() == self.first;
                    assert!(is_wanted, "a stream that was asked for");
                    bytes_in_all += bytes.len();
                }
                Frame::Ack { .. } => panic!("an ACK is the stack's"),
                _ => assert!(self.items, "a frame that was asked for"),
            }
        }
        assert!(self.most.is_none_or(|most| bytes_in_all <= most), "a cap");
        assert_eq!(last_stream(out), filled.last_stream, "the last stream");
    }
}

pub fn fill(w: &mut World<'_>, at: usize) {
    let wish = Wish::take(w);
    let mut out = vec![0; w.input.size()];
    let end = &w.sides[at].end;
    let (expected, is_sendable) = (end.next_number(), end.is_sendable());
    if !wish.items && !wish.streams {
        return;
    }
    let request = wish.request();
    let room = std::cell::RefCell::new(&mut out);
    let answer = w.sides[at].call_again(|end| {
        let filled = end.fill(&mut room.borrow_mut(), &request?);
        filled.map_err(|fault| fault.number())?.ok_or(NONE)
    });
    let goes = code(&answer) != NONE || !wish.is_for_all() || out.len() < MIN_FILL || !is_sendable;
    assert!(goes, "something goes in where there is room");
    w.mix_code(&answer);
    let Ok(filled) = answer else {
        return;
    };
    assert!(
        filled.len > 0 && filled.len <= out.len(),
        "what was filled in"
    );
    let Token { first, number, .. } = filled.token;
    assert_eq!((first, number), (expected, expected), "its token");
    let out = &out[..filled.len];
    check_made(&w.sides[at], out, true);
    wish.check(&filled, out);
    w.mix_len(filled.len);
    w.mix(filled.more);
    keep(w, at, out, filled.token);
}

/// Which outstanding packets the ACKs of a payload name, in the order in which they have to be reported.
fn expect_told(s: &Side, payload: &[u8]) -> Vec<u64> {
    let mut all: Vec<u64> = Vec::new();
    for placed in frames(payload).map_while(Result::ok) {
        let Frame::Ack {
            largest, ranges, ..
        } = placed.frame
        else {
            continue;
        };
        for (smallest, largest) in AckRanges::new(largest, ranges).expect("an ACK") {
            let mut block = Vec::new();
            let mut from = smallest;
            while let Some(number) = s.end.next_outstanding(from) {
                if number > largest || all.len() + block.len() == MOST_TOLD {
                    break;
                }
                if !all.contains(&number) {
                    block.push(number);
                }
                from = number + 1;
            }
            all.extend(block.iter().rev());
        }
    }
    all
}

fn answer_of(got: Result<Received, ReceiveFault>) -> Answer<()> {
    match got {
        Ok(Received::Done) => Ok(()),
        Ok(Received::Duplicate) => Err(DUPLICATE),
        Ok(Received::BelowFloor) => Err(TOO_OLD),
        Ok(Received::PeerClosed(_)) => Err(CLOSED_BY_PEER),
        Ok(Received::NoMemory) => Err(NO_MEMORY),
        Err(ReceiveFault::Closing(_)) => Err(PROTOCOL_ERROR),
        Err(_) => Err(INVALID),
        #[allow(unreachable_patterns)]
        Ok(_) => panic!("an unknown answer"),
    }
}

fn receive_telling(w: &mut World<'_>, at: usize, number: u64, payload: &[u8]) -> Answer<()> {
    let s = &mut w.sides[at];
    let expected = expect_told(s, payload);
    let mut told = Vec::with_capacity(MOST_TOLD);
    let answer = s.insist(|end| {
        answer_of(end.receive_with_acks(number, payload, |number| told.push(number)))
    });
    let are_all = answer.is_err() || told.len() == expected.len();
    assert!(are_all, "how many packets were newly acknowledged");
    assert!(
        expected.starts_with(&told),
        "which packets were newly acknowledged"
    );
    for &number in &told {
        let left = s.end.next_outstanding(number);
        assert_ne!(
            left,
            Some(number),
            "an acknowledged packet isn't outstanding"
        );
        w.digest.mix(number);
    }
    answer
}

/// Whether the payload was processed, now or before.
fn receive(w: &mut World<'_>, at: usize, number: u64, payload: &[u8], tells: bool) -> bool {
    let was_open = !w.sides[at].is_closed();
    let answer = if tells {
        receive_telling(w, at, number, payload)
    } else {
        w.sides[at].insist(|end| answer_of(end.receive(number, payload)))
    };
    let status = code(&answer);
    let s = &mut w.sides[at];
    assert_eq!(status == INVALID, number >= NUMBERS, "a payload is refused");
    assert!(status != OK || was_open, "a closed endpoint takes nothing");
    let has_broken = s.end.closing().is_some();
    let is_closing = !was_open || (status == PROTOCOL_ERROR) == has_broken;
    assert!(is_closing, "an endpoint that refuses a payload is closed");
    let is_honest = !w.is_honest || status != PROTOCOL_ERROR || !was_open;
    assert!(is_honest, "an honest peer breaks no rule");
    w.digest.mix(status);
    if status != OK {
        return status == DUPLICATE;
    }
    let again = code(&answer_of(s.end.receive(number, &[1])));
    assert!(
        again == DUPLICATE || again == TOO_OLD,
        "a number counts once"
    );
    true
}

fn taken_code(taken: Taken) -> u64 {
    match taken {
        Taken::Took => 0,
        Taken::Unchanged => 1,
        Taken::NotOurs => 2,
        #[allow(unreachable_patterns)]
        _ => panic!("an unknown answer"),
    }
}

/// Passes frames in one by one, or together.
fn take_all(w: &mut World<'_>, at: usize, payload: &[u8], together: bool) -> bool {
    let all: Vec<_> = frames(payload)
        .map_while(Result::ok)
        .map(|placed| placed.frame)
        .collect();
    for some in all.chunks(if together { TOGETHER } else { 1 }) {
        let s = &mut w.sides[at];
        let was_open = !s.is_closed();
        let answer = if together {
            s.insist(|end| end.take_frames(some).map_err(|fault| fault.number()))
        } else {
            s.call_again(|end| end.take_frame(&some[0]).map_err(|fault| fault.number()))
        };
        let status = code(&answer);
        let is_ack = !together && matches!(some[0], Frame::Ack { .. });
        let is_stacks = !is_ack || answer.is_err() || answer == Ok(Taken::NotOurs);
        assert!(is_stacks, "an ACK is the stack's");
        assert!(
            [OK, PROTOCOL_ERROR, CLOSED_BY_PEER].contains(&status),
            "frames are passed in"
        );
        let is_right = if status == OK {
            was_open
        } else {
            s.is_closed()
        };
        assert!(is_right, "an endpoint that refuses a frame is closed");
        assert!(
            !w.is_honest || status == OK || !was_open,
            "an honest peer breaks no rule"
        );
        w.digest.mix(status);
        let Ok(taken) = answer else {
            return false;
        };
        w.digest.mix(taken_code(taken));
    }
    true
}

pub fn deliver(w: &mut World<'_>, at: usize) {
    let how = w.input.byte();
    let Some(place) = packet_of(w, at, how >> 2) else {
        return;
    };
    let Some(mut packet) = w.packets[place].take() else {
        return;
    };
    let came = if how & 2 != 0 {
        take_all(w, 1 - at, &packet.bytes, how & 1 != 0)
    } else {
        receive(w, 1 - at, packet.token.number, &packet.bytes, how & 1 != 0)
    };
    packet.came |= came;
    w.packets[place] = Some(packet);
    look(w, 1 - at);
}

fn report(s: &mut Side, token: Token, is_lost: bool) -> Answer<()> {
    s.insist(|end| {
        let reported = if is_lost {
            end.lost(token)
        } else {
            end.acked(token)
        };
        reported.map_err(|fault| fault.number())
    })
}

fn declare_lost(s: &mut Side, number: u64) -> Answer<()> {
    s.insist(|end| end.declare_lost(number).map_err(|fault| fault.number()))
}

/// A packet is declared lost. It may still come, if it is kept.
pub fn lose(w: &mut World<'_>, at: usize) {
    let how = w.input.byte();
    let Some(place) = packet_of(w, at, how >> 2) else {
        return;
    };
    let Some(token) = w.packets[place].as_ref().map(|packet| packet.token) else {
        return;
    };
    let by_token = how & 1 != 0;
    let s = &mut w.sides[at];
    let answer = if by_token {
        report(s, token, true)
    } else {
        declare_lost(s, token.number)
    };
    let status = code(&answer);
    let is_told = status == NOT_OUTSTANDING && !by_token;
    assert!(
        status == OK || status == CLOSED || is_told,
        "a packet is lost"
    );
    w.mix(status);
    if how & 2 == 0 {
        w.packets[place] = None;
    }
}

pub fn acknowledge(w: &mut World<'_>, at: usize) {
    let which = w.input.byte();
    let Some(place) = packet_of(w, at, which) else {
        return;
    };
    let Some((token, came)) = w.packets[place]
        .as_ref()
        .map(|packet| (packet.token, packet.came))
    else {
        return;
    };
    let answer = report(&mut w.sides[at], token, false);
    let status = code(&answer);
    assert!(status == OK || status == CLOSED, "a packet is acknowledged");
    let left = w.sides[at].end.next_outstanding(token.number);
    let is_done = status != OK || left != Some(token.number);
    assert!(is_done, "an acknowledged packet isn't outstanding");
    w.mix(status);
    if !came {
        w.is_whole = false;
    }
}

pub fn receive_raw(w: &mut World<'_>, at: usize) {
    let number = w.input.number();
    let how = w.input.byte();
    let bytes = w.input.bytes(4 * (how >> 1) as usize);
    check_frames(bytes);
    w.was_hostile();
    w.sides[at].is_foreign = true;
    receive(w, at, number, bytes, how & 1 != 0);
}

pub fn receive_composed(w: &mut World<'_>, at: usize) {
    let number = w.input.number();
    let how = w.input.byte();
    let payload = compose(w, 1 - at);
    w.was_hostile();
    check_frames(&payload);
    receive(w, at, number, &payload, how & 1 != 0);
}

pub fn take_composed(w: &mut World<'_>, at: usize) {
    let how = w.input.byte();
    let payload = compose(w, 1 - at);
    w.was_hostile();
    take_all(w, at, &payload, how & 1 != 0);
}

/// Many pieces of a stream in one payload, each so far behind the one before.
pub fn receive_pieces(w: &mut World<'_>, at: usize) {
    let number = w.input.number();
    let stream = w.input.number();
    let mut offset = w.input.number();
    let step = w.input.byte();
    let count = w.input.byte();
    let len = w.input.byte() % 32;
    let mut out = vec![0; MOST_PAYLOAD];
    let mut end = 0;
    for _ in 0..count {
        let bytes: Vec<u8> = (0..len)
            .map(|place| pattern(1 - at, stream, offset.wrapping_add(place)))
            .collect();
        let Some(stream) = StreamId::new(stream) else {
            break;
        };
        let frame = Frame::Stream {
            stream,
            offset,
            fin: false,
            bytes: &bytes,
        };
        let Ok(size) = put(&frame, &mut out[end..]) else {
            break;
        };
        end += size;
        offset = offset.wrapping_add(step);
    }
    w.was_hostile();
    receive(w, at, number, &out[..end], false);
}

/// A PING under each of many numbers, that rise or fall.
pub fn receive_numbers(w: &mut World<'_>, at: usize) {
    let mut number = w.input.number();
    let how = w.input.byte();
    let count = w.input.byte();
    let step = if how & 0x80 != 0 {
        (how & 0x7f).wrapping_neg()
    } else {
        how
    };
    w.was_hostile();
    let s = &mut w.sides[at];
    let mut taken = 0_u64;
    for _ in 0..count {
        if s.insist(|end| answer_of(end.receive(number, &[1]))).is_ok() {
            let again = code(&answer_of(s.end.receive(number, &[1])));
            assert!(
                again == DUPLICATE || again == TOO_OLD,
                "a number counts once"
            );
            taken += 1;
        }
        number = number.wrapping_add(step);
    }
    w.mix(taken);
}

/// Receives a frame whose verdict is known: none, or a close with a code.
fn receive_judged(w: &mut World<'_>, at: usize, number: u64, frame: &Frame<'_>, wanted: u64) {
    let mut out = [0; 64];
    let len = put(frame, &mut out).expect("a frame at a limit");
    w.was_hostile();
    let s = &mut w.sides[at];
    let was_open = !s.is_closed();
    let answer = s.insist(|end| answer_of(end.receive(number, &out[..len])));
    let status = code(&answer);
    w.digest.mix(status);
    if !was_open || [INVALID, DUPLICATE, TOO_OLD].contains(&status) {
        return;
    }
    let closing = s.end.closing().map_or(0, |closing| closing.code);
    let is_right = closing == wanted && (status == PROTOCOL_ERROR) == (wanted != 0);
    assert!(is_right, "what comes at a limit, and one beyond it");
}

/// The last byte that a stream's limit and the connection's permit, or the one behind it, by a STREAM frame or a RESET_STREAM.
pub fn receive_at_limit(w: &mut World<'_>, at: usize) {
    const FLOW_CONTROL_ERROR: u64 = 3;
    let number = w.input.number();
    let stream = StreamId::new(w.input.number());
    let how = w.input.byte();
    let end = &w.sides[at].end;
    let half = stream.and_then(|stream| Some((stream, end.report(stream)?.recv?)));
    let Some((stream, half)) = half.filter(|(_, half)| half.final_size.is_none()) else {
        return;
    };
    let most = half.highest + (end.granted() - end.spent());
    let final_size = half.limit.min(most) + (how & 1);
    if final_size == 0 || final_size >= NUMBERS {
        return;
    }
    let offset = final_size - 1;
    let bytes = [pattern(1 - at, stream.value(), offset)];
    let frame = if how & 2 == 0 {
        Frame::Stream {
            stream,
            offset,
            fin: false,
            bytes: &bytes,
        }
    } else {
        Frame::ResetStream {
            stream,
            code: 0,
            final_size,
        }
    };
    let wanted = if how & 1 == 0 { 0 } else { FLOW_CONTROL_ERROR };
    receive_judged(w, at, number, &frame, wanted);
}

/// The last stream that the count permits, or the one behind it.
pub fn receive_at_count(w: &mut World<'_>, at: usize) {
    const STREAM_LIMIT_ERROR: u64 = 4;
    let number = w.input.number();
    let how = w.input.byte();
    let s = &w.sides[at];
    let dir = if how & 2 == 0 { Dir::Bidi } else { Dir::Uni };
    let count = s.end.granted_streams(dir) + (how & 1);
    let stream = count
        .checked_sub(1)
        .and_then(|index| StreamId::from_parts(s.role.peer(), dir, index));
    let Some(stream) = stream.filter(|&stream| s.end.report(stream).is_none()) else {
        return;
    };
    let frame = Frame::Stream {
        stream,
        offset: 0,
        fin: false,
        bytes: &[],
    };
    let wanted = if how & 1 == 0 { 0 } else { STREAM_LIMIT_ERROR };
    receive_judged(w, at, number, &frame, wanted);
}

/// Many packets with a byte of a stream each, of which none comes. Seldom very many, since that takes long.
pub fn make_many(w: &mut World<'_>, at: usize) {
    let number = w.input.number();
    let count = match w.input.byte() {
        0xff => 4200, // so many that what is kept of old packets is dropped
        few => few,
    };
    let s = &mut w.sides[at];
    let mut done = 0;
    let mut status = match StreamId::new(number).ok_or(INVALID) {
        Ok(stream) => half_code(s, stream),
        Err(status) => status,
    };
    while status == OK && done < count {
        status = code(&make_with_a_byte(s, number));
        done += u64::from(status == OK);
    }
    w.mix(status);
    w.mix(done);
}

/// How C answers to a question on a sending half.
fn half_code(s: &Side, stream: StreamId) -> u64 {
    match s.end.report(stream) {
        None => NO_SUCH_STREAM,
        Some(report) if report.send.is_none() => WRONG_DIRECTION,
        Some(_) => OK,
    }
}

fn make_with_a_byte(s: &mut Side, number: u64) -> Answer<Made> {
    let stream = StreamId::new(number).ok_or(INVALID)?;
    let sending = s.end.report(stream).and_then(|report| report.send);
    let written = sending.map_or(0, |report| report.written);
    let byte = pattern(s.name, number, written);
    let _ = s.insist(|end| end.write(stream, &[byte]).map_err(|fault| fault.number()));
    make_one(s, &mut [0; 128])
}

/// Numbers are claimed, and any packet is declared lost.
pub fn use_number(w: &mut World<'_>, at: usize) {
    let number = w.input.number();
    let s = &mut w.sides[at];
    let (status, next) = if number < 0x40 {
        let next = s.end.next_number();
        let claimed = s
            .call(|end| end.claim_number())
            .map_err(|fault| fault.number());
        let is_right = claimed == Ok(next) || claimed == Err(EXHAUSTED);
        assert!(is_right, "a number");
        (code(&claimed), next)
    } else {
        let found = s.end.next_outstanding(number - 0x40);
        let next = found.unwrap_or(number);
        let status = code(&declare_lost(s, next));
        let is_lost = found.is_none() || status == OK || status == CLOSED;
        assert!(is_lost, "an outstanding packet is lost");
        (status, next)
    };
    w.mix(status);
    w.mix(next);
}

/// Tokens are joined, and any are reported.
pub fn join(w: &mut World<'_>, at: usize) {
    let how = w.input.byte();
    let number = w.input.number();
    let s = &mut w.sides[at];
    let next = s.end.next_number();
    let token = s.end.token_of(number);
    assert_eq!(
        (token.first, token.number),
        (number, number),
        "a token of a number"
    );
    let before = s.joined;
    let follows =
        before.epoch == token.epoch && token.first > 0 && before.number == token.first - 1;
    let both = before.and(token);
    let first = before.first;
    let wanted = Token { first, ..token };
    assert_eq!(both, follows.then_some(wanted), "tokens that join");
    s.joined = both.unwrap_or(token);
    w.digest.mix(if follows { OK } else { NONE });
    if how & 3 == 0 {
        return;
    }
    if how & 1 != 0 {
        w.is_whole = false;
    }
    if how & 4 != 0 {
        s.joined.epoch = s.joined.epoch.wrapping_add(1);
    }
    let joined = s.joined;
    let status = code(&report(s, joined, how & 1 == 0));
    let was_given = joined.number < next && how & 4 == 0;
    let wanted = if was_given { OK } else { NOT_GIVEN };
    assert!(
        status == CLOSED || status == wanted,
        "a token that was given"
    );
    w.mix(status);
}

fn make_one(s: &mut Side, out: &mut [u8]) -> Answer<Made> {
    s.insist(|end| {
        let made = end.make_packet(out).map_err(|fault| fault.number())?;
        made.ok_or(NONE)
    })
}

/// Each side makes so many packets, and the other one gets them.
fn exchange(w: &mut World<'_>, room: usize, tells: bool, most: u64) -> bool {
    let mut any = false;
    let mut out = vec![0; room];
    for at in [0, 1] {
        for _ in 0..most {
            let answer = make_one(&mut w.sides[at], &mut out);
            w.mix_code(&answer);
            let Ok(made) = answer else {
                break;
            };
            any = true;
            w.mix_len(made.len);
            receive(w, 1 - at, made.number, &out[..made.len], tells);
        }
    }
    any
}

pub fn carry(w: &mut World<'_>, at: usize) {
    let how = w.input.byte();
    let room = 128 + 508 * (how >> 3) as usize; // at most 15,876
    for most in 1..=1 + (how & 3) {
        exchange(w, room, how & 4 != 0, most);
    }
    look(w, at);
    look(w, 1 - at);
}

/// Whatever was lost comes after all.
fn declare_all_lost(s: &mut Side) {
    let mut from = 0;
    while let Some(number) = s.end.next_outstanding(from) {
        if declare_lost(s, number) == Err(CLOSED) {
            return;
        }
        from = number + 1;
    }
}

fn check_arrived(from: &Side, to: &Side, stream: StreamId) {
    let Some(sent) = from.end.report(stream).and_then(|report| report.send) else {
        return;
    };
    if sent.reset_code.is_some() {
        return;
    }
    let Some(report) = to.end.report(stream) else {
        let is_empty = sent.written == 0 && sent.final_size.is_none();
        assert!(
            is_empty,
            "a stream of which something was written is open at the peer"
        );
        return;
    };
    let got = report
        .recv
        .expect("what one side sends the other one receives");
    assert_eq!(got.highest, sent.written, "all that was written came");
    assert_eq!(got.final_size, sent.final_size, "and its end");
    let is_acked = sent.final_size.is_none() || sent.state == SendState::DataRecvd;
    assert!(is_acked, "all was acknowledged");
    let was_read = got.stop_code.is_some() || got.read_count == sent.written;
    assert!(was_read, "all that was written was read");
}

/// Two honest endpoints talk on until nothing is left: then all that was written was read.
pub fn settle(w: &mut World<'_>) {
    const ROUNDS: usize = 64;
    if !w.is_honest || !w.is_whole {
        return;
    }
    w.sides.iter_mut().for_each(declare_all_lost);
    let mut any = true;
    for _ in 0..ROUNDS {
        read_all(w, 0);
        read_all(w, 1);
        any = exchange(w, MOST_ROOM, true, 2);
        if !any {
            break;
        }
    }
    if any || w.sides.iter().any(Side::is_closed) {
        return;
    }
    for stream in (0..STREAMS as u64).filter_map(StreamId::new) {
        check_arrived(&w.sides[0], &w.sides[1], stream);
        check_arrived(&w.sides[1], &w.sides[0], stream);
    }
}
