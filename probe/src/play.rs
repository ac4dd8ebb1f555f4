//! Plays a case over a link, with the mirror beside it, and judges what came of it.

use crate::cases::{CODE, Case, Context, MOST_TO_FILL, Need, Owed, Payload, Step, Whose};
use crate::link::{Link, MOST_STREAMS, has};
use crate::mirror::{CONN_WINDOW, Mirror, STREAM_WINDOW};
use crate::outcome::{Class, Outcome};
use crate::seen::{Out, Seen};
use crate::verdicts::Permit;
use crate::wire::hex;
use gotsavena::{Dir, Frame, StreamId};
use serde::Serialize;
use std::collections::BTreeMap;
use std::time::{Duration, Instant};

/// How long an endpoint may be silent, and how long what it has to send may take.
const PATIENCE: Duration = Duration::from_millis(1500);
/// A PING may be lost: so often another goes.
const PING: Duration = Duration::from_millis(200);
/// How long an application may take to give up what its peer reset.
const MOMENT: Duration = Duration::from_millis(150);
/// So often an endpoint may send something more before it rests.
const MOST_RESTS: u32 = 20;
/// At most so much is sent to use a limit up, in payloads of the second size.
const SMALL_LIMIT: u64 = 1 << 15;
const PIECE: u64 = 1000;
/// What an application does by then is known before the next payload goes.
const GRACE: Duration = Duration::from_millis(8);

#[derive(Clone, Debug, Serialize)]
pub struct Played {
    pub hex: String,
    pub permitted: String,
    pub seen: String,
}

pub struct Player {
    link: Link,
    mirror: Mirror,
    seen: Seen,
    role: gotsavena::Role,
    active_ids: u64,
    is_http: bool,
    totals: BTreeMap<u64, u64>,
    filled: BTreeMap<u64, u64>,
    is_quiet: bool,
    log: Vec<(u64, Vec<u8>)>,
    pub played: Vec<Played>,
}

impl Player {
    pub fn new(link: Link, is_http: bool) -> Player {
        let [other, own] = link.places();
        let mut player = Player {
            link,
            mirror: Mirror::new(other, false),
            seen: Seen::new(other, own),
            role: other.role,
            active_ids: other.active_ids,
            is_http,
            totals: BTreeMap::new(),
            filled: BTreeMap::new(),
            is_quiet: false,
            log: Vec::new(),
            played: Vec::new(),
        };
        // (what came with the handshake)
        player.hear();
        player
    }

    /// Plays the case up to the first payload that isn't merely taken.
    pub fn play(&mut self, case: &Case) -> Outcome {
        if let Some(reason) = self.lacks(case) {
            return Outcome::new(Class::NotApplicable, reason);
        }
        let mut outcome = Outcome::new(Class::AsExpected, "goes on");
        for step in &case.steps {
            if let Some(ends) = self.step(step) {
                outcome = ends;
                break;
            }
        }
        self.gather(GRACE);
        match self.seen.faults().first() {
            Some(fault) => Outcome::new(Class::Must, format!("sends what it may not: {fault}")),
            None => outcome,
        }
    }

    fn step(&mut self, step: &Step) -> Option<Outcome> {
        match step {
            Step::Send(make) => {
                let payload = self.made(make);
                self.send(&payload)
            }
            Step::Twice(make) => self.twice(make),
            Step::Both(first, second) => self.both(first, second),
            Step::Over(stream, len) => {
                let stream = stream(&self.context());
                self.over(stream, *len)
            }
            Step::MayEnd(stream) => {
                let stream = stream(&self.context());
                self.may_end(stream)
            }
            Step::FillStream(dir) => self.fill(self.context().id(Whose::Peers, *dir, 0)),
            Step::Owes(owed) => self.owes(*owed),
            Step::Quiet(is_quiet) => {
                self.is_quiet = *is_quiet;
                None
            }
            Step::Lose => {
                self.lose();
                None
            }
            Step::Pause(millis) => {
                self.gather(Duration::from_millis(*millis));
                None
            }
        }
    }

    fn context(&self) -> Context<'_> {
        Context {
            seen: &self.seen,
            role: self.role,
            largest: self.link.largest(),
            active_ids: self.active_ids,
            is_http: self.is_http,
            totals: &self.totals,
        }
    }

    fn made(&self, make: &Payload) -> Vec<u8> {
        make(&self.context())
    }

    // What the endpoint would have to be.
    fn lacks(&mut self, case: &Case) -> Option<String> {
        let wanted = |seen: &Seen, need: &Need| match need {
            Need::Own(dir) => own_stream(seen, *dir).is_some(),
            _ => true,
        };
        let until = Instant::now() + PATIENCE;
        while Instant::now() < until && !case.needs.iter().all(|need| wanted(&self.seen, need)) {
            self.hear();
        }
        case.needs.iter().find_map(|need| self.lack(*need))
    }

    fn lack(&self, need: Need) -> Option<String> {
        let context = self.context();
        let (is_there, what) = match need {
            Need::AnyBytes => (!self.is_http, "HTTP/3 reads these bytes"),
            Need::Own(dir) => (
                own_stream(&self.seen, dir).is_some(),
                "it opened no such stream",
            ),
            Need::Limit(whose, dir) => {
                let limit = context.limit(context.id(whose, dir, 0));
                let most = self.seen.max_data.min(STREAM_WINDOW);
                (limit > 1000 && limit < most, "its limits lie elsewhere")
            }
            Need::SmallLimit(whose, dir) => {
                let limit = context.limit(context.id(whose, dir, 0));
                (limit <= SMALL_LIMIT, "its limits lie elsewhere")
            }
            Need::Credit => {
                let stream = context.id(Whose::Peers, Dir::Uni, 0);
                let most = context.limit(stream).saturating_mul(MOST_TO_FILL);
                let is_met = self.seen.max_data <= most.min(CONN_WINDOW - 1);
                let counts = self.seen.count(Dir::Uni) > MOST_TO_FILL + 1;
                (is_met && counts, "its credit isn't used up by few streams")
            }
            Need::Server => (self.role == gotsavena::Role::Server, "it is a client"),
            Need::FewStreams => (
                self.seen
                    .max_streams
                    .iter()
                    .all(|count| *count < MOST_STREAMS),
                "it permits too many streams",
            ),
            Need::Streams(least) => (
                self.seen.max_streams.iter().all(|count| *count >= least),
                "it permits too few streams",
            ),
        };
        (!is_there).then(|| what.to_owned())
    }

    // Takes in what came within a tick.
    fn hear(&mut self) {
        for (number, payload) in self.link.hear() {
            self.seen.came(number, &payload, self.link.next_number());
            self.mirror.follow(number, &payload);
            self.log.push((number, payload));
        }
    }

    fn gather(&mut self, time: Duration) {
        let until = Instant::now() + time;
        let mut next = Instant::now() + PING;
        while Instant::now() < until && self.seen.close.is_none() {
            self.hear();
            if Instant::now() >= next && !self.is_quiet {
                self.link.acknowledge();
                next += PING;
            }
        }
    }

    fn transmit(&mut self, payload: &[u8]) -> (u64, Permit) {
        let number = self.link.next_number();
        let permit = self.mirror.take(number, payload);
        self.seen.went(number, payload);
        self.link.send(payload);
        (number, permit)
    }

    fn ping(&mut self) -> u64 {
        match self.is_quiet {
            true => self.link.send(&[0x01]),
            false => self.link.ping(),
        }
    }

    // Until the endpoint has taken in all that went, or closed. Two packets that ask for an ACK get one at once (RFC 9000, section 13.2.2).
    fn settle(&mut self) -> Out {
        let mut pings = vec![self.ping(), self.ping()];
        let begin = Instant::now();
        let mut last = begin;
        while self.seen.close.is_none() && !pings.iter().any(|ping| self.seen.is_acked(*ping)) {
            let now = Instant::now();
            if now - begin > PATIENCE {
                return Out::Silent;
            }
            if now - last > PING {
                last = now;
                pings.push(self.ping());
            }
            self.hear();
        }
        self.gather(GRACE);
        self.seen.close.clone().unwrap_or(Out::GoesOn)
    }

    fn send(&mut self, payload: &[u8]) -> Option<Outcome> {
        let (number, permit) = self.transmit(payload);
        let mut out = self.settle();
        if out == Out::GoesOn && !self.seen.is_acked(number) && !payload.is_empty() {
            // It was lost on the way, as a datagram may be.
            self.link.send_as(number, payload);
            out = self.settle();
        }
        self.judge(hex(payload), permit, out)
    }

    fn judge(&mut self, hex: String, permit: Permit, out: Out) -> Option<Outcome> {
        let mut outcome = Outcome::of(&permit, &out);
        if outcome.class.is_difference() {
            // What it had said, and this side didn't know yet, counts.
            let late = Outcome::of(&self.mirror.take_late(), &out);
            if !late.class.is_difference() {
                outcome = Outcome::new(Class::Permitted, late.told);
            }
        }
        self.played.push(Played {
            hex,
            permitted: permit.to_string(),
            seen: outcome.told.clone(),
        });
        let is_taken = outcome.class == Class::AsExpected && out == Out::GoesOn;
        (!is_taken).then_some(outcome)
    }

    fn twice(&mut self, make: &Payload) -> Option<Outcome> {
        let payload = self.made(make);
        let (number, permit) = self.transmit(&payload);
        self.link.send_as(number, &payload);
        let out = self.settle();
        self.judge(hex(&payload), permit, out)
    }

    // (the endpoint may raise its limits between them)
    fn both(&mut self, first: &Payload, second: &Payload) -> Option<Outcome> {
        let [first, second] = [first, second].map(|make| self.made(make));
        let (_, before) = self.transmit(&first);
        let (_, permit) = self.transmit(&second);
        let out = self.settle();
        let permit = if before.may_go_on() { permit } else { before };
        self.judge(format!("{} {}", hex(&first), hex(&second)), permit, out)
    }

    fn over(&mut self, stream: u64, len: u64) -> Option<Outcome> {
        self.totals.insert(stream, len);
        let payload = self.context().stream(stream, 0, len, true);
        if let Some(outcome) = self.send(&payload) {
            return Some(outcome);
        }
        if stream & 2 == 0 {
            let has_ended = self.wait(|seen| seen.streams.get(&stream).is_some_and(|at| at.fin));
            if !has_ended {
                return Some(Outcome::new(Class::Choice, "its answer doesn't end"));
            }
        }
        self.rest()
    }

    // Until all is acknowledged that came: the endpoint may send again what it takes for lost, and hold its stream until that is
    // acknowledged, too.
    fn rest(&mut self) -> Option<Outcome> {
        for _ in 0..MOST_RESTS {
            match self.settle() {
                Out::GoesOn if self.is_quiet || !self.link.owes_ack() => break,
                Out::GoesOn => {}
                out => return self.judge(String::new(), Permit::taken(), out),
            }
        }
        None
    }

    // (so that it doesn't depend on the application's pace whether the stream is over)
    fn may_end(&mut self, stream: u64) -> Option<Outcome> {
        let until = Instant::now() + MOMENT;
        let has_ended = |seen: &Seen| {
            seen.resets.contains_key(&stream) || seen.streams.get(&stream).is_some_and(|at| at.fin)
        };
        while stream & 2 == 0 && Instant::now() < until && !has_ended(&self.seen) {
            self.hear();
        }
        self.rest()
    }

    fn fill(&mut self, stream: u64) -> Option<Outcome> {
        let mut at = self.filled.get(&stream).copied().unwrap_or(0);
        let limit = self.context().limit(stream);
        while at < limit {
            let len = (limit - at).min(PIECE);
            let payload = self.context().stream(stream, at, len, false);
            if let Some(outcome) = self.send(&payload) {
                return Some(outcome);
            }
            at += len;
        }
        self.filled.insert(stream, at);
        // (what is granted for it comes soon, where the application reads it)
        self.wait(|seen| StreamId::new(stream).is_some_and(|stream| seen.limit(stream) > limit));
        None
    }

    fn lose(&mut self) {
        let is_lost =
            |frame: &Frame<'_>| matches!(frame, Frame::Stream { .. } | Frame::ResetStream { .. });
        for (number, payload) in &self.log {
            if has(payload, is_lost) {
                self.link.hide(*number);
            }
        }
    }

    fn wait(&mut self, so: impl Fn(&Seen) -> bool) -> bool {
        let until = Instant::now() + PATIENCE;
        let mut next = Instant::now() + PING;
        while Instant::now() < until && !so(&self.seen) && self.seen.close.is_none() {
            self.hear();
            if Instant::now() >= next && !self.is_quiet {
                self.link.acknowledge();
                next += PING;
            }
        }
        so(&self.seen)
    }

    fn owes(&mut self, owed: Owed) -> Option<Outcome> {
        if !self.is_owed(owed) {
            return None;
        }
        let grants = self.link.places()[0].grants;
        let context = self.context();
        let stream = match owed {
            Owed::Reset(whose, dir) => context.id(whose, dir, 0),
            Owed::Stream(dir) => context.id(Whose::Peers, dir, 0),
            _ => 0,
        };
        let first = |dir| match dir {
            Dir::Uni => grants.uni,
            Dir::Bidi => grants.bidi_remote,
        };
        let is_met = move |seen: &Seen| match owed {
            Owed::Reset(..) => seen.resets.contains_key(&stream),
            Owed::Stream(dir) => {
                StreamId::new(stream).is_some_and(|stream| seen.limit(stream) > first(dir))
            }
            Owed::Data => seen.max_data > grants.max_data,
            Owed::Streams(Dir::Bidi) => seen.max_streams[0] > grants.streams_bidi,
            Owed::Streams(Dir::Uni) => seen.max_streams[1] > grants.streams_uni,
            Owed::Blocked => seen.is_blocked,
            Owed::PathResponse => seen.path_responses > 0,
            Owed::Again => seen.again > 0,
            Owed::ResetAgain => seen.resets.values().any(|(_, _, count)| *count > 1),
        };
        if self.wait(is_met) {
            return self.of_reset(owed, stream);
        }
        Some(match self.seen.close.clone() {
            Some(out) => Outcome::of(&Permit::taken(), &out),
            // How many streams HTTP/3 takes on is its own choice (RFC 9000, section 4.6).
            None if self.is_http && matches!(owed, Owed::Streams(_)) => {
                Outcome::new(Class::Choice, Outcome::owed(owed).told)
            }
            None => Outcome::owed(owed),
        })
    }

    // The code SHOULD be that of the stop (RFC 9000, section 3.5), as that of an endpoint is that acts in its place.
    fn of_reset(&self, owed: Owed, stream: u64) -> Option<Outcome> {
        let code = self.seen.resets.get(&stream)?.0;
        let is_reset = matches!(owed, Owed::Reset(..));
        (is_reset && code != CODE).then(|| {
            let told = "sends RESET_STREAM with another code than the stop's (3.5)";
            Outcome::new(Class::Should, told)
        })
    }

    // Whether an endpoint that acts in its place sends it, where that can say so.
    fn is_owed(&self, owed: Owed) -> bool {
        let acts = self.mirror.acts();
        let context = self.context();
        let sends = |so: &dyn Fn(&Frame<'_>) -> bool| acts.iter().any(|payload| has(payload, so));
        match owed {
            Owed::Reset(whose, dir) => {
                let id = context.id(whose, dir, 0);
                sends(
                    &|frame| matches!(frame, Frame::ResetStream { stream, .. } if stream.value() == id),
                )
            }
            Owed::Stream(dir) => {
                let id = context.id(Whose::Peers, dir, 0);
                sends(
                    &|frame| matches!(frame, Frame::MaxStreamData { stream, .. } if stream.value() == id),
                )
            }
            Owed::Data => sends(&|frame| matches!(frame, Frame::MaxData { .. })),
            Owed::Streams(_) => sends(&|frame| matches!(frame, Frame::MaxStreams { .. })),
            Owed::Blocked => sends(&|frame| {
                matches!(
                    frame,
                    Frame::DataBlocked { .. } | Frame::StreamDataBlocked { .. }
                )
            }),
            Owed::PathResponse | Owed::Again | Owed::ResetAgain => true,
        }
    }
}

fn own_stream(seen: &Seen, dir: Dir) -> Option<u64> {
    let is_own =
        |id: &&u64| StreamId::new(**id).is_some_and(|id| id.dir() == dir && seen.is_own(id));
    seen.streams.keys().find(is_own).copied()
}
