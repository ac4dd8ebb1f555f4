//! A server of files: GET and HEAD.

use super::NO_ERROR;
use super::answers::{Answer, Request, field};
use super::session::{Event, Session};
use crate::budget::{Budget, Share, most};
use crate::fault::{Close, Outcome};
use crate::files::Folder;
use crate::log::Entry;
use crate::priorities::{Priorities, Priority};
use crate::streams::Application;
use gotsavena::{Dir, Endpoint, Role, SendState, StreamId};
use httpdate::fmt_http_date;
use std::collections::{BTreeMap, BTreeSet, HashMap};
use std::net::SocketAddr;
use std::time::{Duration, Instant, SystemTime};

/// How much is read of the body of a request that is refused, and for how long. Chromium doesn't look at an answer whose request is
/// stopped meanwhile.
#[derive(Clone, Copy, Debug)]
pub struct Patience {
    pub bytes: u64,
    pub time: Duration,
}

impl Default for Patience {
    fn default() -> Patience {
        Patience {
            bytes: 64 << 20,
            time: Duration::from_secs(30),
        }
    }
}

pub struct FileServer {
    folder: Folder,
    share: Share,
    peer: SocketAddr,
    session: Option<Session>,
    requests: HashMap<StreamId, Request>,
    answered: BTreeMap<StreamId, Entry>,
    patience: Patience,
    /// How much more is read of them, and until when: Chromium looks at no answer whose request is stopped meanwhile.
    refused: BTreeMap<StreamId, (u64, Instant)>,
    in_all: u64,
    away_at: Option<u64>,
    is_stopping: bool,
    malformed: BTreeSet<StreamId>,
    has_listed: bool,
}

impl FileServer {
    pub fn new(folder: Folder, budget: &Budget, peer: SocketAddr) -> FileServer {
        FileServer {
            folder,
            share: budget.share(),
            peer,
            session: None,
            requests: HashMap::new(),
            answered: BTreeMap::new(),
            patience: Patience::default(),
            refused: BTreeMap::new(),
            in_all: 0,
            away_at: None,
            is_stopping: false,
            malformed: BTreeSet::new(),
            has_listed: false,
        }
    }

    pub fn with_patience(mut self, patience: Patience) -> FileServer {
        self.patience = patience;
        self
    }

    fn begin(&mut self, end: &mut Endpoint) -> Result<Session, Close> {
        self.in_all = end.streams_left(Dir::Bidi);
        self.away_at = Some((4 * end.granted_streams(Dir::Bidi)).min(self.in_all / 4));
        Session::new(Role::Server, end)
    }

    // The client is told in time, and as it waits for no stream: Chromium leaves requests that wait for one where they are. Once it
    // can open no more, and knows all answers, the connection is of no use.
    fn look_ahead(&mut self, end: &Endpoint, session: &mut Session) -> Result<(), Close> {
        let left = end.streams_left(Dir::Bidi);
        let waits = self.in_all - left == end.granted_streams(Dir::Bidi);
        let is_due = |most: &mut u64| left <= *most && (!waits || left == 0);
        if self.away_at.take_if(is_due).is_some() {
            session.go_away()?;
        }
        match left == 0 && session.has_no_request() && self.answered.is_empty() {
            true => Err(Close::new(NO_ERROR, "a new connection is needed")),
            false => Ok(()),
        }
    }

    fn take(&mut self, event: Event, session: &mut Session) -> Result<(), Close> {
        match event {
            Event::Field(stream, field) => self.requests.entry(stream).or_default().take(field),
            // What can't be answered is refused at once. The rest of it is thrown away.
            Event::TooManyFields(stream) => {
                self.requests.entry(stream).or_default();
                self.refuse(session, stream, Answer::of("431", &[]))?;
            }
            Event::FieldsEnd(stream) => {
                let request = self.requests.get(&stream);
                if request.is_some_and(|request| !request.is_of_files()) {
                    let allow = [("allow", "GET, HEAD")];
                    self.refuse(session, stream, Answer::of("405", &allow))?;
                }
            }
            Event::End(stream) => {
                self.refused.remove(&stream);
                self.malformed.remove(&stream);
                let folder = self.folder.clone();
                self.respond(session, stream, |request| request.answer(&folder))?;
            }
            Event::Malformed(stream, code) => {
                let request = self.requests.remove(&stream).unwrap_or_default();
                self.entry(&request, "-", 0).malformed(code);
                self.malformed.insert(stream);
            }
            Event::Broken(stream, code) => self.break_off(stream, code),
            // What a request brings beside its fields isn't used.
            Event::Data(stream, bytes) => {
                if let Some((left, _)) = self.refused.get_mut(&stream) {
                    *left = left.saturating_sub(bytes.len() as u64);
                }
            }
            Event::GoAway(_) => {}
        }
        Ok(())
    }

    fn refuse(
        &mut self,
        session: &mut Session,
        stream: StreamId,
        answer: Answer,
    ) -> Result<(), Close> {
        let until = Instant::now() + self.patience.time;
        self.refused.insert(stream, (self.patience.bytes, until));
        self.respond(session, stream, |_| answer)
    }

    // Where too much comes of what was refused, or for too long, no more is read of it.
    fn lose_patience(&mut self, session: &mut Session, end: &mut Endpoint) -> Result<(), Close> {
        let now = Instant::now();
        let is_over = |(left, until): &(u64, Instant)| *left == 0 || *until <= now;
        let over = self.refused.iter().filter(|(_, limits)| is_over(limits));
        let over: Vec<StreamId> = over.map(|(stream, _)| *stream).collect();
        for stream in over {
            self.refused.remove(&stream);
            session.refuse_rest(end, stream)?;
        }
        Ok(())
    }

    fn break_off(&mut self, stream: StreamId, code: u64) {
        self.refused.remove(&stream);
        let request = self.requests.remove(&stream).unwrap_or_default();
        if !self.malformed.remove(&stream) && !self.answered.contains_key(&stream) {
            self.entry(&request, "-", 0).broken(code, 0);
        }
    }

    fn respond(
        &mut self,
        session: &mut Session,
        stream: StreamId,
        answer: impl FnOnce(&Request) -> Answer,
    ) -> Result<(), Close> {
        let Some(request) = self.requests.remove(&stream) else {
            return Ok(());
        };
        let mut answer = answer(&request);
        self.has_listed = answer.is_listing;
        let lens = self.answered.values().map(Entry::body_len);
        if !self.share.set(most(lens.chain([answer.sent_len()]))) {
            answer = request.unavailable("too much is kept of answers");
        }
        let mut fields = vec![
            field(":status", answer.status),
            field("server", "gotsavena-interop"),
            field("date", &fmt_http_date(SystemTime::now())),
        ];
        fields.extend(
            answer
                .len
                .map(|len| field("content-length", &len.to_string())),
        );
        let entry = self.entry(&request, answer.status, answer.sent_len());
        fields.extend(answer.fields);
        self.answered.insert(stream, entry);
        session.respond(stream, &fields, answer.body)
    }

    fn entry(&self, request: &Request, status: &'static str, len: u64) -> Entry {
        Entry::new(self.peer, &request.method, &request.path, status, len)
    }

    fn tell(&mut self, end: &Endpoint) {
        let before = self.answered.len();
        self.answered.retain(|stream, entry| {
            let Some(send) = end.report(*stream).and_then(|report| report.send) else {
                return true;
            };
            match (send.state, send.reset_code) {
                (SendState::DataRecvd, _) => entry.whole(send.written),
                (_, Some(code)) => entry.broken(code, send.written),
                _ => return true,
            }
            false
        });
        if self.answered.len() < before {
            self.share
                .set(most(self.answered.values().map(Entry::body_len)));
        }
    }
}

impl Application for FileServer {
    const NO_ERROR: u64 = NO_ERROR;

    // As RFC 9218 has it. The connection's own streams have little to say, and go before all.
    fn prioritize(&self, priorities: &mut Priorities) {
        let Some(session) = &self.session else {
            return;
        };
        let first = Priority {
            urgency: 0,
            is_incremental: false,
        };
        let own = session.own().iter().map(|stream| (*stream, Some(first)));
        own.for_each(|(stream, first)| priorities.set(stream, first));
        for stream in self.answered.keys() {
            if let Some(priority) = session.priority(*stream) {
                priorities.set(*stream, Some(priority));
            }
        }
        let is_over =
            |stream: &StreamId| stream.dir() == Dir::Bidi && !self.answered.contains_key(stream);
        priorities.forget(is_over);
    }

    fn was_cut(&self) -> bool {
        let session = self.session.as_ref();
        self.has_listed || session.is_some_and(|session| session.was_cut)
    }

    fn stop(&mut self) -> Result<bool, Close> {
        let Some(session) = &mut self.session else {
            return Ok(true);
        };
        if !self.is_stopping {
            self.is_stopping = true;
            session.refuse_more()?;
            return Ok(false);
        }
        Ok(session.has_no_request() && self.answered.is_empty())
    }

    fn progress(&mut self, end: &mut Endpoint) -> Result<(), Close> {
        let mut session = match self.session.take() {
            Some(session) => session,
            None => self.begin(end)?,
        };
        session.progress(end)?;
        self.has_listed = false;
        while let Some(event) = session.next_event() {
            self.take(event, &mut session)?;
            // (a folder was read, so others have their turn before the next one is)
            if self.has_listed {
                break;
            }
        }
        self.lose_patience(&mut session, end)?;
        self.tell(end);
        self.look_ahead(end, &mut session)?;
        session.write(end)?;
        self.session = Some(session);
        Ok(())
    }

    fn ended(&mut self, end: Option<&Endpoint>, outcome: &Outcome) {
        let Some(end) = end else {
            return;
        };
        self.tell(end);
        for (stream, entry) in std::mem::take(&mut self.answered) {
            if let Some(send) = end.report(stream).and_then(|report| report.send) {
                entry.cut(send.state == SendState::DataSent, send.written, outcome);
            }
        }
    }
}
