//! A client that loads files.

use super::session::{Event, Session};
use super::{NO_ERROR, REQUEST_REJECTED};
use crate::client::Errand;
use crate::fault::Close;
use crate::streams::{Application, Body};
use gotsavena::{Endpoint, Role, SendState, StreamId};
use std::collections::{BTreeSet, HashMap, VecDeque};

const BEGUN: usize = 20_000;

#[derive(Clone, Debug, PartialEq, Eq)]
pub struct Url {
    pub authority: String,
    pub path: String,
}

impl Url {
    pub fn read(text: &str) -> Option<Url> {
        let rest = text.strip_prefix("https://")?;
        let (authority, path) = rest.split_once('/').unwrap_or((rest, ""));
        (!authority.is_empty()).then(|| Url {
            authority: authority.to_owned(),
            path: format!("/{path}"),
        })
    }

    pub fn host(&self) -> &str {
        self.authority
            .rsplit_once(':')
            .map_or(&self.authority, |(host, _)| host)
    }
}

#[derive(Debug)]
pub struct Loaded {
    pub url: Url,
    pub status: String,
    pub body: Vec<u8>,
    pub is_whole: bool,
}

impl Loaded {
    fn new(url: Url) -> Loaded {
        Loaded {
            url,
            status: String::new(),
            body: Vec::new(),
            is_whole: false,
        }
    }
}

enum Wanted {
    File(Url),
    Nothing(Url),
    Unread(Url),
}

pub struct Loader {
    session: Option<Session>,
    wanted: VecDeque<Wanted>,
    running: HashMap<StreamId, Loaded>,
    /// Given up once something of them went, so that the server has begun. They are kept until the peer knows.
    given_up: BTreeSet<StreamId>,
    pub loaded: Vec<Loaded>,
    stays: bool,
    is_away: bool,
    stop_after: usize,
    urgent: Option<String>,
}

#[derive(Clone, Debug)]
pub struct Manners {
    pub stop_after: usize,
    pub resets: usize,
    /// So many requests for the first file are sent of which no answer is read. Without another file the client stays then.
    pub unread: usize,
    pub urgent: Option<String>,
}

impl Loader {
    pub fn new(urls: Vec<Url>, manners: Manners) -> Loader {
        let Manners {
            stop_after,
            resets,
            unread,
            urgent,
        } = manners;
        let stays = unread > 0 && urls.len() == 1;
        let first = urls.iter().take(1).cycle().take(unread);
        let mut wanted: VecDeque<Wanted> = first.cloned().map(Wanted::Unread).collect();
        for url in urls.into_iter().skip(usize::from(unread > 0)) {
            wanted.extend((0..resets).map(|_| Wanted::Nothing(url.clone())));
            wanted.push_back(Wanted::File(url));
        }
        Loader {
            session: None,
            wanted,
            running: HashMap::new(),
            given_up: BTreeSet::new(),
            loaded: Vec::new(),
            stop_after,
            urgent,
            stays,
            is_away: false,
        }
    }

    // The server takes no new requests, and won't answer those from a stream on.
    fn go_away(&mut self, first: StreamId) {
        self.is_away = true;
        let refused = self.running.keys().filter(|stream| **stream >= first);
        for stream in refused.copied().collect::<Vec<_>>() {
            self.ask_again(stream);
        }
    }

    // The server won't answer a request: another connection is asked for it.
    fn ask_again(&mut self, stream: StreamId) {
        if let Some(loaded) = self.running.remove(&stream) {
            self.wanted.push_front(Wanted::File(loaded.url));
        }
    }

    fn begin(&mut self, session: &mut Session, end: &mut Endpoint) -> Result<(), Close> {
        while let (Some(wanted), false) = (self.wanted.front(), self.is_away) {
            let (method, url, begun) = match wanted {
                Wanted::File(url) | Wanted::Unread(url) => ("GET", url, None),
                Wanted::Nothing(url) => ("GET", url, Some(Body::of_bytes(vec![0; BEGUN]))),
            };
            let is_urgent = self.urgent.as_ref() == Some(&url.path);
            let fields = [
                (":method", method),
                (":scheme", "https"),
                (":authority", &url.authority),
                (":path", &url.path),
                ("user-agent", "gotsavena-interop"),
                ("priority", if is_urgent { "u=0" } else { "u=3" }),
            ];
            let fields =
                fields.map(|(name, value)| (name.as_bytes().to_vec(), value.as_bytes().to_vec()));
            let Some(stream) = session.request(end, &fields, begun)? else {
                return Ok(());
            };
            match self.wanted.pop_front() {
                Some(Wanted::File(url)) => {
                    self.running.insert(stream, Loaded::new(url));
                }
                Some(Wanted::Unread(_)) => session.leave_unread(stream),
                _ => {
                    self.given_up.insert(stream);
                }
            }
        }
        Ok(())
    }

    fn give_up(&mut self, session: &mut Session, end: &mut Endpoint) -> Result<(), Close> {
        for stream in std::mem::take(&mut self.given_up) {
            let send = end.report(stream).and_then(|report| report.send);
            match send.map(|send| send.state) {
                Some(SendState::Send) => session.cancel(end, stream)?,
                Some(SendState::Ready | SendState::ResetSent) => {}
                // The peer knows of it. Its own half it may leave as it is, where the reset was the first that it saw of the stream.
                _ => continue,
            }
            self.given_up.insert(stream);
        }
        Ok(())
    }

    fn take(
        &mut self,
        event: Event,
        session: &mut Session,
        end: &mut Endpoint,
    ) -> Result<(), Close> {
        match event {
            Event::Field(stream, (name, value)) => self.take_field(stream, &name, &value),
            Event::Data(stream, bytes) => {
                let Some(loaded) = self.running.get_mut(&stream) else {
                    return Ok(());
                };
                loaded.body.extend_from_slice(&bytes);
                if loaded.body.len() > self.stop_after {
                    session.cancel(end, stream)?;
                    self.loaded.extend(self.running.remove(&stream));
                }
            }
            Event::End(stream) => {
                if let Some(mut loaded) = self.running.remove(&stream) {
                    loaded.is_whole = true;
                    self.loaded.push(loaded);
                }
            }
            Event::Broken(stream, REQUEST_REJECTED) => {
                self.is_away = true;
                self.ask_again(stream);
            }
            Event::GoAway(first) => self.go_away(first),
            Event::Broken(stream, _) | Event::Malformed(stream, _) => {
                self.loaded.extend(self.running.remove(&stream));
            }
            // A response that is too large is dropped (RFC 9114, section 4.2.2).
            Event::TooManyFields(stream) => {
                session.cancel(end, stream)?;
                self.loaded.extend(self.running.remove(&stream));
            }
            Event::FieldsEnd(_) => {}
        }
        Ok(())
    }

    fn take_field(&mut self, stream: StreamId, name: &[u8], value: &[u8]) {
        if let (b":status", Some(loaded)) = (name, self.running.get_mut(&stream)) {
            loaded.status = String::from_utf8_lossy(value).into_owned();
        }
    }
}

impl Application for Loader {
    const NO_ERROR: u64 = NO_ERROR;

    fn progress(&mut self, end: &mut Endpoint) -> Result<(), Close> {
        let mut session = match self.session.take() {
            Some(session) => session,
            None => Session::new(Role::Client, end)?,
        };
        session.progress(end)?;
        while let Some(event) = session.next_event() {
            self.take(event, &mut session, end)?;
        }
        self.give_up(&mut session, end)?;
        self.begin(&mut session, end)?;
        session.write(end)?;
        self.session = Some(session);
        if self.is_over() && !self.stays {
            return Err(Close::new(NO_ERROR, "all is loaded"));
        }
        match self.is_away && self.running.is_empty() && self.given_up.is_empty() {
            true => Err(Close::new(NO_ERROR, "a new connection is needed")),
            false => Ok(()),
        }
    }

    fn waits_for_streams(&self) -> bool {
        self.running.is_empty() && self.given_up.is_empty() && !self.wanted.is_empty()
    }
}

impl Errand for Loader {
    fn is_over(&self) -> bool {
        self.wanted.is_empty() && self.running.is_empty() && self.given_up.is_empty()
    }

    fn done(&self) -> usize {
        self.loaded.len()
    }

    fn begin_anew(&mut self) {
        self.session = None;
        self.is_away = false;
        self.given_up.clear();
        for loaded in std::mem::take(&mut self.running).into_values() {
            self.wanted.push_front(Wanted::File(loaded.url));
        }
    }
}

#[cfg(test)]
mod tests {
    use super::*;

    #[test]
    fn an_url_has_host_and_path() {
        let url = Url::read("https://localhost:4433/a/b?c").unwrap();
        assert_eq!((url.host(), url.path.as_str()), ("localhost", "/a/b?c"));
        assert_eq!(Url::read("https://localhost").unwrap().path, "/");
        assert!(Url::read("http://localhost/").is_none());
    }
}
