//! A client's session and a server of files, with payloads that go from one to the other as they are made.

use super::server::{FileServer, Patience};
use super::session::{Event, Field, Session};
use super::{CLOSED_CRITICAL_STREAM, NO_ERROR};
use crate::budget::{Budget, OF_ALL};
use crate::fault::Close;
use crate::files::Folder;
use crate::log::SAID;
use crate::streams::{Application, Body};
use gotsavena::{Dir, Endpoint, Received, Role, Settings, StreamId};
use std::collections::{BTreeMap, HashMap};
use std::time::Duration;

const FILE: &str = "/Cargo.toml";

const GET: [(&str, &str); 4] = [
    (":method", "GET"),
    (":scheme", "https"),
    (":authority", "localhost"),
    (":path", FILE),
];

struct Pair {
    client: Endpoint,
    server: Endpoint,
    session: Session,
    application: FileServer,
    came: HashMap<StreamId, Came>,
    /// The stream from which on the server answers no more.
    away: Option<StreamId>,
}

#[derive(Default)]
struct Came {
    fields: BTreeMap<String, String>,
    body: Vec<u8>,
    is_whole: bool,
    broken: Option<u64>,
}

fn file_server(budget: &Budget) -> FileServer {
    let folder = Folder::open(env!("CARGO_MANIFEST_DIR")).unwrap();
    FileServer::new(folder, budget, "127.0.0.1:1".parse().unwrap())
}

impl Pair {
    fn new() -> Pair {
        Pair::with_lifetime(1000)
    }

    fn with_patience(patience: Patience) -> Pair {
        let mut pair = Pair::new();
        pair.application = file_server(&Budget::new(OF_ALL)).with_patience(patience);
        pair
    }

    fn with_lifetime(lifetime: u64) -> Pair {
        let settings = Settings::small()
            .conn_window(1 << 20)
            .stream_windows(1 << 16)
            .send_buffer(1 << 16)
            .bidi_streams(20, lifetime);
        let [mut client, server] = [Role::Client, Role::Server]
            .map(|role| Endpoint::new(role, settings, settings.limits()).unwrap());
        Pair {
            session: Session::new(Role::Client, &mut client).unwrap(),
            client,
            server,
            application: file_server(&Budget::new(OF_ALL)),
            came: HashMap::new(),
            away: None,
        }
    }

    fn ask(&mut self, fields: &[(&str, &str)], begun: Option<Body>) -> StreamId {
        let fields: Vec<Field> = fields
            .iter()
            .map(|(name, value)| (name.as_bytes().to_vec(), value.as_bytes().to_vec()))
            .collect();
        let stream = self.session.request(&mut self.client, &fields, begun);
        stream.unwrap().unwrap()
    }

    fn load(&mut self, method: &str, path: &str, begun: Option<Body>) -> Came {
        let fields = [
            (":method", method),
            (":scheme", "https"),
            (":authority", "localhost"),
            (":path", path),
        ];
        let stream = self.ask(&fields, begun);
        self.run().unwrap();
        self.came.remove(&stream).unwrap()
    }

    fn run(&mut self) -> Result<(), Close> {
        (0..100).try_for_each(|_| self.exchange())
    }

    fn exchange(&mut self) -> Result<(), Close> {
        let mut payload = [0; 1200];
        self.session.write(&mut self.client)?;
        while let Some(made) = self.client.make_packet(&mut payload).unwrap() {
            let payload = &payload[..made.len];
            let taken = self.server.receive(made.number, payload);
            assert_eq!(taken, Ok(Received::Done));
        }
        self.application.progress(&mut self.server)?;
        while let Some(made) = self.server.make_packet(&mut payload).unwrap() {
            let payload = &payload[..made.len];
            let taken = self.client.receive(made.number, payload);
            assert_eq!(taken, Ok(Received::Done));
        }
        self.session.progress(&mut self.client)?;
        while let Some(event) = self.session.next_event() {
            self.take(event);
        }
        Ok(())
    }

    fn take(&mut self, event: Event) {
        match event {
            Event::Field(stream, (name, value)) => {
                let [name, value] = [name, value].map(|text| String::from_utf8(text).unwrap());
                self.came
                    .entry(stream)
                    .or_default()
                    .fields
                    .insert(name, value);
            }
            Event::Data(stream, bytes) => self.came.entry(stream).or_default().body.extend(bytes),
            Event::End(stream) => self.came.entry(stream).or_default().is_whole = true,
            Event::Broken(stream, code) => {
                self.came.entry(stream).or_default().broken = Some(code);
            }
            Event::GoAway(stream) => self.away = Some(stream),
            Event::FieldsEnd(_) | Event::TooManyFields(_) | Event::Malformed(..) => {}
        }
    }
}

impl Came {
    fn field(&self, name: &str) -> Option<&str> {
        self.fields.get(name).map(String::as_str)
    }
}

#[test]
fn a_file_comes_with_its_type_and_length() {
    let text = std::fs::read(concat!(env!("CARGO_MANIFEST_DIR"), "/src/h3/session.rs")).unwrap();
    let len = text.len().to_string();
    let mut pair = Pair::new();
    let mut got = pair.load("GET", "/src/h3/session%2ers", None);
    assert_eq!(got.field(":status"), Some("200"));
    assert_eq!(
        got.field("content-type"),
        Some("text/x-rust; charset=utf-8")
    );
    assert_eq!(got.field("content-length"), Some(len.as_str()));
    assert!(got.is_whole && got.body == text);
    // A HEAD has the same fields and no body (RFC 9110, section 8.6), each with the time at which it was made.
    let mut head = pair.load("HEAD", "/src/h3/session.rs", None);
    assert!(head.is_whole && head.body.is_empty());
    assert!(got.fields.remove("date").is_some());
    assert!(head.fields.remove("date").is_some());
    assert_eq!(head.fields, got.fields);
    head = pair.load("HEAD", "/none", None);
    assert_eq!(head.field(":status"), Some("404"));
    let slash = pair.load("GET", "/src", None);
    assert_eq!(slash.field(":status"), Some("301"));
    assert_eq!(slash.field("location"), Some("./src/"));
}

#[test]
fn a_method_that_files_have_not_is_refused_and_its_body_thrown_away() {
    let mut pair = Pair::new();
    let fields = [
        (":method", "POST"),
        (":scheme", "https"),
        (":authority", "localhost"),
        (":path", FILE),
    ];
    // More than the window of a stream: all of it is read.
    let stream = pair.ask(&fields, Some(Body::of_bytes(vec![0; 1_000_000])));
    pair.run().unwrap();
    let got = pair.came.remove(&stream).unwrap();
    assert_eq!(got.field(":status"), Some("405"));
    assert_eq!(got.field("allow"), Some("GET, HEAD"));
    assert!(got.is_whole && got.broken.is_none());
    assert_eq!(pair.client.stopped_with(stream), None);
    let sent = pair.client.report(stream).unwrap().send.unwrap();
    assert!(sent.written >= 1_000_000);
    assert_eq!(pair.load("GET", FILE, None).field(":status"), Some("200"));
}

#[test]
fn a_body_that_is_too_long_or_takes_too_long_is_stopped() {
    let second = Duration::from_secs(1);
    for (bytes, time) in [(5_000, 30 * second), (1 << 20, Duration::ZERO)] {
        let mut pair = Pair::with_patience(Patience { bytes, time });
        for place in 0..50 {
            let begun = Body::of_bytes(vec![0; 10_000]);
            let got = pair.load("PUT", "/", Some(begun));
            // All of the answer comes, and the request's half is stopped without a fault (RFC 9114, section 4.1).
            assert_eq!(got.field(":status"), Some("405"));
            assert!(got.is_whole && got.broken.is_none_or(|code| code == NO_ERROR));
            let stream = StreamId::new(4 * place).unwrap();
            assert_eq!(pair.client.stopped_with(stream), Some(NO_ERROR));
            // Its stream comes to its end, so that it gives its place to another.
            assert_eq!(pair.server.next_ended(stream), Some(stream));
        }
        assert_eq!(pair.load("GET", FILE, None).field(":status"), Some("200"));
    }
}

#[test]
fn what_all_connections_keep_is_bounded() {
    let budget = Budget::new(100_000);
    let mut other = budget.share();
    let mut pair = Pair::new();
    pair.application = file_server(&budget);
    let mut status = |path| {
        pair.load("GET", path, None)
            .field(":status")
            .unwrap()
            .to_owned()
    };
    assert_eq!(status(FILE), "200");
    assert!(other.set(90_000));
    assert_eq!(status(FILE), "503");
    assert_eq!(status("/none"), "503");
    assert!(other.set(0));
    // What was answered is known to the client, and takes nothing any more.
    for _ in 0..20 {
        assert_eq!(status(FILE), "200");
    }
}

#[test]
fn a_stop_says_which_requests_are_answered() {
    let mut pair = Pair::new();
    pair.load("GET", FILE, None);
    pair.load("GET", FILE, None);
    assert!(!pair.application.stop().unwrap());
    pair.run().unwrap();
    // The two are; the third isn't (RFC 9114, section 5.2).
    assert_eq!(pair.away, StreamId::new(8));
    assert!(pair.application.stop().unwrap());
}

#[test]
fn what_a_browser_has_is_not_sent_again() {
    let mut pair = Pair::new();
    let first = pair.load("GET", FILE, None);
    let [tag, time] = ["etag", "last-modified"].map(|name| first.field(name).unwrap().to_owned());
    assert!(
        first
            .field("date")
            .is_some_and(|date| date.ends_with(" GMT"))
    );
    let mut ask = |more: &[(&str, &str)]| {
        let stream = pair.ask(&[&GET[..], more].concat(), None);
        pair.run().unwrap();
        let came = pair.came.remove(&stream).unwrap();
        (came.field(":status").unwrap().to_owned(), came.body)
    };
    let others = format!("\"other\", W/{tag}");
    let (old, weak) = ("Sun, 06 Nov 1994 08:49:37 GMT", format!("W/{tag}"));
    let none = ("304".to_owned(), Vec::new());
    assert_eq!(ask(&[("if-none-match", &tag)]), none);
    assert_eq!(ask(&[("if-none-match", &others)]), none);
    assert_eq!(ask(&[("if-modified-since", &time)]), none);
    let whole = ("200".to_owned(), first.body.clone());
    assert_eq!(ask(&[("if-none-match", "\"other\"")]), whole);
    assert_eq!(ask(&[("if-modified-since", old)]), whole);
    // A tag that differs counts, whatever the time says (RFC 9110, section 13.1.3).
    assert_eq!(
        ask(&[("if-none-match", "\"other\""), ("if-modified-since", &time)]),
        whole
    );
    let range = ("range", "bytes=5-9");
    let part = ("206".to_owned(), first.body[5..10].to_vec());
    assert_eq!(ask(&[range]), part);
    assert_eq!(ask(&[range, ("if-range", &tag)]), part);
    assert_eq!(ask(&[range, ("if-range", &time)]), part);
    assert_eq!(ask(&[range, ("if-range", "\"other\"")]), whole);
    assert_eq!(ask(&[range, ("if-range", &weak)]), whole);
    assert_eq!(ask(&[range, ("if-range", old)]), whole);
    assert_eq!(ask(&[("range", "bytes=1000000-")]).0, "416");
}

#[test]
fn a_malformed_request_is_told() {
    let mut pair = Pair::new();
    // There is no path (RFC 9114, section 4.3.1).
    let stream = pair.ask(&GET[..3], None);
    pair.run().unwrap();
    assert_eq!(pair.came[&stream].broken, Some(0x10e));
    let said = SAID.take();
    assert_eq!(said.len(), 1, "{said:?}");
    let told = " 127.0.0.1:1 GET localhost - 0 malformed: code 0x10e";
    assert!(said[0].ends_with(told), "{said:?}");
    assert_eq!(pair.load("GET", FILE, None).field(":status"), Some("200"));
}

#[test]
fn connect_is_answered() {
    let mut pair = Pair::new();
    let fields = [(":method", "CONNECT"), (":authority", "example.org:443")];
    // Its stream stays open for the bytes of the tunnel (RFC 9114, section 4.4).
    let stream = pair.ask(&fields, Some(Body::of_bytes(Vec::new())));
    pair.run().unwrap();
    let got = &pair.came[&stream];
    assert_eq!(got.field(":status"), Some("405"));
    assert!(got.is_whole);
}

#[test]
fn fields_that_take_too_much_are_refused() {
    let mut pair = Pair::new();
    let value = "v".repeat(1000);
    let mut ask = |count: usize| {
        let mut fields = vec![
            (":method", "GET"),
            (":scheme", "https"),
            (":authority", "localhost"),
            (":path", "/Cargo.toml"),
        ];
        fields.extend((0..count).map(|_| ("x-long", value.as_str())));
        let stream = pair.ask(&fields, None);
        pair.run().unwrap();
        pair.came[&stream].field(":status").map(str::to_owned)
    };
    // Each takes 1,038 of the 65,536 that are told (RFC 9114, section 4.2.2).
    assert_eq!(ask(60).as_deref(), Some("200"));
    assert_eq!(ask(64).as_deref(), Some("431"));
    assert_eq!(ask(200).as_deref(), Some("431"));
    assert_eq!(ask(1).as_deref(), Some("200"));
    // One field that takes too much is the first that comes, and is answered, too.
    let path = format!("/{}", "p".repeat(65_500));
    let fields = [(":path", path.as_str()), GET[0], GET[1], GET[2]];
    let stream = pair.ask(&fields, None);
    pair.run().unwrap();
    assert_eq!(pair.came[&stream].field(":status"), Some("431"));
}

#[test]
fn a_stop_of_a_stream_that_a_connection_needs_closes() {
    for place in 0..3 {
        let mut pair = Pair::new();
        pair.load("GET", FILE, None);
        let stream = StreamId::new(3 + 4 * place).unwrap();
        assert_eq!(stream.dir(), Dir::Uni);
        pair.client.stop(stream, NO_ERROR).unwrap();
        assert_eq!(pair.run().unwrap_err().code, CLOSED_CRITICAL_STREAM);
    }
}

#[test]
fn a_client_is_told_in_time_to_take_another_connection() {
    let mut pair = Pair::with_lifetime(40);
    pair.run().unwrap();
    for _ in 0..29 {
        assert_eq!(pair.load("GET", FILE, None).field(":status"), Some("200"));
        assert_eq!(pair.away, None);
    }
    // Ten are left, a quarter of all. The GOAWAY refuses none of those that may be under way (RFC 9114, section 5.2).
    assert_eq!(pair.load("GET", FILE, None).field(":status"), Some("200"));
    assert!(pair.away.is_some_and(|first| first.value() >= 4 * 40));
}

#[test]
fn a_client_that_waits_for_streams_is_told_once_none_is_left() {
    let mut pair = Pair::with_lifetime(40);
    pair.run().unwrap();
    // It opens all that it may: it never can open at once what it wants to.
    let mut asked = 0;
    while asked < 40 {
        assert_eq!(pair.away, None, "after {asked}");
        while pair.client.open_left(Dir::Bidi) > 0 {
            pair.ask(&GET, None);
            asked += 1;
        }
        pair.session.write(&mut pair.client).unwrap();
        pair.exchange().unwrap();
    }
    // All are answered, and then the connection ends without a fault.
    assert_eq!(pair.run().unwrap_err().code, NO_ERROR);
    assert!(pair.away.is_some());
    assert_eq!(pair.came.values().filter(|came| came.is_whole).count(), 40);
}
