//! DNS over dedicated QUIC connections (RFC 9250): one query and its answer on each stream.

use crate::client::Errand;
use crate::dns::{Name, Reply, answer, message_id, query, read_reply};
use crate::fault::Close;
use crate::streams::{Application, Body, Came, Outgoing, abandon, read_more};
use crate::zone::Zone;
use gotsavena::{Dir, Endpoint, OpenFault, SendState, StreamId, UseFault};
use std::collections::{BTreeMap, VecDeque};
use std::sync::Arc;

/// The name of the protocol (RFC 9250, section 4.1.1).
pub const PROTOCOL: &[u8] = b"doq";

// Codes of RFC 9250, section 8.4.
pub const NO_ERROR: u64 = 0;
pub const INTERNAL_ERROR: u64 = 1;
pub const PROTOCOL_ERROR: u64 = 2;
pub const REQUEST_CANCELLED: u64 = 3;

/// Longer than any message, so a stream with more is at fault.
const MOST_BYTES: usize = 2 + 65_535;

pub struct NameServer {
    zone: Arc<Zone>,
    queries: BTreeMap<StreamId, Query>,
}

enum Query {
    Comes(Vec<u8>),
    IsAnswered(Outgoing),
    IsWritten,
}

impl NameServer {
    pub fn new(zone: Arc<Zone>) -> NameServer {
        NameServer {
            zone,
            queries: BTreeMap::new(),
        }
    }
}

/// The message in the bytes of a stream that ended (RFC 9250, sections 4.2 and 4.2.1).
fn message(bytes: &[u8]) -> Result<&[u8], Close> {
    let wrong = |reason| Err(Close::new(PROTOCOL_ERROR, reason));
    let Some((len, message)) = bytes.split_first_chunk() else {
        return wrong("a stream that ends before a query's length");
    };
    let len = usize::from(u16::from_be_bytes(*len));
    if message.len() < len {
        return wrong("a stream that ends before its query does");
    }
    if message.len() > len {
        return wrong("bytes behind the query of a stream");
    }
    match message_id(message) {
        Some(0) => Ok(message),
        Some(_) => wrong("a message ID that is not 0"),
        None => wrong("a query without a message ID"),
    }
}

impl Application for NameServer {
    const NO_ERROR: u64 = NO_ERROR;

    fn stop(&mut self) -> Result<bool, Close> {
        Ok(self.queries.is_empty())
    }

    fn progress(&mut self, end: &mut Endpoint) -> Result<(), Close> {
        while let Some(stream) = end.accept() {
            self.queries.insert(stream, Query::Comes(Vec::new()));
        }
        for (stream, mut query) in std::mem::take(&mut self.queries) {
            match query.progress(&self.zone, end, stream) {
                Ok(true) => {}
                Ok(false) => {
                    self.queries.insert(stream, query);
                }
                Err(close) => return Err(close),
            }
        }
        // Where the client can open no more streams, and knows all answers, a new connection helps it (RFC 9250, section 5.4).
        match self.queries.is_empty() && end.streams_left(Dir::Bidi) == 0 {
            true => Err(Close::new(NO_ERROR, "a new connection is needed")),
            false => Ok(()),
        }
    }
}

impl Query {
    fn progress(
        &mut self,
        zone: &Zone,
        end: &mut Endpoint,
        stream: StreamId,
    ) -> Result<bool, Close> {
        if let Query::Comes(bytes) = self {
            match read_more(end, stream, bytes, MOST_BYTES).map_err(internal)? {
                Came::Some => return Ok(false),
                Came::Reset(_) => {
                    // The client gave up; its answer's half ends, too.
                    abandon(end, stream, REQUEST_CANCELLED).map_err(internal)?;
                    return Ok(true);
                }
                Came::TooMuch => {
                    return Err(Close::new(
                        PROTOCOL_ERROR,
                        "bytes behind the query of a stream",
                    ));
                }
                Came::All => {}
            }
            let Some(answer) = answer(zone, message(bytes)?) else {
                return Err(Close::new(PROTOCOL_ERROR, "a message that is no query"));
            };
            *self = Query::IsAnswered(Outgoing::new(Body::of_bytes(with_len(&answer))));
        }
        if let Query::IsAnswered(outgoing) = self {
            match outgoing.write(end, stream, INTERNAL_ERROR) {
                Ok(true) => *self = Query::IsWritten,
                Ok(false) => return Ok(false),
                // The client asked to stop: the stream layer has reset the half.
                Err(UseFault::WasReset) => return Ok(true),
                Err(fault) => return Err(internal(fault)),
            }
        }
        Ok(is_known(end, stream))
    }
}

fn is_known(end: &Endpoint, stream: StreamId) -> bool {
    let send = end.report(stream).and_then(|report| report.send);
    send.is_none_or(|send| matches!(send.state, SendState::DataRecvd | SendState::ResetRecvd))
}

pub struct Asker {
    kind: u16,
    wanted: VecDeque<Name>,
    running: BTreeMap<StreamId, (Name, Vec<u8>)>,
    pub answers: Vec<(Name, Reply)>,
}

impl Asker {
    pub fn new(names: Vec<Name>, kind: u16) -> Asker {
        Asker {
            kind,
            wanted: names.into(),
            running: BTreeMap::new(),
            answers: Vec::new(),
        }
    }

    fn begin(&mut self, end: &mut Endpoint) -> Result<(), Close> {
        while let Some(name) = self.wanted.front() {
            let stream = match end.open(Dir::Bidi) {
                Ok(stream) => stream,
                Err(OpenFault::Blocked(_)) => return Ok(()),
                Err(fault) => return Err(Close::new(INTERNAL_ERROR, &fault.to_string())),
            };
            // A query is short, and a new stream has room for it.
            let text = with_len(&query(name, self.kind));
            end.write(stream, &text).map_err(internal)?;
            end.finish(stream).map_err(internal)?;
            let name = self.wanted.pop_front();
            self.running
                .extend(name.map(|name| (stream, (name, Vec::new()))));
        }
        Ok(())
    }

    fn take(&mut self, name: Name, bytes: &[u8]) -> Result<(), Close> {
        let reply = read_reply(message(bytes)?);
        let reply = reply.ok_or_else(|| Close::new(PROTOCOL_ERROR, "an answer that is none"))?;
        self.answers.push((name, reply));
        Ok(())
    }
}

impl Application for Asker {
    const NO_ERROR: u64 = NO_ERROR;

    fn progress(&mut self, end: &mut Endpoint) -> Result<(), Close> {
        for (stream, (name, mut bytes)) in std::mem::take(&mut self.running) {
            match read_more(end, stream, &mut bytes, MOST_BYTES).map_err(internal)? {
                Came::All => self.take(name, &bytes)?,
                Came::Some => {
                    self.running.insert(stream, (name, bytes));
                }
                Came::Reset(_) => self.wanted.push_back(name),
                Came::TooMuch => return Err(Close::new(PROTOCOL_ERROR, "bytes behind an answer")),
            }
        }
        self.begin(end)?;
        match self.is_over() {
            true => Err(Close::new(NO_ERROR, "all is answered")),
            false => Ok(()),
        }
    }

    fn waits_for_streams(&self) -> bool {
        self.running.is_empty() && !self.wanted.is_empty()
    }
}

impl Errand for Asker {
    fn is_over(&self) -> bool {
        self.wanted.is_empty() && self.running.is_empty()
    }

    fn done(&self) -> usize {
        self.answers.len()
    }

    fn begin_anew(&mut self) {
        for (name, _) in std::mem::take(&mut self.running).into_values() {
            self.wanted.push_front(name);
        }
    }
}

fn with_len(message: &[u8]) -> Vec<u8> {
    let mut out = (message.len() as u16).to_be_bytes().to_vec();
    out.extend_from_slice(message);
    out
}

fn internal(fault: UseFault) -> Close {
    Close::new(INTERNAL_ERROR, &fault.to_string())
}

#[cfg(test)]
mod tests {
    use super::*;
    use gotsavena::{Received, Role, Settings};

    struct Pair {
        client: Endpoint,
        server: Endpoint,
        application: NameServer,
    }

    impl Pair {
        fn new(settings: Settings) -> Pair {
            let zone = Zone::read("example. 60 SOA ns hostmaster 1 2 3 4 5").unwrap();
            let [client, server] = [Role::Client, Role::Server]
                .map(|role| Endpoint::new(role, settings, settings.limits()).unwrap());
            Pair {
                client,
                server,
                application: NameServer::new(Arc::new(zone)),
            }
        }

        fn ask(&mut self, bytes: &[u8]) -> Result<Vec<u8>, Close> {
            let stream = self.client.open(Dir::Bidi).unwrap();
            self.client.write(stream, bytes).unwrap();
            self.client.finish(stream).unwrap();
            let mut payload = [0; 1200];
            // (the second time brings the client's ACK)
            for _ in 0..2 {
                while let Some(made) = self.client.make_packet(&mut payload).unwrap() {
                    let payload = &payload[..made.len];
                    let taken = self.server.receive(made.number, payload);
                    assert_eq!(taken, Ok(Received::Done));
                }
                self.application.progress(&mut self.server)?;
                while let Some(made) = self.server.make_packet(&mut payload).unwrap() {
                    let payload = &payload[..made.len];
                    let taken = self.client.receive(made.number, payload);
                    assert_eq!(taken, Ok(Received::Done));
                }
            }
            let mut answer = Vec::new();
            let came = read_more(&mut self.client, stream, &mut answer, MOST_BYTES);
            assert_eq!(came, Ok(Came::All));
            Ok(answer)
        }
    }

    fn ask(bytes: &[u8]) -> Result<Vec<u8>, Close> {
        Pair::new(Settings::small()).ask(bytes)
    }

    const QUERY: &[u8] = b"\0\x19\0\0\x01\0\0\x01\0\0\0\0\0\0\x07example\0\0\x06\0\x01";

    #[test]
    fn a_query_is_answered_on_its_stream() {
        let answer = ask(QUERY).unwrap();
        let len = usize::from(u16::from_be_bytes([answer[0], answer[1]]));
        assert_eq!(answer.len(), 2 + len);
        assert_eq!(answer[4..10], [0x85, 0, 0, 1, 0, 1]);
    }

    #[test]
    fn a_connection_closes_once_its_last_query_is_answered() {
        let mut pair = Pair::new(Settings::small().bidi_streams(2, 3));
        assert!(pair.ask(QUERY).is_ok());
        assert!(pair.ask(QUERY).is_ok());
        // The answer went and is acknowledged: only then it closes, without a fault.
        assert_eq!(pair.ask(QUERY).unwrap_err().code, NO_ERROR);
        let stream = StreamId::new(8).unwrap();
        let mut answer = Vec::new();
        let came = read_more(&mut pair.client, stream, &mut answer, MOST_BYTES);
        assert_eq!((came, answer.len() > QUERY.len()), (Ok(Came::All), true));
    }

    #[test]
    fn a_wrong_query_closes_the_connection() {
        let mut other_id = QUERY.to_vec();
        other_id[3] = 1;
        let mut response = QUERY.to_vec();
        response[4] |= 0x80;
        let twice = [QUERY, QUERY].concat();
        let short = &QUERY[..QUERY.len() - 1];
        for wrong in [&twice[..], &other_id, &response, short, &[]] {
            assert_eq!(ask(wrong).unwrap_err().code, PROTOCOL_ERROR);
        }
    }

    #[test]
    fn a_stream_has_one_query() {
        assert_eq!(message(&[0, 3, 0, 0, 7]), Ok(&[0, 0, 7][..]));
        for wrong in [
            &[0][..],
            &[0, 3, 0, 0],
            &[0, 3, 0, 0, 7, 0],
            &[0, 3, 0, 1, 7],
            &[0, 1, 0],
        ] {
            assert_eq!(message(wrong).unwrap_err().code, PROTOCOL_ERROR);
        }
    }
}
