//! Files without HTTP: the bytes of a stream are a path, and the answer on the same stream is the file, or a reset. So it is by HTTP/0.9,
//! whose path has words around it.

use crate::fault::Close;
use crate::files::{Folder, is_exhausted};
use crate::log::tell;
use crate::streams::{Application, Came, Outgoing, abandon, read_more};
use gotsavena::{Dir, Endpoint, OpenFault, StreamId, UseFault};
use std::collections::{BTreeMap, VecDeque};

/// The name of the protocol: one of our own.
pub const PROTOCOL: &[u8] = b"gotsavena-raw";
/// HTTP/0.9 over streams, as those who test QUIC speak it: the path stands between `GET` and a line's end.
pub const HQ: &[u8] = b"hq-interop";

pub const NO_ERROR: u64 = 0;
pub const INTERNAL_ERROR: u64 = 1;
/// The code of a reset: there is no such file.
pub const NO_FILE: u64 = 2;

const MOST_PATH: usize = 4096;

fn internal(fault: UseFault) -> Close {
    Close::new(INTERNAL_ERROR, &fault.to_string())
}

pub struct RawServer {
    folder: Folder,
    streams: BTreeMap<StreamId, Answer>,
}

enum Answer {
    PathComes(Vec<u8>),
    Goes(Outgoing),
}

impl RawServer {
    pub fn new(folder: Folder) -> RawServer {
        RawServer {
            folder,
            streams: BTreeMap::new(),
        }
    }
}

impl Answer {
    fn progress(
        &mut self,
        folder: &Folder,
        end: &mut Endpoint,
        stream: StreamId,
    ) -> Result<bool, UseFault> {
        if let Answer::PathComes(path) = self {
            match read_more(end, stream, path, MOST_PATH)? {
                Came::Some => return Ok(false),
                Came::All => {}
                Came::Reset(_) => return abandon(end, stream, NO_FILE).map(|()| true),
                Came::TooMuch => {
                    end.stop(stream, NO_FILE)?;
                    return abandon(end, stream, NO_FILE).map(|()| true);
                }
            }
            let path = String::from_utf8_lossy(path);
            let path = path.strip_prefix("GET ").map_or(&*path, str::trim_end);
            let body = folder.plain(path).and_then(|found| {
                let len = found.len;
                found.body(0..len)
            });
            match body {
                Ok(body) => *self = Answer::Goes(Outgoing::new(body)),
                Err(error) => {
                    let code = if is_exhausted(&error) {
                        tell(format_args!(
                            "{} can't be opened: {error}",
                            path.escape_debug()
                        ));
                        INTERNAL_ERROR
                    } else {
                        NO_FILE
                    };
                    return abandon(end, stream, code).map(|()| true);
                }
            }
        }
        match self {
            Answer::Goes(outgoing) => outgoing.write(end, stream, INTERNAL_ERROR),
            Answer::PathComes(_) => Ok(false),
        }
    }
}

impl Application for RawServer {
    const NO_ERROR: u64 = NO_ERROR;

    fn stop(&mut self) -> Result<bool, Close> {
        Ok(self.streams.is_empty())
    }

    fn progress(&mut self, end: &mut Endpoint) -> Result<(), Close> {
        while let Some(stream) = end.accept() {
            self.streams.insert(stream, Answer::PathComes(Vec::new()));
        }
        for (stream, mut answer) in std::mem::take(&mut self.streams) {
            match answer.progress(&self.folder, end, stream) {
                // The peer asked to stop: the stream layer has reset the half.
                Ok(true) | Err(UseFault::WasReset) => {}
                Ok(false) => {
                    self.streams.insert(stream, answer);
                }
                Err(fault) => return Err(internal(fault)),
            }
        }
        Ok(())
    }
}

pub struct RawClient {
    is_hq: bool,
    wanted: VecDeque<String>,
    running: BTreeMap<StreamId, (String, Vec<u8>)>,
    /// Each path with its file; without one where the server has none.
    pub loaded: Vec<(String, Option<Vec<u8>>)>,
}

impl RawClient {
    pub fn new(wanted: Vec<String>) -> RawClient {
        RawClient {
            is_hq: false,
            wanted: wanted.into(),
            running: BTreeMap::new(),
            loaded: Vec::new(),
        }
    }

    /// One that asks by HTTP/0.9.
    pub fn of_hq(wanted: Vec<String>) -> RawClient {
        RawClient {
            is_hq: true,
            ..RawClient::new(wanted)
        }
    }

    fn begin(&mut self, end: &mut Endpoint) -> Result<(), Close> {
        while let Some(path) = self.wanted.front() {
            let stream = match end.open(Dir::Bidi) {
                Ok(stream) => stream,
                Err(OpenFault::Blocked(_)) => return Ok(()),
                Err(fault) => return Err(Close::new(INTERNAL_ERROR, &fault.to_string())),
            };
            // A path is short, and a new stream has room for it.
            let request = match self.is_hq {
                true => &format!("GET /{}\r\n", path.trim_start_matches('/')),
                false => path,
            };
            end.write(stream, request.as_bytes()).map_err(internal)?;
            end.finish(stream).map_err(internal)?;
            if let Some(path) = self.wanted.pop_front() {
                self.running.insert(stream, (path, Vec::new()));
            }
        }
        Ok(())
    }
}

impl Application for RawClient {
    const NO_ERROR: u64 = NO_ERROR;

    fn progress(&mut self, end: &mut Endpoint) -> Result<(), Close> {
        for (stream, (path, mut bytes)) in std::mem::take(&mut self.running) {
            match read_more(end, stream, &mut bytes, usize::MAX).map_err(internal)? {
                Came::All => self.loaded.push((path, Some(bytes))),
                Came::Reset(_) => self.loaded.push((path, None)),
                Came::Some | Came::TooMuch => {
                    self.running.insert(stream, (path, bytes));
                }
            }
        }
        self.begin(end)?;
        match self.wanted.is_empty() && self.running.is_empty() {
            true => Err(Close::new(NO_ERROR, "all is loaded")),
            false => Ok(()),
        }
    }
}
