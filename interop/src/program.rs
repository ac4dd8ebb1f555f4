//! What the programs have in common: words of the command line, messages and statuses.

use crate::budget;
use crate::certificate::Identity;
use crate::connection::{ClientSetup, Config, Connection};
use crate::fault::Outcome;
use crate::log::{flush, say, tell};
use crate::packet::VERSION_1;
use crate::tls::{client_config, take_only};
use gotsavena::{Settings, Tuning};
use std::collections::BTreeMap;
use std::fmt::Display;
use std::io::ErrorKind;
use std::net::{SocketAddr, ToSocketAddrs, UdpSocket};
use std::panic::{AssertUnwindSafe, catch_unwind};
use std::path::Path;
use std::process::ExitCode;
use std::sync::atomic::{AtomicBool, Ordering};
use std::sync::mpsc::channel;
use std::thread;
use std::time::{Duration, Instant};

/// The stream layer's own bound.
const MOST_STREAMS: u64 = 1 << 21;

/// HTTP/3 needs so many for itself (RFC 9114, section 6.2).
const LEAST_UNI: u64 = 3;

static TELLS_MORE: AtomicBool = AtomicBool::new(false);

#[derive(Debug)]
pub enum Refusal {
    /// The command line makes no sense: status 2.
    Usage(String),
    /// Something else failed: status 1.
    Failure(String),
}

impl Refusal {
    pub fn failure(what: impl Display) -> Refusal {
        Refusal::Failure(what.to_string())
    }
}

/// How a script that starts a program is called: its words are told of then, and not the program's.
const CALLED: &str = "INTEROP_CALLED";

#[derive(Debug, Default)]
pub struct Words {
    options: BTreeMap<String, String>,
    asks_for_help: bool,
    asks_for_version: bool,
    pub rest: Vec<String>,
}

pub fn tell_more(line: &str) {
    if TELLS_MORE.load(Ordering::Relaxed) {
        tell(line);
    }
}

/// Runs a program: `usage` begins with its name, has all of its options, and is told where its words make no sense. Every program knows
/// `--qlog`, `--cipher`, `--verbose`, `--help` and `--version`.
pub fn run(usage: &str, main: impl FnOnce(Words) -> Result<(), Refusal>) -> ExitCode {
    let usage =
        format!("{usage} [--qlog FOLDER] [--cipher SUITE] [--verbose] [--help] [--version]");
    let answer = |words: Words| {
        if words.asks_for_help {
            println!("usage: {usage}");
        } else if words.asks_for_version {
            let name = usage.split(' ').next().unwrap_or_default();
            println!("{name} {}", env!("CARGO_PKG_VERSION"));
        } else {
            return main(words);
        }
        Ok(())
    };
    std::panic::set_hook(Box::new(|panic| tell(panic)));
    let answered = || words(std::env::args().skip(1), &usage).and_then(answer);
    let status = match catch_unwind(AssertUnwindSafe(answered)) {
        Ok(Ok(())) => 0,
        Ok(Err(Refusal::Usage(reason))) => {
            match std::env::var(CALLED) {
                Ok(script) => tell(format_args!(
                    "{reason}; {script} --help tells what there is"
                )),
                Err(_) => tell(format_args!("{reason}\nusage: {usage}")),
            }
            2
        }
        Ok(Err(Refusal::Failure(reason))) => {
            tell(reason);
            1
        }
        Err(_) => 101,
    };
    flush();
    ExitCode::from(status)
}

// An option has its value in the same word, behind `=`, or in the next one. Behind `--` there are none.
fn words(mut given: impl Iterator<Item = String>, usage: &str) -> Result<Words, Refusal> {
    let mut words = Words::default();
    while let Some(word) = given.next() {
        let Some(option) = word.strip_prefix("--") else {
            words.rest.push(word);
            continue;
        };
        let (name, value) = match option.split_once('=') {
            Some((name, value)) => (name, Some(value.to_owned())),
            None => (option, None),
        };
        match (name, &value) {
            ("", None) => words.rest.extend(given.by_ref()),
            ("help", None) => words.asks_for_help = true,
            ("version", None) => words.asks_for_version = true,
            ("verbose", None) => TELLS_MORE.store(true, Ordering::Relaxed),
            ("help" | "version" | "verbose", Some(_)) => {
                return Err(Refusal::Usage(format!("--{name} has no value")));
            }
            _ if !usage.contains(&format!("[--{name} "))
                && !usage.contains(&format!(" --{name} ")) =>
            {
                return Err(Refusal::Usage(format!("there is no option --{name}")));
            }
            _ => {
                let lacking = || Refusal::Usage(format!("--{name} lacks its value"));
                let value = value.or_else(|| given.next()).ok_or_else(lacking)?;
                words.options.insert(name.to_owned(), value);
            }
        }
    }
    if let Some(folder) = words.options.remove("qlog") {
        let refused = |error| Refusal::Failure(format!("{folder} can't be written into: {error}"));
        crate::qlog::write_into(&folder).map_err(refused)?;
    }
    if let Some(name) = words.options.remove("cipher") {
        take_only(&name)?;
    }
    Ok(words)
}

impl Words {
    pub fn option(&mut self, name: &str) -> Option<String> {
        self.options.remove(name)
    }

    pub fn has(&self, name: &str) -> bool {
        self.options.contains_key(name)
    }

    /// The number that an option has, or the usual one.
    pub fn number(&mut self, name: &str, usual: u64) -> Result<u64, Refusal> {
        match self.option(name) {
            Some(value) => value
                .parse()
                .map_err(|_| Refusal::Usage(format!("--{name} {value} is no number"))),
            None => Ok(usual),
        }
    }

    /// The words that are no options: exactly so many.
    pub fn exactly<const N: usize>(&self) -> Result<[String; N], Refusal> {
        let count = self.rest.len();
        let rest = self.rest.clone().try_into();
        rest.map_err(|_| Refusal::Usage(format!("{count} words where {N} are expected")))
    }

    /// How many connections a server has at most: `--connections N`.
    pub fn connections(&mut self) -> Result<usize, Refusal> {
        match self.number("connections", 10_000)? {
            0 => Err(Refusal::Usage(
                "a server has 1 connection at least".to_owned(),
            )),
            count => Ok(usize::try_from(count).unwrap_or(usize::MAX)),
        }
    }

    /// The version that a client tries first: `--quic-version HEX`.
    pub fn quic_version(&mut self) -> Result<u32, Refusal> {
        match self.option("quic-version") {
            Some(text) => u32::from_str_radix(&text, 16)
                .map_err(|_| Refusal::Usage(format!("--quic-version {text} is no version"))),
            None => Ok(VERSION_1),
        }
    }

    /// What a server is known by: `--cert FILE` with `--key FILE`, or `--identity FOLDER`, in which it is kept; else it is made anew.
    pub fn identity(&mut self) -> Result<Identity, Refusal> {
        let options = ["cert", "key", "identity"].map(|name| self.option(name));
        match options
            .each_ref()
            .map(|option| option.as_ref().map(Path::new))
        {
            [Some(certificate), Some(key), None] => Identity::read(certificate, key),
            [None, None, Some(folder)] => Identity::kept(folder),
            [None, None, None] => Identity::new().map_err(|_| Refusal::failure("no random bytes")),
            _ => {
                let reason = "--cert and --key go together, and --identity without these";
                Err(Refusal::Usage(reason.to_owned()))
            }
        }
    }
}

pub fn addresses(text: &str) -> Result<Vec<SocketAddr>, Refusal> {
    match (text.to_socket_addrs(), text.rsplit_once(':')) {
        (Ok(found), _) if found.len() > 0 => Ok(found.collect()),
        (Err(error), Some((host, port))) if port.parse::<u16>().is_ok() && !host.is_empty() => {
            let reason = format!("{host} can't be resolved: {error}");
            Err(Refusal::Failure(reason))
        }
        _ => Err(Refusal::Usage(format!(
            "{text} is no address, such as 127.0.0.1:8853"
        ))),
    }
}

pub fn address(text: &str) -> Result<SocketAddr, Refusal> {
    addresses(text).map(|found| found[0])
}

/// A socket on an address, which is told on standard output: with the port 0 the system chooses one.
pub fn listen(text: &str) -> Result<UdpSocket, Refusal> {
    let wanted = address(text)?;
    let socket = UdpSocket::bind(wanted)
        .map_err(|error| Refusal::Failure(format!("{wanted} can't be listened on: {error}")))?;
    let own = socket.local_addr().map_err(Refusal::failure)?;
    say(format_args!("listening on {own}"));
    Ok(socket)
}

/// Sockets on some addresses, where the port 0 of a later one is the port of the first. One that the system has not, such as `[::1]`
/// where there is no IPv6, is left out and told. A warning tells of one that isn't of the loopback.
pub fn listen_on_all(texts: &[String]) -> Result<Vec<UdpSocket>, Refusal> {
    let mut sockets: Vec<UdpSocket> = Vec::new();
    for text in texts {
        let mut wanted = address(text)?;
        if let (Some(first), 0) = (sockets.first(), wanted.port()) {
            wanted.set_port(first.local_addr().map_err(Refusal::failure)?.port());
        }
        if !wanted.ip().is_loopback() {
            tell(format_args!(
                "warning: {wanted} is not of the loopback: whoever reaches it is served, by an example"
            ));
        }
        let refused = |error| Refusal::Failure(format!("{wanted} can't be listened on: {error}"));
        match UdpSocket::bind(wanted) {
            Ok(socket) => sockets.push(socket),
            Err(error) if error.kind() == ErrorKind::AddrNotAvailable && !sockets.is_empty() => {
                tell(format_args!("{wanted} isn't listened on: {error}"));
            }
            Err(error) => return Err(refused(error)),
        }
    }
    for socket in &sockets {
        let own = socket.local_addr().map_err(Refusal::failure)?;
        say(format_args!("listening on {own}"));
    }
    Ok(sockets)
}

/// What a connection for files is made with: `--window BYTES` is the window of the connection, and of a stream as far as one goes,
/// where `--stream-window BYTES` doesn't say otherwise; such a window stays, and others grow by themselves, a stream's up to 16 MiB, or
/// to `--most-window BYTES`;
/// `--streams N` how many the peer may open at once, of which the stream layer allows 2,097,152 in all; `--idle SECONDS` after how long a
/// silence it ends.
pub fn config(words: &mut Words) -> Result<Config, Refusal> {
    let stays = words.has("window") || words.has("stream-window");
    let window = words.number("window", 1 << 22)?;
    let stream_window = words.number("stream-window", window.min(1 << 20))?;
    let most_window = words.number("most-window", if stays { 0 } else { 1 << 24 })?;
    let (streams, lifetime) = streams(words)?;
    let idle = words.number("idle", 30)?;
    let is_stream_window = (1..=1 << 28).contains(&stream_window) && most_window <= 1 << 28;
    if !(1..=1 << 32).contains(&window) || !is_stream_window {
        let reason = "a window has 1 to 4294967296 bytes, and that of a stream 1 to 268435456";
        return Err(Refusal::Usage(reason.to_owned()));
    }
    let settings = Settings::default()
        .conn_window(window)
        .stream_windows(stream_window)
        .bidi_remote_window(stream_window.min(1 << 16))
        .send_buffer(budget::OF_STREAM)
        .bidi_streams(streams, lifetime)
        .uni_streams(streams.max(LEAST_UNI), MOST_STREAMS);
    Ok(Config {
        settings,
        tuning: Tuning::default(),
        most_window,
        idle: Duration::from_secs(idle),
        connections: 1,
    })
}

/// What a server of files makes its connections with.
pub fn serving(config: Config, words: &mut Words) -> Result<Config, Refusal> {
    Ok(Config {
        tuning: Tuning::default().send_window(Some(budget::OF_CONNECTION)),
        connections: words.connections()?,
        ..config
    })
}

/// A panic of one ends the program, so that no server goes on with half its threads.
pub fn run_all<T>(tasks: impl Iterator<Item = T>) -> Result<(), Refusal>
where
    T: FnOnce() -> Result<(), Refusal> + Send + 'static,
{
    let (done, results) = channel();
    for task in tasks {
        let done = done.clone();
        thread::spawn(move || {
            let panicked = |_| Err(Refusal::failure("the program has a fault, and ends"));
            let result = catch_unwind(AssertUnwindSafe(task)).unwrap_or_else(panicked);
            _ = done.send(result);
        });
    }
    drop(done);
    results.iter().collect()
}

/// A server has a file for each answer, and a system lets a program have few by default.
pub fn raise_file_limit() {
    if let Err(error) = rlimit::increase_nofile_limit(u64::MAX) {
        tell(format_args!("the limit of open files stays: {error}"));
    }
}

/// How many streams the peer may open at once, `--streams N`, and in all, `--lifetime N`.
pub fn streams(words: &mut Words) -> Result<(u64, u64), Refusal> {
    let streams = words.number("streams", 100)?;
    let lifetime = words.number("lifetime", MOST_STREAMS)?;
    if !(1..=4096).contains(&streams) || !(1..=MOST_STREAMS).contains(&lifetime) {
        let reason = format!(
            "the peer may open 1 to 4096 streams at once, and 1 to {MOST_STREAMS} in a connection's life"
        );
        return Err(Refusal::Usage(reason));
    }
    Ok((streams.min(lifetime), lifetime))
}

pub fn client(
    protocol: &[u8],
    name: &str,
    version: u32,
    config: Config,
) -> Result<Connection, Refusal> {
    // TLS has no name for a bare address: the certificate isn't looked at anyway.
    let is_address = name
        .trim_matches(['[', ']'])
        .parse::<std::net::IpAddr>()
        .is_ok();
    let setup = ClientSetup {
        tls: client_config(&[protocol]),
        name: if is_address { "localhost" } else { name }.to_owned(),
        version,
    };
    Connection::client(setup, config, Instant::now()).map_err(Refusal::failure)
}

/// A connection that ended otherwise than by this end's own wish is a failure.
pub fn expect_close(outcome: &Outcome, code: u64) -> Result<(), Refusal> {
    match outcome {
        Outcome::Closed(close) if close.code == code => Ok(()),
        outcome => Err(Refusal::Failure(format!("the connection ended: {outcome}"))),
    }
}

/// Writes a file into a folder, under the last part of its path.
pub fn save(folder: &str, path: &str, bytes: &[u8]) -> Result<(), Refusal> {
    let name = path.rsplit('/').next().filter(|name| !name.is_empty());
    let file = Path::new(folder).join(name.unwrap_or("index.html"));
    std::fs::write(&file, bytes)
        .map_err(|error| Refusal::Failure(format!("{} can't be written: {error}", file.display())))
}

pub fn tell_speed(bytes: usize, time: Duration) {
    let seconds = time.as_secs_f64().max(1e-9);
    let speed = bytes as f64 / 1e6 / seconds;
    println!("{bytes} bytes in {seconds:.3} s: {speed:.2} MB/s");
}

#[cfg(test)]
mod tests {
    use super::*;

    #[test]
    fn words_are_read_in_their_usual_forms() {
        let read = |line: &str| {
            words(
                line.split(' ').map(str::to_owned),
                "it [--port N] [--cert A --key B] [--qlog F] X",
            )
        };
        let mut found = read("--port=1 a --key 2 -- --port --b").unwrap();
        assert_eq!(found.rest, ["a", "--port", "--b"]);
        assert_eq!(
            ["port", "key"].map(|name| found.option(name).unwrap()),
            ["1", "2"]
        );
        for (line, wanted) in [
            ("--por 1", "there is no option --por"),
            ("--bogus", "there is no option --bogus"),
            ("a --port", "--port lacks its value"),
            ("--help=1", "--help has no value"),
        ] {
            assert!(
                matches!(read(line), Err(Refusal::Usage(told)) if told == wanted),
                "{line}"
            );
        }
        assert!(matches!(read("--qlog /no/such"), Err(Refusal::Failure(_))));
    }

    #[test]
    fn a_task_that_panics_ends_all() {
        let wait = || {
            thread::sleep(Duration::from_secs(60));
            Ok(())
        };
        let tasks: [Box<dyn FnOnce() -> Result<(), Refusal> + Send>; 2] =
            [Box::new(wait), Box::new(|| panic!("of the test"))];
        let begin = Instant::now();
        let refusal = run_all(tasks.into_iter()).unwrap_err();
        assert!(matches!(refusal, Refusal::Failure(text) if text.contains("has a fault")));
        assert!(begin.elapsed() < Duration::from_secs(30));
        assert!(run_all([|| Ok(()), || Ok(())].into_iter()).is_ok());
    }
}
