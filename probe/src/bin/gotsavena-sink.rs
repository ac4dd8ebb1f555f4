//! gotsavena-sink ADDR, or gotsavena-sink --connect ADDR for a client: over our streams what each sink of `peers/` does. It reads and drops
//! every stream, answers "ok" on each bidirectional one that ends, and opens one stream of either direction with "hi". Its windows are
//! options, as of raw-server.

use gotsavena::{Dir, Endpoint, Read, StreamId};
use gotsavena_interop::client::visit;
use gotsavena_interop::connection::Config;
use gotsavena_interop::fault::Close;
use gotsavena_interop::packet::VERSION_1;
use gotsavena_interop::program::{self, Refusal, Words, listen};
use gotsavena_interop::raw::PROTOCOL;
use gotsavena_interop::server::Server;
use gotsavena_interop::stop::Stop;
use gotsavena_interop::streams::{Application, Body, Outgoing, abandon};
use gotsavena_interop::tls::server_config;
use std::collections::BTreeMap;
use std::process::ExitCode;

/// The code with which a stream's answer is given up.
const GIVEN_UP: u64 = 9;

#[derive(Default)]
struct Sink {
    has_begun: bool,
    /// What wasn't granted yet goes later.
    answers: BTreeMap<StreamId, Outgoing>,
}

impl Application for Sink {
    const NO_ERROR: u64 = 0;

    fn progress(&mut self, end: &mut Endpoint) -> Result<(), Close> {
        if !self.has_begun {
            self.has_begun = true;
            for dir in [Dir::Uni, Dir::Bidi] {
                if let Ok(stream) = end.open(dir) {
                    _ = end.write(stream, b"hi");
                }
            }
        }
        let mut from = StreamId::new(0);
        while let Some(stream) = from.and_then(|from| end.next_readable(from)) {
            self.drain(end, stream);
            from = stream.next();
        }
        self.answers
            .retain(|stream, answer| matches!(answer.write(end, *stream, GIVEN_UP), Ok(false)));
        Ok(())
    }
}

impl Sink {
    fn drain(&mut self, end: &mut Endpoint, stream: StreamId) {
        let mut buffer = [0; 4096];
        loop {
            match end.read(stream, &mut buffer) {
                Ok(Read::Bytes(_)) => continue,
                Ok(Read::End) if stream.dir() == Dir::Bidi => {
                    let answer = Outgoing::new(Body::of_bytes(b"ok".to_vec()));
                    self.answers.insert(stream, answer);
                }
                Ok(Read::Reset(_)) if stream.dir() == Dir::Bidi => {
                    _ = abandon(end, stream, GIVEN_UP);
                }
                _ => {}
            }
            return;
        }
    }
}

fn main() -> ExitCode {
    program::run(
        "gotsavena-sink [--cert FILE --key FILE] [--connections N] [--window BYTES] [--stream-window BYTES] [--streams N] ADDR, or --connect ADDR",
        run,
    )
}

fn run(mut words: Words) -> Result<(), Refusal> {
    let config = program::config(&mut words)?;
    match words.option("connect") {
        Some(server) => connect(&words, &server, config),
        None => serve(words, config),
    }
}

fn connect(words: &Words, server: &str, config: Config) -> Result<(), Refusal> {
    let [] = words.exactly()?;
    let make = || program::client(PROTOCOL, "localhost", VERSION_1, config);
    visit(&program::addresses(server)?, make, &mut Sink::default()).map(|_| ())
}

fn serve(mut words: Words, config: Config) -> Result<(), Refusal> {
    let config = program::serving(config, &mut words)?;
    let identity = words.identity()?;
    let [address] = words.exactly()?;
    let tls = server_config(identity, &[PROTOCOL])?;
    let socket = listen(&address)?;
    let stop = Stop::by_signals().map_err(Refusal::failure)?;
    let server = Server::new(socket, tls, config, |_| Sink::default());
    let mut server = server.map_err(Refusal::failure)?;
    server.run(&stop).map_err(Refusal::failure)
}
