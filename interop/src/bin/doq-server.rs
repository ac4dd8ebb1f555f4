//! A name server over QUIC (RFC 9250): answers from a zone's file.

use gotsavena::{Settings, Tuning};
use gotsavena_interop::connection::Config;
use gotsavena_interop::doq::{NameServer, PROTOCOL};
use gotsavena_interop::program::{self, Refusal, Words, listen, streams};
use gotsavena_interop::server::Server;
use gotsavena_interop::stop::Stop;
use gotsavena_interop::tls::server_config;
use gotsavena_interop::zone::Zone;
use std::process::ExitCode;
use std::sync::Arc;
use std::time::Duration;

fn main() -> ExitCode {
    program::run(
        "doq-server [--cert FILE --key FILE | --identity FOLDER] [--streams N] [--lifetime N] [--connections N] ZONEFILE ADDR",
        serve,
    )
}

fn serve(mut words: Words) -> Result<(), Refusal> {
    let identity = words.identity()?;
    let (at_once, lifetime) = streams(&mut words)?;
    let connections = words.connections()?;
    let [file, address] = words.exactly()?;
    let text = std::fs::read_to_string(&file)
        .map_err(|error| Refusal::Failure(format!("{file} can't be read: {error}")))?;
    let zone = Zone::read(&text).map_err(|fault| Refusal::Failure(format!("{file}, {fault}")))?;
    let zone = Arc::new(zone);
    let tls = server_config(identity, &[PROTOCOL])?;
    // Queries are short: a small window for each stream, and many streams in a connection's life.
    let settings = Settings::default()
        .conn_window(1 << 18)
        .stream_windows(1 << 12)
        .send_buffer(1 << 16)
        .bidi_streams(at_once, lifetime)
        .uni_streams(0, 0);
    let config = Config {
        settings,
        tuning: Tuning::default(),
        most_window: 0,
        connections,
        idle: Duration::from_secs(30),
    };
    let socket = listen(&address)?;
    let stop = Stop::by_signals().map_err(Refusal::failure)?;
    let make = move |_| NameServer::new(zone.clone());
    let server = Server::new(socket, tls, config, make);
    let mut server = server.map_err(Refusal::failure)?;
    server.run(&stop).map_err(Refusal::failure)
}
