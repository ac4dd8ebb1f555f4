//! A server of files without HTTP: the bytes of a stream are a path, the answer is the file; or by HTTP/0.9 (ALPN hq-interop).

use gotsavena_interop::files::Folder;
use gotsavena_interop::program::{self, Refusal, Words, config, listen, raise_file_limit, serving};
use gotsavena_interop::raw::{HQ, PROTOCOL, RawServer};
use gotsavena_interop::server::Server;
use gotsavena_interop::stop::Stop;
use gotsavena_interop::tls::server_config;
use std::process::ExitCode;

fn main() -> ExitCode {
    program::run(
        "raw-server [--cert FILE --key FILE | --identity FOLDER] [--window BYTES] [--stream-window BYTES] [--most-window BYTES] [--streams N] [--lifetime N] [--connections N] [--idle SECONDS] DIR ADDR",
        serve,
    )
}

fn serve(mut words: Words) -> Result<(), Refusal> {
    let config = config(&mut words)?;
    let config = serving(config, &mut words)?;
    let identity = words.identity()?;
    let [root, address] = words.exactly()?;
    let folder = Folder::open(&root)
        .map_err(|error| Refusal::Failure(format!("{root} can't be opened: {error}")))?;
    let tls = server_config(identity, &[PROTOCOL, HQ])?;
    raise_file_limit();
    let socket = listen(&address)?;
    let stop = Stop::by_signals().map_err(Refusal::failure)?;
    let make = move |_| RawServer::new(folder.clone());
    let server = Server::new(socket, tls, config, make);
    let mut server = server.map_err(Refusal::failure)?;
    server.run(&stop).map_err(Refusal::failure)
}
