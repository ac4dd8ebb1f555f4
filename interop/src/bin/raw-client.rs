//! A client of files without HTTP: loads each path into a folder, under the path's last part. With `--connections N` it opens N connections
//! before, and closes them once all stand. With `--protocol hq-interop` it asks by HTTP/0.9.

use gotsavena_interop::client::{connect_often, visit};
use gotsavena_interop::program::{
    self, Refusal, Words, addresses, client, config, expect_close, save,
};
use gotsavena_interop::raw::{HQ, NO_ERROR, PROTOCOL, RawClient};
use std::process::ExitCode;
use std::time::Instant;

fn main() -> ExitCode {
    program::run(
        "raw-client [--protocol hq-interop] [--connections N] [--window BYTES] [--stream-window BYTES] [--most-window BYTES] [--streams N] [--lifetime N] [--idle SECONDS] [--quic-version HEX] ADDR DIR PATH..",
        load,
    )
}

fn load(mut words: Words) -> Result<(), Refusal> {
    let config = config(&mut words)?;
    let version = words.quic_version()?;
    let protocol = words.option("protocol");
    let connections = words.number("connections", 0)? as usize;
    let [server, folder, paths @ ..] = words.rest.as_slice() else {
        return Err(Refusal::Usage(
            "an address, a folder and paths are expected".to_owned(),
        ));
    };
    if paths.is_empty() {
        return Err(Refusal::Usage("a path is expected".to_owned()));
    }
    let begin = Instant::now();
    let (name, mut loader) = match protocol.as_deref() {
        None => (PROTOCOL, RawClient::new(paths.to_vec())),
        Some("hq-interop") => (HQ, RawClient::of_hq(paths.to_vec())),
        Some(other) => {
            let reason = format!("--protocol {other} is none that is known: hq-interop");
            return Err(Refusal::Usage(reason));
        }
    };
    let make = || client(name, "localhost", version, config);
    let server = addresses(server)?;
    connect_often(server[0], make, connections)?;
    let outcome = visit(&server, make, &mut loader)?;
    expect_close(&outcome, NO_ERROR)?;
    let time = begin.elapsed();
    let mut bytes = 0;
    for (path, loaded) in &loader.loaded {
        let loaded = loaded
            .as_ref()
            .ok_or_else(|| Refusal::Failure(format!("{path}: the server has no such file")))?;
        bytes += loaded.len();
        save(folder, path, loaded)?;
    }
    program::tell_speed(bytes, time);
    Ok(())
}
