//! An HTTP/3 client: loads files of one server, all at once, into a folder, on one connection or as many as the server asks for. With `--stop-after BYTES` it stops each
//! file in the middle; with `--resets N` it begins N requests before each file that it breaks off in the middle; with `--unread N` it
//! asks N times for the first file, reads nothing of the answers, and loads the others. With `--urgent PATH` that file is wanted before
//! the others (RFC 9218).

use gotsavena_interop::client::run_errand;
use gotsavena_interop::h3::client::{Loader, Manners, Url};
use gotsavena_interop::h3::{NO_ERROR, PROTOCOL, look_at_library};
use gotsavena_interop::program::{self, Refusal, Words, addresses, client, config, save};
use std::process::ExitCode;
use std::time::Instant;

fn main() -> ExitCode {
    program::run(
        "h3-client [--download DIR] [--stop-after BYTES] [--resets N] [--unread N] [--urgent PATH] [--window BYTES] [--stream-window BYTES] [--most-window BYTES] [--streams N] [--lifetime N] [--idle SECONDS] [--quic-version HEX] URL..",
        load,
    )
}

fn load(mut words: Words) -> Result<(), Refusal> {
    look_at_library()?;
    let config = config(&mut words)?;
    let version = words.quic_version()?;
    let folder = words.option("download");
    let stop_after = words.number("stop-after", u64::MAX)?;
    let resets = words.number("resets", 0)? as usize;
    let unread = words.number("unread", 0)? as usize;
    let urgent = words.option("urgent");
    let (first, urls) = urls(&words.rest)?;
    let begin = Instant::now();
    let manners = Manners {
        stop_after: stop_after as usize,
        resets,
        unread,
        urgent,
    };
    let mut loader = Loader::new(urls, manners);
    let make = || client(PROTOCOL, first.host(), version, config);
    let server = addresses(&first.authority)?;
    let connections = run_errand(&server, make, &mut loader, NO_ERROR)?;
    let time = begin.elapsed();
    finish(&loader, folder.as_deref(), stop_after)?;
    if connections > 1 {
        println!("over {connections} connections");
    }
    program::tell_speed(
        loader.loaded.iter().map(|loaded| loaded.body.len()).sum(),
        time,
    );
    Ok(())
}

// The first URL, and all of them, which are of one server.
fn urls(texts: &[String]) -> Result<(Url, Vec<Url>), Refusal> {
    let urls = texts.iter().map(|text| {
        Url::read(text)
            .ok_or_else(|| Refusal::Usage(format!("{text} isn't https://HOST:PORT/PATH")))
    });
    let urls = urls.collect::<Result<Vec<Url>, Refusal>>()?;
    let Some(first) = urls.first().cloned() else {
        return Err(Refusal::Usage("an URL is expected".to_owned()));
    };
    if urls.iter().any(|url| url.authority != first.authority) {
        return Err(Refusal::Usage("all URLs are of one server".to_owned()));
    }
    Ok((first, urls))
}

// Saves what came whole. What didn't, unasked, is a failure.
fn finish(loader: &Loader, folder: Option<&str>, stop_after: u64) -> Result<(), Refusal> {
    for loaded in &loader.loaded {
        let path = &loaded.url.path;
        if loaded.status != "200" {
            return Err(Refusal::Failure(format!(
                "{path}: status {}",
                loaded.status
            )));
        }
        if !loaded.is_whole && stop_after == u64::MAX {
            return Err(Refusal::Failure(format!("{path}: the server broke it off")));
        }
        if let (Some(folder), true) = (folder, loaded.is_whole) {
            save(folder, path, &loaded.body)?;
        }
    }
    Ok(())
}
