//! An HTTP/3 server of the files of a folder, on one address or several. It tells how Chromium and Firefox are led to it.

use gotsavena_interop::budget::{self, Budget};
use gotsavena_interop::files::Folder;
use gotsavena_interop::h3::server::FileServer;
use gotsavena_interop::h3::{PROTOCOL, look_at_library};
use gotsavena_interop::log::say;
use gotsavena_interop::program::{
    self, Refusal, Words, config, listen_on_all, raise_file_limit, run_all, serving,
};
use gotsavena_interop::server::Server;
use gotsavena_interop::stop::Stop;
use gotsavena_interop::tls::server_config;
use std::process::ExitCode;

fn main() -> ExitCode {
    program::run(
        "h3-server [--cert FILE --key FILE | --identity FOLDER] [--window BYTES] [--stream-window BYTES] [--most-window BYTES] [--streams N] [--lifetime N] [--connections N] [--idle SECONDS] DIR ADDR..",
        serve,
    )
}

fn serve(mut words: Words) -> Result<(), Refusal> {
    look_at_library()?;
    let config = config(&mut words)?;
    let config = serving(config, &mut words)?;
    let identity = words.identity()?;
    let [root, addresses @ ..] = words.rest.as_slice() else {
        return Err(Refusal::Usage(
            "a folder and addresses are expected".to_owned(),
        ));
    };
    if addresses.is_empty() {
        return Err(Refusal::Usage("an address is expected".to_owned()));
    }
    let folder = Folder::open(root)
        .map_err(|error| Refusal::Failure(format!("{root} can't be opened: {error}")))?;
    let hashes = identity.key_hash().zip(identity.fingerprint());
    let tls = server_config(identity, &[PROTOCOL])?;
    raise_file_limit();
    let sockets = listen_on_all(addresses)?;
    if let (Some((of_key, of_certificate)), Some(socket)) = (hashes, sockets.first()) {
        let port = socket.local_addr().map_err(Refusal::failure)?.port();
        tell_chromium(&of_key, port);
        tell_firefox(&of_certificate, port);
    }
    let budget = Budget::new(budget::OF_ALL);
    let stop = Stop::by_signals().map_err(Refusal::failure)?;
    // Each socket has a thread, and the connections that come by it.
    let servers = sockets.into_iter().map(|socket| {
        let (tls, stop) = (tls.clone(), stop.clone());
        let (folder, budget) = (folder.clone(), budget.clone());
        let make = move |peer| FileServer::new(folder.clone(), &budget, peer);
        move || {
            let server = Server::new(socket, tls, config, make);
            let ended = server.and_then(|mut server| server.run(&stop));
            ended.map_err(Refusal::failure)
        }
    });
    run_all(servers)
}

// Chromium takes a certificate that it can't know by the hash of its key.
fn tell_chromium(hash: &str, port: u16) {
    let url = format!("https://localhost:{port}/");
    say(format_args!("{url}"));
    say(format_args!("the key of the certificate: sha256/{hash}"));
    say(format_args!(
        "chromium --user-data-dir=/tmp/gotsavena-chromium --origin-to-force-quic-on=localhost:{port} \
         --ignore-certificate-errors-spki-list={hash} {url}"
    ));
}

// Firefox finds in its folder where HTTP/3 is spoken, the certificate that it is to take there, and that it may be one of nobody's.
fn tell_firefox(hash: &str, port: u16) {
    let folder = "/tmp/gotsavena-firefox";
    let pref = "network.http.http3.";
    let sha256 = "OID.2.16.840.1.101.3.4.2.1";
    say(format_args!(
        "mkdir -p {folder} && \
         printf 'localhost:{port}:\\t{sha256}\\t{hash}\\t\\n' >{folder}/cert_override.txt && \
         echo 'user_pref(\"{pref}alt-svc-mapping-for-testing\", \"localhost;h3=:{port}\"); \
         user_pref(\"{pref}force-use-alt-svc-mapping-for-testing\", true); \
         user_pref(\"{pref}disable_when_third_party_roots_found\", false);' >{folder}/user.js && \
         firefox --profile {folder} https://localhost:{port}/"
    ));
}
