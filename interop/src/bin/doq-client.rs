//! A client of name servers over QUIC (RFC 9250): asks for the records of names, of one type, all at once, on one connection or as many
//! as the server asks for. A line tells each name, the code of its answer, and the records.

use gotsavena::{Settings, Tuning};
use gotsavena_interop::client::run_errand;
use gotsavena_interop::connection::Config;
use gotsavena_interop::dns::{Name, TYPE_A, TYPE_AAAA, TYPE_TXT};
use gotsavena_interop::doq::{Asker, NO_ERROR, PROTOCOL};
use gotsavena_interop::program::{self, Refusal, Words, addresses, client};
use std::net::{Ipv4Addr, Ipv6Addr};
use std::process::ExitCode;
use std::time::Duration;

fn main() -> ExitCode {
    program::run(
        "doq-client [--type A | AAAA | TXT] [--idle SECONDS] [--quic-version HEX] ADDR NAME..",
        ask,
    )
}

fn ask(mut words: Words) -> Result<(), Refusal> {
    let version = words.quic_version()?;
    let idle = Duration::from_secs(words.number("idle", 30)?);
    let kind = words.option("type").unwrap_or_else(|| "A".to_owned());
    let kind = type_of(&kind)?;
    let [server, names @ ..] = words.rest.as_slice() else {
        return Err(Refusal::Usage(
            "an address and names are expected".to_owned(),
        ));
    };
    if names.is_empty() {
        return Err(Refusal::Usage("a name is expected".to_owned()));
    }
    let names = names.iter().map(|text| {
        let name = Name::of_text(text, &Name::root());
        name.ok_or_else(|| Refusal::Usage(format!("{text} is no name")))
    });
    let mut asker = Asker::new(names.collect::<Result<_, _>>()?, kind);
    let settings = Settings::default()
        .conn_window(1 << 20)
        .stream_windows(1 << 16)
        .bidi_streams(0, 0)
        .uni_streams(0, 0);
    let config = Config {
        settings,
        tuning: Tuning::default(),
        most_window: 0,
        connections: 1,
        idle,
    };
    let make = || client(PROTOCOL, "localhost", version, config);
    let connections = run_errand(&addresses(server)?, make, &mut asker, NO_ERROR)?;
    for (name, reply) in &asker.answers {
        let records = reply.records.iter().map(|(kind, data)| shown(*kind, data));
        let records: Vec<String> = records.collect();
        println!("{name} {} {}", reply.code, records.join(" "));
    }
    println!(
        "{} answers over {connections} connections",
        asker.answers.len()
    );
    Ok(())
}

fn type_of(text: &str) -> Result<u16, Refusal> {
    match text {
        "A" => Ok(TYPE_A),
        "AAAA" => Ok(TYPE_AAAA),
        "TXT" => Ok(TYPE_TXT),
        other => Err(Refusal::Usage(format!("--type {other} isn't known"))),
    }
}

// A record's data; of other types as RFC 3597, section 5, has it.
fn shown(kind: u16, data: &[u8]) -> String {
    if let (TYPE_A, Ok(bytes)) = (kind, <[u8; 4]>::try_from(data)) {
        return Ipv4Addr::from(bytes).to_string();
    }
    if let (TYPE_AAAA, Ok(bytes)) = (kind, <[u8; 16]>::try_from(data)) {
        return Ipv6Addr::from(bytes).to_string();
    }
    if let (TYPE_TXT, [_, text @ ..]) = (kind, data) {
        return format!("{:?}", text.escape_ascii().to_string());
    }
    let digits: String = data.iter().map(|byte| format!("{byte:02x}")).collect();
    format!("\\# {} {digits}", data.len())
}
