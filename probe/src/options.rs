//! The command line.

use lexopt::prelude::*;
use std::ffi::OsString;
use std::net::{SocketAddr, ToSocketAddrs};
use std::path::PathBuf;
use std::time::Duration;

pub const USAGE: &str = "\
usage: gotsavena-probe --server 'CMD {port}' [OPTION..]
       gotsavena-probe --client 'CMD {port}' [OPTION..]
       gotsavena-probe --address HOST:PORT [OPTION..]
       gotsavena-probe --list
       gotsavena-probe --vectors FOLDER

  --alpn NAME            the protocol (h3)
  --sni NAME             the server's name (localhost)
  --timeout SECONDS      how long the program may take to begin, and a handshake (5)
  --case NAME..          these cases alone; 'NAME*' is each that begins so
  --random SEED N        N random scripts beside
  --jobs N               so many cases at once (12)
  --least N              how many cases have to be judged (nine in ten of those that apply)
  --name NAME            whose differences of the file are meant
  --expect FILE          the differences that are accepted
  --json FILE            a record of all; '-' is standard output
  --junit FILE           the same as JUnit has it
  --version-command CMD  what it prints is in the record
  --beyond-loopback      addresses of others are probed, too
  --help, --version

status: 0, or 1 where a difference is new or an accepted one is gone, 2 for a wrong command line, 3 where it could not be judged";

#[derive(Clone, Debug)]
pub enum Target {
    Server(String),
    Client(String),
    Address(SocketAddr),
}

#[derive(Clone, Debug)]
pub enum Task {
    Help,
    Version,
    List,
    Vectors(PathBuf),
    Probe(Box<Options>),
}

#[derive(Clone, Debug)]
pub struct Options {
    pub target: Target,
    pub alpn: String,
    pub sni: String,
    pub timeout: Duration,
    pub cases: Vec<String>,
    pub random: Option<(u64, u64)>,
    pub jobs: usize,
    pub least: Option<usize>,
    pub name: Option<String>,
    pub expect: Option<PathBuf>,
    pub json: Option<PathBuf>,
    pub junit: Option<PathBuf>,
    pub version_command: Option<String>,
}

#[derive(Default)]
struct Draft {
    targets: Vec<(String, bool)>,
    address: Option<String>,
    beyond: bool,
    task: Option<Task>,
}

/// # Errors
///
/// Says what makes no sense.
pub fn read(words: Vec<OsString>) -> Result<Task, String> {
    let mut parser = lexopt::Parser::from_args(words);
    let mut draft = Draft::default();
    let mut options = Options::usual();
    let text = |error: lexopt::Error| error.to_string();
    loop {
        let name = match parser.next().map_err(text)? {
            Some(Long(name)) => name.to_owned(),
            Some(other) => return Err(text(other.unexpected())),
            None => break,
        };
        take(&mut parser, &name, &mut draft, &mut options).map_err(text)?;
    }
    if let Some(task) = draft.task {
        return Ok(task);
    }
    options.target = target(&draft)?;
    Ok(Task::Probe(Box::new(options)))
}

impl Options {
    fn usual() -> Options {
        Options {
            target: Target::Server(String::new()),
            alpn: "h3".to_owned(),
            sni: "localhost".to_owned(),
            timeout: Duration::from_secs(5),
            cases: Vec::new(),
            random: None,
            jobs: 12,
            least: None,
            name: None,
            expect: None,
            json: None,
            junit: None,
            version_command: None,
        }
    }
}

fn take(
    parser: &mut lexopt::Parser,
    name: &str,
    draft: &mut Draft,
    options: &mut Options,
) -> Result<(), lexopt::Error> {
    match name {
        "help" => draft.task = Some(Task::Help),
        "version" => draft.task = Some(Task::Version),
        "list" => draft.task = Some(Task::List),
        "vectors" => draft.task = Some(Task::Vectors(parser.value()?.into())),
        "server" => draft.targets.push((parser.value()?.into_string()?, true)),
        "client" => draft.targets.push((parser.value()?.into_string()?, false)),
        "address" => draft.address = Some(parser.value()?.into_string()?),
        "beyond-loopback" => draft.beyond = true,
        "alpn" => options.alpn = parser.value()?.into_string()?,
        "sni" => options.sni = parser.value()?.into_string()?,
        "timeout" => options.timeout = Duration::from_secs(parser.value()?.parse()?),
        "case" => {
            let values = parser.values()?;
            for value in values {
                options.cases.push(value.into_string()?);
            }
        }
        "random" => {
            let seed = parser.value()?.parse()?;
            options.random = Some((seed, parser.value()?.parse()?));
        }
        "jobs" => options.jobs = parser.value()?.parse::<usize>()?.max(1),
        "least" => options.least = Some(parser.value()?.parse()?),
        "name" => options.name = Some(parser.value()?.into_string()?),
        "expect" => options.expect = Some(parser.value()?.into()),
        "json" => options.json = Some(parser.value()?.into()),
        "junit" => options.junit = Some(parser.value()?.into()),
        "version-command" => options.version_command = Some(parser.value()?.into_string()?),
        _ => return Err(Long(name).unexpected()),
    }
    Ok(())
}

fn target(draft: &Draft) -> Result<Target, String> {
    match (&draft.targets[..], &draft.address) {
        ([(command, _)], None) if !command.contains("{port}") => Err(format!(
            "'{command}' has no {{port}}: it isn't known where it would listen"
        )),
        ([(command, true)], None) => Ok(Target::Server(command.clone())),
        ([(command, false)], None) => Ok(Target::Client(command.clone())),
        ([], Some(text)) => address(text, draft.beyond).map(Target::Address),
        _ => Err("one of --server, --client and --address is wanted".to_owned()),
    }
}

fn address(text: &str, beyond: bool) -> Result<SocketAddr, String> {
    let found = text.to_socket_addrs().into_iter().flatten().next();
    let found = found.ok_or_else(|| format!("{text} is no address, such as 127.0.0.1:4433"))?;
    match found.ip().is_loopback() || beyond {
        true => Ok(found),
        false => Err(format!(
            "{found} is not of the loopback: a server may end by what is sent to it. --beyond-loopback permits it"
        )),
    }
}

#[cfg(test)]
mod tests {
    use super::*;

    fn refusal(words: &[&str]) -> String {
        read(words.iter().map(OsString::from).collect()).unwrap_err()
    }

    #[test]
    fn what_makes_no_sense_is_said() {
        for (words, wanted) in [
            (&["--server", "x"][..], "has no {port}"),
            (&[], "is wanted"),
            (
                &["--server", "x {port}", "--address", "127.0.0.1:1"],
                "is wanted",
            ),
            (&["--address", "192.0.2.1:4433"], "not of the loopback"),
            (&["--address", "nothing"], "is no address"),
            (&["--jobs", "many", "--address", "127.0.0.1:1"], "many"),
            (&["--speed", "1"], "--speed"),
            (&["server"], "server"),
        ] {
            let refusal = refusal(words);
            assert!(refusal.contains(wanted), "{words:?}: {refusal}");
        }
    }

    #[test]
    fn several_cases_may_stand_behind_one_word() {
        let words = [
            "--address",
            "127.0.0.1:1",
            "--case",
            "a",
            "b*",
            "--jobs",
            "3",
        ];
        let Ok(Task::Probe(options)) = read(words.iter().map(OsString::from).collect()) else {
            panic!("it is refused");
        };
        assert_eq!((options.cases.len(), options.jobs), (2, 3));
    }
}
