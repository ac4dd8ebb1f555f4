// Made from crates/qs_request/src/command_line.rt by rust/erase; not edited by hand.
//! What the command line asks for.

use crate::shim::String;

use crate::proved::qs_request::usage::{VERSION, beyond, refusal_of, refused};
use crate::shim::clap::{Arg, ArgAction, ArgMatches, Command};
use crate::proved::qs_calls::Settings;
use crate::proved::qs_script::standard_settings;
use crate::shim::alloc::{AllocError, Global};

/// The most events of a random script.
const MAX_EVENTS: u64 = 10_000;

/// How many streams of each direction an endpoint grants at first, at most and if nothing else is asked for.
const MAX_GRANT: u64 = 4096;

const USUAL_GRANT: u64 = 8;

/// How many it grants in all, at most.
const MAX_LIFETIME: u64 = 65_536;

/// Why the words ask for nothing.
#[derive(Debug)]
pub enum Refusal {
    /// They make no sense, or ask for help. The text, without its last line's end, is what helps.
    BadUsage(String),
    /// Memory was refused.
    NoMemory,
}

/// What the program is asked to do.
#[derive(Clone, Copy)]
pub enum Request<'a> {
    /// Show the frames of the payload that the word spells in hex.
    Frames(&'a str),
    /// Play the script in the file of that name, between two endpoints of these settings, and lead them to rest if that is asked for. The
    /// traces of both go to files, if a name is given for these.
    Play {
        file: &'a str,
        settings: Settings,
        drain: bool,
        qlog: Option<&'a str>,
    },
    /// Play the script in the file of that name, with its packets over UDP. The traces of both go to files, as above.
    Udp {
        file: &'a str,
        qlog: Option<&'a str>,
    },
    /// Show a script of `n` random events, at most 10,000, which the seed determines.
    Random {
        seed: u64,
        n: usize,
    },
}

impl<'a> Request<'a> {
    /// What the words ask for, the program's name first. `BadUsage` if they make no sense or ask for help, `NoMemory` if memory was
    /// refused.
    pub fn parse(alloc: Global, words: &'a [String]) -> Result<Request<'a>, Refusal> {
        let Ok(command) = command(alloc) else {
            return Err(Refusal::NoMemory);
        };
        let matches = match command.try_get_matches_from(words) {
            Ok(matches) => matches,
            Err(error) => return Err(refusal_of(alloc, &error, words)),
        };
        match matches.subcommand() {
            Some((name, found)) => asked_for(alloc, name, found),
            None => Err(refused(alloc, "COMMAND", "", "it is missing")),
        }
    }
}

/// What a subcommand of that name asks for with these arguments.
fn asked_for<'a>(alloc: Global, name: &str, found: &ArgMatches<'a>) -> Result<Request<'a>, Refusal> {
    match name {
        "frames" => Ok(Request::Frames(word(alloc, found, "HEX")?)),
        "play" => {
            let settings = settings(alloc, found.get_str("G"), found.get_str("L"))?;
            Ok(Request::Play {
                file: word(alloc, found, "FILE")?,
                settings,
                drain: found.get_flag("drain"),
                qlog: found.get_str("OUT"),
            })
        }
        "udp" => Ok(Request::Udp {
            file: word(alloc, found, "FILE")?,
            qlog: found.get_str("OUT"),
        }),
        "random" => {
            let seed = word(alloc, found, "SEED")?;
            let n = word(alloc, found, "N")?;
            Ok(Request::Random {
                seed: number(alloc, "SEED", seed, u64::MAX)?,
                n: number(alloc, "N", n, MAX_EVENTS)? as usize,
            })
        }
        _ => Err(refused(alloc, "COMMAND", name, "it is none")),
    }
}

/// The word of an argument that is required.
fn word<'a>(alloc: Global, found: &ArgMatches<'a>, name: &str) -> Result<&'a str, Refusal> {
    match found.get_str(name) {
        Some(word) => Ok(word),
        None => Err(refused(alloc, name, "", "it is missing")),
    }
}

/// Those of endpoints that grant so many streams of each direction at first, and so many in all. If these aren't named, 8 at first, and 8
/// in all or as many as at first.
fn settings(alloc: Global, grant: Option<&str>, lifetime: Option<&str>) -> Result<Settings, Refusal> {
    let first = number_or(alloc, "--grant", grant, USUAL_GRANT, MAX_GRANT)?;
    let usual = first.max(USUAL_GRANT);
    let all = number_or(alloc, "--lifetime", lifetime, usual, MAX_LIFETIME)?;
    if all < first {
        let word = lifetime.unwrap_or("");
        return Err(beyond(alloc, "--lifetime", word, "at least", first));
    }
    Ok(Settings {
        grant_bidi: first,
        grant_uni: first,
        lifetime_bidi: all,
        lifetime_uni: all,
        ..standard_settings()
    })
}

/// The number of an option, or the usual one where it isn't named.
fn number_or(
    alloc: Global,
    name: &str,
    word: Option<&str>,
    usual: u64,
    most: u64,
) -> Result<u64, Refusal> {
    match word {
        Some(word) => number(alloc, name, word, most),
        None => Ok(usual),
    }
}

/// The number that the word spells in decimal digits alone, at most `most`. Leading zeros are allowed, a sign isn't.
fn number(alloc: Global, name: &str, word: &str, most: u64) -> Result<u64, Refusal> {
    if word.is_empty() || !are_digits(word.as_bytes()) {
        return Err(refused(alloc, name, word, "no number"));
    }
    match word.parse() {
        Ok(number) if number <= most => Ok(number),
        _ => Err(beyond(alloc, name, word, "at most", most)),
    }
}

fn are_digits(word: &[u8]) -> bool {
    word.iter().all(|byte| byte.is_ascii_digit())
}

fn frames_command<'a>(alloc: Global) -> Result<Command<'a>, AllocError> {
    Command::new(alloc, "frames").arg(Arg::new(alloc, "HEX").required(true))
}

/// A subcommand that plays the script in a file.
fn script_command<'a>(alloc: Global, name: &'a str) -> Result<Command<'a>, AllocError> {
    Command::new(alloc, name)
        .arg(Arg::new(alloc, "FILE").required(true))?
        .arg(Arg::new(alloc, "OUT").long("qlog"))
}

fn play_command<'a>(alloc: Global) -> Result<Command<'a>, AllocError> {
    script_command(alloc, "play")?
        .arg(Arg::new(alloc, "G").long("grant"))?
        .arg(Arg::new(alloc, "L").long("lifetime"))?
        .arg(
            Arg::new(alloc, "drain")
                .long("drain")
                .action(ArgAction::SetTrue),
        )
}

fn random_command<'a>(alloc: Global) -> Result<Command<'a>, AllocError> {
    Command::new(alloc, "random")
        .arg(Arg::new(alloc, "SEED").required(true))?
        .arg(Arg::new(alloc, "N").required(true))
}

fn command<'a>(alloc: Global) -> Result<Command<'a>, AllocError> {
    Command::new(alloc, "qstream")
        .version(VERSION)
        .subcommand_required(true)
        .subcommand(frames_command(alloc)?)?
        .subcommand(play_command(alloc)?)?
        .subcommand(script_command(alloc, "udp")?)?
        .subcommand(random_command(alloc)?)
}
