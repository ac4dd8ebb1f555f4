//! gotsavena-probe: see docs/PROBE.md.

use gotsavena_probe::cases::{self, Case};
use gotsavena_probe::options::{self, Options, Target, Task, USAGE};
use gotsavena_probe::outcome::Class;
use gotsavena_probe::random::Script;
use gotsavena_probe::report::{self, About, Difference, News};
use gotsavena_probe::run::{Judged, Run};
use gotsavena_probe::vectors;
use std::io::Write as _;
use std::path::Path;
use std::process::{Command, ExitCode};

/// Statuses beside 0.
const DIFFERS: u8 = 1;
const WRONG_WORDS: u8 = 2;
const NOT_JUDGED: u8 = 3;

/// Why it ends, and with which status.
struct Ends(u8, String);

fn main() -> ExitCode {
    let task = match options::read(std::env::args_os().skip(1).collect()) {
        Ok(task) => task,
        Err(reason) => {
            eprintln!("gotsavena-probe: {reason}\n{USAGE}");
            return ExitCode::from(WRONG_WORDS);
        }
    };
    match done(task) {
        Ok(status) => ExitCode::from(status),
        Err(Ends(status, reason)) => {
            eprintln!("gotsavena-probe: {reason}");
            ExitCode::from(status)
        }
    }
}

fn done(task: Task) -> Result<u8, Ends> {
    match task {
        Task::Help => say(USAGE),
        Task::Version => say(concat!("gotsavena-probe ", env!("CARGO_PKG_VERSION"))),
        Task::List => cases::all().iter().for_each(|case| say(&case.name)),
        Task::Vectors(folder) => {
            let all = vectors::all();
            write(&folder.join("vectors.json"), &all.json())?;
            write(&folder.join("vectors.tsv"), &all.tsv())?;
        }
        Task::Probe(options) => return probe(&options),
    }
    Ok(0)
}

fn say(line: &str) {
    // Whoever reads may have gone.
    _ = writeln!(std::io::stdout(), "{line}");
}

fn probe(options: &Options) -> Result<u8, Ends> {
    let known = match &options.expect {
        Some(file) => report::known(file, options.name.as_deref())
            .map_err(|reason| Ends(WRONG_WORDS, reason))?,
        None => Vec::new(),
    };
    let scripts: Vec<Script> = match options.random {
        Some((seed, count)) => (seed..seed.saturating_add(count))
            .map(Script::new)
            .collect(),
        None => Vec::new(),
    };
    let cases = picked(options, &scripts)?;
    let is_quiet = [&options.json, &options.junit]
        .iter()
        .any(|file| is_stdout(file.as_deref()));
    let tell = |one: &Judged| {
        if !is_quiet {
            say(&report::line(one));
        }
    };
    let not_judged = |reason| Ends(NOT_JUDGED, reason);
    let run = Run::new(options, &cases, &tell).map_err(not_judged)?;
    let mut judged = run.all();
    run.shrink(&mut judged, &scripts);
    drop(run);
    finish(options, &judged, &known, is_quiet)
}

fn is_stdout(file: Option<&Path>) -> bool {
    file.is_some_and(|file| file == Path::new("-"))
}

// Without words all; a word that fits no case is a mistake.
fn picked(options: &Options, scripts: &[Script]) -> Result<Vec<Case>, Ends> {
    let mut all = cases::all();
    all.extend(scripts.iter().map(Script::case));
    if options.cases.is_empty() {
        return Ok(all);
    }
    let fits = |word: &str, name: &str| match word.strip_suffix('*') {
        Some(front) => name.starts_with(front),
        None => name == word,
    };
    for word in &options.cases {
        if !all.iter().any(|case| fits(word, &case.name)) {
            return Err(Ends(
                WRONG_WORDS,
                format!("there is no case {word}; --list has all"),
            ));
        }
    }
    all.retain(|case| options.cases.iter().any(|word| fits(word, &case.name)));
    Ok(all)
}

fn finish(
    options: &Options,
    judged: &[Judged],
    known: &[Difference],
    is_quiet: bool,
) -> Result<u8, Ends> {
    let news = report::compare(judged, known);
    let about = about(options);
    if let Some(file) = &options.json {
        write(file, &report::json(&about, judged))?;
    }
    if let Some(file) = &options.junit {
        write(file, &report::junit(&about, judged, &news))?;
    }
    if !is_quiet {
        tell_scripts(judged);
        tell_all(judged, &news);
    }
    enough(options, judged)?;
    let differs = !news.new.is_empty() || !news.gone.is_empty();
    Ok(if differs { DIFFERS } else { 0 })
}

fn enough(options: &Options, judged: &[Judged]) -> Result<(), Ends> {
    let count = |class| {
        judged
            .iter()
            .filter(|one| one.outcome.class == class)
            .count()
    };
    let apply = judged.len() - count(Class::NotApplicable);
    let ran = apply - count(Class::NotRun);
    let least = options.least.unwrap_or((apply * 9).div_ceil(10));
    if ran < least || ran == 0 {
        let reason = format!(
            "{ran} cases were judged, where at least {} are wanted",
            least.max(1)
        );
        return Err(Ends(NOT_JUDGED, reason));
    }
    Ok(())
}

// What is left of each script that differs.
fn tell_scripts(judged: &[Judged]) {
    for one in judged {
        if one.name.starts_with("random/") && one.outcome.class.is_difference() {
            say(&format!("{} made smaller:", one.name));
            for played in &one.payloads {
                say(&format!("  {}  {}", played.hex, played.permitted));
            }
        }
    }
}

fn tell_all(judged: &[Judged], news: &News) {
    say("");
    for line in &news.new {
        say(&format!("new: {line}"));
    }
    for line in &news.gone {
        say(&format!("gone: {line}"));
    }
    let counts = report::counts(judged);
    let counts: Vec<String> = counts
        .iter()
        .map(|(class, count)| format!("{count} {class}"))
        .collect();
    say(&format!("{} cases: {}", judged.len(), counts.join(", ")));
}

fn about(options: &Options) -> About {
    let says = options.version_command.as_ref().map(|command| {
        let output = Command::new("sh").args(["-c", command]).output();
        let text = output
            .map(|output| [output.stdout, output.stderr].concat())
            .unwrap_or_default();
        String::from_utf8_lossy(&text).trim().to_owned()
    });
    About {
        tool: "gotsavena-probe",
        version: env!("CARGO_PKG_VERSION"),
        program: match &options.target {
            Target::Server(command) | Target::Client(command) => command.clone(),
            Target::Address(address) => address.to_string(),
        },
        says,
    }
}

fn write(file: &Path, text: &str) -> Result<(), Ends> {
    let written = match is_stdout(Some(file)) {
        true => std::io::stdout().write_all(text.as_bytes()),
        false => std::fs::write(file, text),
    };
    written.map_err(|error| {
        Ends(
            NOT_JUDGED,
            format!("{} can't be written: {error}", file.display()),
        )
    })
}
