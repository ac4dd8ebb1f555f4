//! What is told of a run: lines, a record, JUnit; and which differences are new or gone.

use crate::outcome::{Class, Outcome};
use crate::run::Judged;
use html_escape::encode_safe;
use serde::{Deserialize, Serialize};
use std::collections::BTreeMap;
use std::fmt::Write as _;
use std::path::Path;

#[derive(Clone, Debug, Deserialize)]
#[serde(deny_unknown_fields)]
pub struct Difference {
    /// Of which program, where the file is one for several.
    pub server: Option<String>,
    pub case: String,
    pub outcome: String,
    #[allow(dead_code)]
    pub reason: String,
}

#[derive(Default, Deserialize)]
#[serde(deny_unknown_fields)]
struct Known {
    #[serde(default)]
    difference: Vec<Difference>,
}

/// The differences that are accepted, of the program of this name.
///
/// # Errors
///
/// Says what of the file can't be read.
pub fn known(file: &Path, name: Option<&str>) -> Result<Vec<Difference>, String> {
    let told = |error: &dyn std::fmt::Display| format!("{}: {error}", file.display());
    let text = std::fs::read_to_string(file).map_err(|error| told(&error))?;
    let known: Known = toml::from_str(&text).map_err(|error| told(&error))?;
    let mut all = known.difference;
    all.retain(|one| one.server.is_none() || one.server.as_deref() == name);
    Ok(all)
}

impl Outcome {
    /// As a list of accepted differences has it.
    pub fn line(&self) -> String {
        format!("{}: {}", self.class, self.told)
    }
}

/// The differences that aren't accepted, and the accepted ones that are gone.
pub struct News {
    pub new: Vec<String>,
    pub gone: Vec<String>,
}

pub fn compare(judged: &[Judged], known: &[Difference]) -> News {
    let is_known = |one: &Judged| {
        let mut all = known.iter();
        all.any(|known| known.case == one.name && known.outcome == one.outcome.line())
    };
    let differs = judged
        .iter()
        .filter(|one| one.outcome.class.is_difference());
    let new = differs.filter(|one| !is_known(one));
    let gone = known.iter().filter(|known| {
        judged.iter().any(|one| {
            one.name == known.case
                && one.outcome.line() != known.outcome
                && !one.by_order
                && one.outcome.class != Class::NotRun
        })
    });
    News {
        new: new
            .map(|one| format!("{}: {}", one.name, one.outcome.line()))
            .collect(),
        gone: gone
            .map(|known| format!("{}: {}", known.case, known.outcome))
            .collect(),
    }
}

/// How many cases there are of each class.
pub fn counts(judged: &[Judged]) -> BTreeMap<Class, usize> {
    let mut counts = BTreeMap::new();
    for one in judged {
        *counts.entry(one.outcome.class).or_default() += 1;
    }
    counts
}

pub fn line(one: &Judged) -> String {
    let mut line = format!("{:14} {}", one.outcome.class, one.name);
    if one.outcome.class != Class::AsExpected {
        _ = write!(line, ": {}", one.outcome.told);
    }
    if let (true, Some(last)) = (one.outcome.class.is_difference(), one.payloads.last()) {
        _ = write!(line, "\n{:14}   where {}", "", last.permitted);
    }
    line
}

/// What a record says of the program.
#[derive(Clone, Debug, Serialize)]
pub struct About {
    pub tool: &'static str,
    pub version: &'static str,
    pub program: String,
    pub says: Option<String>,
}

#[derive(Serialize)]
struct Record<'a> {
    #[serde(flatten)]
    about: &'a About,
    cases: Vec<Case<'a>>,
}

#[derive(Serialize)]
struct Case<'a> {
    case: &'a str,
    class: Class,
    outcome: String,
    seconds: f64,
    by_order: bool,
    payloads: &'a [crate::play::Played],
}

pub fn json(about: &About, judged: &[Judged]) -> String {
    let cases = judged.iter().map(|one| Case {
        case: &one.name,
        class: one.outcome.class,
        outcome: one.outcome.line(),
        seconds: (one.seconds * 1000.0).round() / 1000.0,
        by_order: one.by_order,
        payloads: &one.payloads,
    });
    let record = Record {
        about,
        cases: cases.collect(),
    };
    serde_json::to_string_pretty(&record).expect("a record has text alone") + "\n"
}

/// A difference that isn't accepted is a failure there, and a case that didn't run is an error.
pub fn junit(about: &About, judged: &[Judged], news: &News) -> String {
    let mut out = String::from("<?xml version=\"1.0\" encoding=\"UTF-8\"?>\n");
    let is_new = |one: &Judged| {
        let line = format!("{}: {}", one.name, one.outcome.line());
        news.new.contains(&line)
    };
    let failures = judged.iter().filter(|one| is_new(one)).count();
    let count = |class| {
        judged
            .iter()
            .filter(|one| one.outcome.class == class)
            .count()
    };
    _ = writeln!(
        out,
        "<testsuite name=\"{}\" tests=\"{}\" failures=\"{failures}\" errors=\"{}\" skipped=\"{}\">",
        encode_safe(&about.program),
        judged.len(),
        count(Class::NotRun),
        count(Class::NotApplicable),
    );
    for one in judged {
        let told = encode_safe(&one.outcome.told).into_owned();
        let inner = match one.outcome.class {
            Class::NotApplicable => format!("<skipped message=\"{told}\"/>"),
            Class::NotRun => format!("<error message=\"{told}\"/>"),
            class if is_new(one) => format!("<failure type=\"{class}\" message=\"{told}\"/>"),
            _ => String::new(),
        };
        _ = writeln!(
            out,
            "<testcase classname=\"gotsavena-probe\" name=\"{}\" time=\"{:.3}\">{inner}</testcase>",
            encode_safe(&one.name),
            one.seconds,
        );
    }
    out + "</testsuite>\n"
}
