//! Makes the Rust sources of gotsavena from the proved ones, without their contracts and proofs.
//!
//! It reads `crates/*/src/**/*.rt`, and of the tests that aren't proved `tests/units/*/src/**/*.rattle`, and writes `rust/src/proved`,
//! `rust/qstream/src/proved` and `rust/capi/src/proved`. With the word `--check` it writes nothing, and fails if a file isn't what it would
//! write.

mod display;
mod erase;
mod inline;
mod lex;
mod require;
#[cfg(test)]
mod tests;

use crate::erase::{Place, erase};
use std::collections::BTreeMap;
use std::path::{Path, PathBuf};
use std::process::ExitCode;
use std::{env, fs};

/// The crates of the library. Only in these do short functions become `#[inline]`, since a user's crate calls them.
const LIBRARY: [&str; 8] = [
    "qs_wire",
    "qs_ranges",
    "qs_recv",
    "qs_send",
    "qs_calls",
    "qs_machine",
    "qs_streams",
    "qs_conn",
];

const LIBRARY_FOLDER: &str = "rust/src/proved";

/// The crates of the program, and one that tests use.
const PROGRAM: [&str; 8] = [
    "qs_text",
    "qs_script",
    "qs_request",
    "qs_world",
    "qs_trace",
    "qs_cli",
    "qs_tool",
    "qs_chunks",
];

/// The crates that are nothing but tests, and aren't proved.
const TESTS: [&str; 3] = ["qs_units", "qs_ends", "qs_tests"];

const PROGRAM_FOLDER: &str = "rust/qstream/src/proved";

const CALLS: [&str; 1] = ["qs_c"];

const CALLS_FOLDER: &str = "rust/capi/src/proved";

struct Sources {
    folder: &'static str,
    kind: &'static str,
}

const PROVED: Sources = Sources {
    folder: "crates",
    kind: "rt",
};

const TRIED: Sources = Sources {
    folder: "tests/units",
    kind: "rattle",
};

fn main() -> ExitCode {
    let top = Path::new(env!("CARGO_MANIFEST_DIR")).join("../..");
    let is_check = env::args().skip(1).any(|word| word == "--check");
    match run(&top, is_check) {
        Ok(count) => {
            println!("erase: {count} files");
            ExitCode::SUCCESS
        }
        Err(message) => {
            eprintln!("erase: {message}");
            ExitCode::FAILURE
        }
    }
}

fn run(top: &Path, is_check: bool) -> Result<usize, String> {
    let sets: [(&[&str], &Sources, &str); 4] = [
        (&LIBRARY, &PROVED, LIBRARY_FOLDER),
        (&CALLS, &PROVED, CALLS_FOLDER),
        (&PROGRAM, &PROVED, PROGRAM_FOLDER),
        (&TESTS, &TRIED, PROGRAM_FOLDER),
    ];
    let erased: Vec<&str> = sets.iter().flat_map(|set| set.0).copied().collect();
    let mut made = BTreeMap::new();
    for (crates, sources, folder) in sets {
        for krate in crates {
            make(top, krate, sources, &erased, folder, &mut made)?;
        }
    }
    for folder in [LIBRARY_FOLDER, CALLS_FOLDER, PROGRAM_FOLDER] {
        keep_only(top, Path::new(folder), &made, is_check)?;
    }
    for (path, text) in &made {
        put(&top.join(path), text, is_check)?;
    }
    Ok(made.len())
}

fn make(
    top: &Path,
    krate: &str,
    sources: &Sources,
    erased: &[&str],
    folder: &str,
    made: &mut BTreeMap<PathBuf, String>,
) -> Result<(), String> {
    let source = Path::new(sources.folder).join(krate).join("src");
    let mut laws_alone = false;
    // By name, so that `laws` comes first: where it has laws alone, and so is left out, `lib` loses the line that names it.
    for path in files(&top.join(&source), sources.kind)? {
        let inner = path
            .strip_prefix(top.join(&source))
            .map_err(|e| e.to_string())?;
        let from = source.join(inner);
        let stem = inner.with_extension("");
        let text = fs::read_to_string(&path).map_err(|e| format!("{}: {e}", from.display()))?;
        let place = Place {
            krate,
            erased,
            laws: stem == Path::new("laws"),
            laws_alone,
            program: stem == Path::new("main"),
            inlines: LIBRARY.contains(&krate),
        };
        let rust = erase(&place, &text).map_err(|unknown| {
            let line = text[..unknown.at].matches('\n').count() + 1;
            format!("{}:{line}: {}", from.display(), unknown.what)
        })?;
        if place.laws && rust.lines().all(is_no_code) {
            laws_alone = true;
            continue;
        }
        let to = if stem == Path::new("lib") || stem == Path::new("main") {
            PathBuf::from("mod.rs")
        } else {
            inner.with_extension("rs")
        };
        let head = format!(
            "// Made from {} by rust/erase; not edited by hand.\n",
            from.display()
        );
        made.insert(Path::new(folder).join(krate).join(to), head + &rust);
    }
    Ok(())
}

fn is_no_code(line: &str) -> bool {
    line.is_empty() || line.starts_with("//")
}

/// Files that no source stands for any more are taken away, so that none stays behind after a move. The modules' root is made by hand.
fn keep_only(
    top: &Path,
    folder: &Path,
    made: &BTreeMap<PathBuf, String>,
    is_check: bool,
) -> Result<(), String> {
    if !top.join(folder).exists() {
        return Ok(());
    }
    for path in files(&top.join(folder), "rs")? {
        let inner = path.strip_prefix(top).map_err(|e| e.to_string())?;
        if made.contains_key(inner) || inner == folder.join("mod.rs") {
            continue;
        }
        if is_check {
            return Err(format!("{} is made from nothing", inner.display()));
        }
        fs::remove_file(&path).map_err(|e| format!("{}: {e}", inner.display()))?;
    }
    Ok(())
}

fn put(path: &Path, text: &str, is_check: bool) -> Result<(), String> {
    let told = |e: &dyn std::fmt::Display| format!("{}: {e}", path.display());
    if fs::read_to_string(path).is_ok_and(|old| old == text) {
        return Ok(());
    }
    if is_check {
        return Err(told(&"it isn't what would be made"));
    }
    if let Some(folder) = path.parent() {
        fs::create_dir_all(folder).map_err(|e| told(&e))?;
    }
    fs::write(path, text).map_err(|e| told(&e))
}

fn files(folder: &Path, kind: &str) -> Result<Vec<PathBuf>, String> {
    let told = |e: std::io::Error| format!("{}: {e}", folder.display());
    let mut found = Vec::new();
    for entry in fs::read_dir(folder).map_err(told)? {
        let path = entry.map_err(told)?.path();
        if path.is_dir() {
            found.append(&mut files(&path, kind)?);
        } else if path.extension().is_some_and(|it| it == kind) {
            found.push(path);
        }
    }
    found.sort();
    Ok(found)
}
