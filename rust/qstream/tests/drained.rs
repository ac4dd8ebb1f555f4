//! Scripts, random and short ones, each led to rest by `--drain`, against a plain count of what should have arrived.

use std::collections::{BTreeMap, BTreeSet};
use std::fs;
use std::path::{Path, PathBuf};
use std::process::Command;

const SCRIPTS: u64 = 300;

/// The window of a connection in every script.
const WINDOW: u64 = 4096;

/// Short scripts, each of which one slip would leave stuck or short of credit; parts follow one another, and `KB` stands for 1,024 bytes.
const SHORT: [(&str, &[&str]); 13] = [
    (
        "three readers stop",
        &[
            "open A bidi, write A 0 KB, make A 1200, deliver A 0, stop B 0 7",
            "open A bidi, write A 4 KB, make A 1200, deliver A 1, stop B 4 7",
            "open A bidi, write A 8 KB, make A 1200, deliver A 2, stop B 8 7",
        ],
    ),
    (
        "three readers stop who know the size",
        &[
            "open A bidi, write A 0 KB, finish A 0, make A 1200, deliver A 0, stop B 0 7",
            "open A bidi, write A 4 KB, finish A 4, make A 1200, deliver A 1, stop B 4 7",
            "open A bidi, write A 8 KB, finish A 8, make A 1200, deliver A 2, stop B 8 7",
        ],
    ),
    (
        "three streams are reset of which nothing was read",
        &[
            "open A bidi, write A 0 KB, make A 1200, deliver A 0, reset A 0 7",
            "open A bidi, write A 4 KB, make A 1200, deliver A 1, reset A 4 7",
            "open A bidi, write A 8 KB, make A 1200, deliver A 2, reset A 8 7",
        ],
    ),
    (
        "the packet with a raised limit is lost",
        &[
            "open A bidi, write A 0 KB, make A 1200, deliver A 0, read B 0 1024",
            "make B 128, lose B 0, write A 0 cd",
        ],
    ),
    (
        "a limit rises again, once the first rise is acknowledged",
        &[
            "open A bidi, write A 0 KB, make A 1200, deliver A 0, read B 0 1024",
            "make B 128, deliver B 0, make A 128, deliver A 1",
            "write A 0 KB, make A 1200, deliver A 2, read B 0 1024, write A 0 cd",
        ],
    ),
    (
        "three quarters of a window are read",
        &[
            "open A bidi, write A 0 KB, open A bidi, write A 4 KB",
            "open A bidi, write A 8 KB",
        ],
    ),
    (
        "a byte more than a window is written",
        &["open A bidi, write A 0 KB, write A 0 cd"],
    ),
    (
        "all credit is in lost packets",
        &[
            "open A bidi, write A 0 KB, make A 1200, open A bidi, write A 4 KB, make A 1200",
            "open A bidi, write A 8 KB, make A 1200, open A bidi, write A 12 KB, make A 1200",
        ],
    ),
    (
        "a stream is finished once every byte is acknowledged",
        &[
            "open A bidi, write A 0 ab, make A 128, deliver A 0, make B 128, deliver B 0, finish A 0",
        ],
    ),
    (
        "a stream is reset of which nothing was sent",
        &["open A bidi, reset A 0 7"],
    ),
    (
        "the packet with a stop is lost",
        &["open A bidi, write A 0 ab, make A 128, deliver A 0, stop B 0 7, make B 128, lose B 0"],
    ),
    (
        "finished streams use all credit up",
        &[
            "open A bidi, write A 0 KB, finish A 0, open A bidi, write A 4 KB, finish A 4",
            "open A bidi, write A 8 KB, finish A 8, open A bidi, write A 12 KB, finish A 12",
            "open A bidi, write A 16 cd",
        ],
    ),
    (
        "the end that came is declared lost, at the stream's limit",
        &[
            "open A bidi, write A 0 KB, make A 1200, lose A 0, finish A 0, make A 1200",
            "deliver A 0, make B 128, deliver A 1, make B 128, lose A 1, deliver B 0, read B 0 1024",
        ],
    ),
];

/// The sender of a stream's direction, and the stream's number.
type Lane = (String, String);

fn said(folder: &Path, words: &[&str]) -> String {
    let output = Command::new(env!("CARGO_BIN_EXE_qstream"))
        .args(words)
        .current_dir(folder)
        .output()
        .expect("the program");
    assert!(output.status.success(), "{words:?}: {}", output.status);
    String::from_utf8(output.stdout).expect("text")
}

fn peer(side: &str) -> &'static str {
    if side == "A" { "B" } else { "A" }
}

/// What was written and read, in hex, and which directions were finished, or reset or stopped, by the lines of the events alone.
#[derive(Default)]
struct Count {
    written: BTreeMap<Lane, String>,
    read: BTreeMap<Lane, String>,
    finished: BTreeSet<Lane>,
    broken: BTreeSet<Lane>,
}

impl Count {
    fn of(events: &[&str]) -> Count {
        let mut count = Count::default();
        for line in events {
            let (event, answer) = line.split_once(" -> ").expect("an answer");
            let event: Vec<&str> = event.split(' ').collect();
            count.take(&event, answer);
        }
        count
    }

    fn take(&mut self, event: &[&str], answer: &str) {
        let own = |side: &str, stream: &str| (side.to_owned(), stream.to_owned());
        match *event {
            ["write", side, stream, hex] => {
                let Some(taken) = answer.strip_prefix("wrote ") else {
                    return;
                };
                let taken: usize = taken.parse().expect("a count");
                let all = self.written.entry(own(side, stream)).or_default();
                all.push_str(&hex[..2 * taken]);
            }
            ["read", side, stream, _] => {
                let Some(hex) = answer.strip_prefix("bytes ") else {
                    return;
                };
                let all = self.read.entry(own(peer(side), stream)).or_default();
                all.push_str(hex);
            }
            ["finish", side, stream] if answer == "ok" => {
                self.finished.insert(own(side, stream));
            }
            ["reset", side, stream, _] if answer == "ok" => {
                self.broken.insert(own(side, stream));
            }
            ["stop", side, stream, _] if answer == "ok" => {
                self.broken.insert(own(peer(side), stream));
            }
            _ => {}
        }
    }
}

/// All that was written on a direction that was neither reset nor stopped was read. It answers how many such there were.
fn arrived(what: &str, count: &Count) -> usize {
    let mut whole = 0;
    for (lane, written) in &count.written {
        let read = count.read.get(lane).map_or("", String::as_str);
        assert!(written.starts_with(read), "{what}: {lane:?} read otherwise");
        if !count.broken.contains(lane) {
            assert_eq!(written, read, "{what}: {lane:?} didn't arrive");
            whole += 1;
        }
    }
    whole
}

/// The number that follows a word of a line.
fn after(line: &str, name: &str) -> u64 {
    let mut words = line.split(' ').skip_while(|word| *word != name);
    words.next().expect("the word");
    words.next().and_then(|word| word.parse().ok()).expect(name)
}

/// What that end sent: of each of its directions the size that it declared, or else all that was written.
fn sent(report: &[&str], side: &str) -> u64 {
    let lanes = report
        .iter()
        .filter(|line| line.starts_with(&format!("lane {side} ")));
    lanes
        .map(|line| {
            let name = if line.contains(" declared none ") {
                "written"
            } else {
                "declared"
            };
            after(line, name)
        })
        .sum()
}

/// Both ends know the size of a direction that was finished, reset or stopped, and its sender knows that one which was finished alone
/// arrived. Each end spent what the other one sent, stores none of it, and has granted more than half of a window beyond it.
fn nothing_is_left(what: &str, count: &Count, report: &[&str]) {
    for line in report.iter().filter(|line| line.starts_with("lane ")) {
        let words: Vec<&str> = line.split(' ').collect();
        let lane = (words[1].to_owned(), words[2].to_owned());
        let (_, sizes) = line.split_once(" declared ").expect("a size");
        let (declared, known) = sizes.split_once(" known ").expect("another one");
        let (finished, broken) = (count.finished.contains(&lane), count.broken.contains(&lane));
        assert_eq!(declared, known, "{what}: {line}");
        assert_eq!(declared != "none", finished || broken, "{what}: {line}");
        if !broken {
            assert_eq!(line.contains(" received yes "), finished, "{what}: {line}");
        }
    }
    for side in ["A", "B"] {
        let line = report
            .iter()
            .find(|line| line.starts_with(&format!("end {side} ")))
            .expect("a line of the end");
        let spent = after(line, "spent");
        assert_eq!(spent, sent(report, peer(side)), "{what}: {line}");
        assert_eq!(after(line, "stored"), 0, "{what}: {line}");
        assert!(
            2 * (after(line, "granted") - spent) > WINDOW,
            "{what}: {line}"
        );
    }
}

/// The plain events after the script are no more than the contract of `World::drain` has it (docs/PROOF.md): one for each packet that was
/// lost first, eight for each thing that can be done for good, and thirteen. Each window stays as it began.
fn within_the_bound(what: &str, count: &Count, events: &[&str], played: usize) {
    let written: usize = count.written.values().map(|hex| hex.len() / 2).sum();
    let opened = events.iter().filter(|line| line.contains(" -> stream "));
    let opened = opened.filter(|line| line.starts_with("open ")).count();
    let plain = &events[played..];
    let lost = plain.iter().filter(|line| line.starts_with("lose "));
    let most = 9 * written + 20 * opened + 6;
    let bound = lost.count() + 8 * most + 13;
    assert!(plain.len() <= bound, "{what}: {} events", plain.len());
}

/// The turns of a round, as docs/QSTREAM.md tells them. A turn in which nothing is lost or read has no line; one that makes always has.
const ROUND: [&str; 6] = [
    "A loses", "A makes", "B loses", "B makes", "A reads", "B reads",
];

/// Whose turn a line belongs to.
fn turn_of(line: &str) -> usize {
    let mut words = line.split(' ');
    let (Some(what), Some(side)) = (words.next(), words.next()) else {
        panic!("no event: {line}");
    };
    let does = match what {
        "lose" => "loses",
        "make" | "deliver" => "makes",
        "read" => "reads",
        _ => panic!("no event of a plain round: {line}"),
    };
    let turn = ROUND
        .iter()
        .position(|turn| *turn == format!("{side} {does}"));
    turn.expect("A or B")
}

/// The plain events go through the turns of a round one after the other, and leave out none that makes.
fn plays_rounds(what: &str, plain: &[&str]) {
    let mut at = 0;
    for line in plain {
        let turn = turn_of(line);
        while at != turn {
            let next = (at + 1) % ROUND.len();
            assert!(
                next == turn || !ROUND[next].ends_with("makes"),
                "{what}: {line} comes before {}",
                ROUND[next]
            );
            at = next;
        }
    }
}

/// The script plays as without plain rounds, and they lead it to rest. It answers how many directions arrived whole.
fn comes_to_rest(folder: &Path, what: &str, script: &str) -> usize {
    fs::write(folder.join("script"), script).expect("a file");
    let plain = said(folder, &["play", "script"]);
    let drained = said(folder, &["play", "script", "--drain"]);
    let plain: Vec<&str> = plain.lines().collect();
    let drained: Vec<&str> = drained.lines().collect();
    let played = script.lines().count();
    assert_eq!(
        plain[..played],
        drained[..played],
        "{what}: the script played otherwise"
    );
    assert_eq!(drained.last(), Some(&"at rest"), "{what}");
    let events = drained.iter().take_while(|line| line.contains(" -> "));
    let (events, report) = drained.split_at(events.count());
    let count = Count::of(events);
    within_the_bound(what, &count, events, played);
    plays_rounds(what, &events[played..]);
    nothing_is_left(what, &count, report);
    arrived(what, &count)
}

fn a_folder(name: &str) -> PathBuf {
    let folder = std::env::temp_dir().join(format!("qstream-{name}-{}", std::process::id()));
    fs::create_dir_all(&folder).expect("a folder");
    folder
}

#[test]
fn the_page_tells_the_round() {
    let page = Path::new(env!("CARGO_MANIFEST_DIR")).join("../../docs/QSTREAM.md");
    let page = fs::read_to_string(page).expect("the page");
    assert!(page.contains(&ROUND.join(", ")));
}

/// Both have lost something and have something to read.
#[test]
fn every_turn_of_a_round_is_played() {
    let folder = a_folder("round");
    let script = "open A bidi\nwrite A 0 ab\nmake A 1200\ndeliver A 0\nwrite B 0 cd\nmake B 1200\nwrite A 0 ef\nmake A 1200\n";
    comes_to_rest(&folder, "a round", script);
    let drained = said(&folder, &["play", "script", "--drain"]);
    let events = drained.lines().take_while(|line| line.contains(" -> "));
    let plain: Vec<&str> = events.skip(script.lines().count()).collect();
    let mut turns: Vec<usize> = plain.iter().map(|line| turn_of(line)).collect();
    turns.dedup();
    assert_eq!(turns[..ROUND.len()], [0, 1, 2, 3, 4, 5]);
    fs::remove_dir_all(&folder).expect("the folder");
}

#[test]
fn short_scripts_come_to_rest() {
    let folder = a_folder("short");
    for (what, parts) in SHORT {
        let lines = parts.iter().flat_map(|part| part.split(", "));
        let script: String = lines.map(|line| format!("{line}\n")).collect();
        comes_to_rest(&folder, what, &script.replace("KB", &"ab".repeat(1024)));
    }
    fs::remove_dir_all(&folder).expect("the folder");
}

#[test]
fn random_scripts_come_to_rest() {
    let folder = a_folder("drained");
    let mut whole = 0;
    for seed in 0..SCRIPTS {
        let script = said(&folder, &["random", &seed.to_string(), "500"]);
        whole += comes_to_rest(&folder, &format!("seed {seed}"), &script);
    }
    fs::remove_dir_all(&folder).expect("the folder");
    println!("{whole} directions of streams arrived whole");
    assert!(whole > 1000, "{whole}");
}
