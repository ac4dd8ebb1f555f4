//! Random scripts of `qstream random`, played over this crate's ends, print what `qstream play` of the proved program prints.
//!
//! Where no proved program stands that is newer than its sources (`./qstream build` builds it) the test tells so and compares nothing: the
//! program of `rust/qstream` is made of the same modules as this crate, so it would agree with whatever they do.

mod support;

use gotsavena::Settings;
use std::path::Path;
use std::process::Command;
use support::Player;

const SCRIPTS: u64 = 500;

fn printed(program: &Path, words: &[&str]) -> String {
    let output = Command::new(program).args(words).output();
    let output = output.unwrap_or_else(|error| panic!("{}: {error}", program.display()));
    assert!(output.status.success(), "{words:?}: {:?}", output.status);
    String::from_utf8(output.stdout).expect("text")
}

#[test]
fn random_scripts_print_the_same() {
    let program = match support::program::proved() {
        Ok(program) => program,
        Err(why) => {
            println!("skipped: {why}");
            println!("0 scripts, 0 events");
            return;
        }
    };
    println!("compared with {}", program.display());
    let folder = std::env::temp_dir().join(format!("gotsavena-{}", std::process::id()));
    std::fs::create_dir_all(&folder).expect("a folder");
    let file = folder.join("script");
    let mut events = 0;
    for seed in 0..SCRIPTS {
        let count = 50 + seed % 7 * 75;
        let script = printed(&program, &["random", &seed.to_string(), &count.to_string()]);
        std::fs::write(&file, &script).expect("a file");
        let expected = printed(&program, &["play", &file.to_string_lossy()]);
        let played = Player::new(Settings::small()).play(&script);
        assert_eq!(played, expected, "script {seed} of {count} events");
        events += script.lines().count();
    }
    std::fs::remove_dir_all(&folder).expect("the folder");
    println!("{SCRIPTS} scripts, {events} events");
    println!("figure transcript_events {events}");
}
