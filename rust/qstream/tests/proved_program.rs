//! This program prints what the proved program prints, byte for byte, and ends with its status: random scripts, written
//! ones, frames of payloads, and command lines that make no sense.
//!
//! Where no proved program stands that is newer than its sources the tests tell so and do nothing.

#[path = "../../tests/support/program.rs"]
mod program;

use std::ffi::{OsStr, OsString};
use std::fs;
use std::os::unix::ffi::OsStrExt;
use std::path::{Path, PathBuf};
use std::process::Command;

const SCRIPTS: u64 = 200;

/// What a program printed, what it told on standard error, and its status.
type Said = (Vec<u8>, Vec<u8>, Option<i32>);

/// Both programs, in a folder that they read scripts from.
struct Both {
    proved: PathBuf,
    folder: PathBuf,
    compared: usize,
    statuses: [usize; 4],
}

impl Both {
    fn find(name: &str) -> Option<Both> {
        let proved = match program::proved() {
            Ok(proved) => proved,
            Err(why) => {
                println!("skipped: {why}");
                return None;
            }
        };
        println!("compared with {}", proved.display());
        let folder = std::env::temp_dir().join(format!("qstream-{name}-{}", std::process::id()));
        fs::create_dir_all(&folder).expect("a folder");
        Some(Both {
            proved,
            folder,
            compared: 0,
            statuses: [0; 4],
        })
    }

    fn said(&self, program: &Path, words: &[OsString]) -> Said {
        let output = Command::new(program)
            .args(words)
            .current_dir(&self.folder)
            .output()
            .unwrap_or_else(|error| panic!("{}: {error}", program.display()));
        (output.stdout, output.stderr, output.status.code())
    }

    /// What both say to these words, as text.
    fn say(&mut self, words: &[impl AsRef<OsStr>]) -> String {
        let words: Vec<OsString> = words.iter().map(|it| it.as_ref().to_owned()).collect();
        let ours = self.said(Path::new(env!("CARGO_BIN_EXE_qstream")), &words);
        let theirs = self.said(&self.proved, &words);
        let shown = |said: &Said| {
            let [out, err] =
                [&said.0, &said.1].map(|text| String::from_utf8_lossy(text).into_owned());
            format!("{:?}\n{out}{err}", said.2)
        };
        assert!(
            ours == theirs,
            "{words:?}\nhere: {}\nproved: {}",
            shown(&ours),
            shown(&theirs)
        );
        let status = ours.2.and_then(|it| usize::try_from(it).ok());
        self.statuses[status.expect("it ended by itself")] += 1;
        self.compared += 1;
        String::from_utf8(ours.0).expect("text")
    }

    /// The same of lines of text, with a word for each part between spaces.
    fn say_line(&mut self, line: &str) -> String {
        self.say(&line.split(' ').collect::<Vec<_>>())
    }

    fn put(&self, name: &str, text: impl AsRef<[u8]>) {
        fs::write(self.folder.join(name), text).expect("a file");
    }

    /// At a test's end: how many runs ended with each status, and whether each came that was to come.
    fn tell(self, statuses: [bool; 4]) {
        fs::remove_dir_all(&self.folder).expect("the folder");
        println!(
            "{} runs the same, by status {:?}",
            self.compared, self.statuses
        );
        assert_eq!(self.statuses.map(|count| count > 0), statuses);
    }
}

#[test]
fn random_scripts_say_the_same() {
    let Some(mut both) = Both::find("random") else {
        return;
    };
    for seed in 0..SCRIPTS {
        let count = 20 + seed % 9 * 60;
        let script = both.say_line(&format!("random {seed} {count}"));
        both.put("script", &script);
        let printed = both.say_line("play script");
        match seed % 4 {
            0 => _ = both.say_line(&format!("play script --grant {}", seed % 7)),
            1 => {
                _ = both.say_line(&format!(
                    "play --grant 1 --lifetime {} script",
                    1 + seed % 40
                ))
            }
            2 => _ = both.say_line("udp script"),
            _ => frames_of(&mut both, &printed, seed),
        }
    }
    both.tell([true, true, true, false]);
}

/// The frames of payloads that were made, whole, with one byte changed, and cut off.
fn frames_of(both: &mut Both, printed: &str, seed: u64) {
    let made = printed.lines().filter_map(|line| {
        let (_, made) = line.split_once(" -> packet ")?;
        Some(made.split_once(' ')?.1)
    });
    for hex in made.step_by(5) {
        both.say(&["frames", hex]);
        let at = (seed as usize * 7 + hex.len()) % (hex.len() / 2) * 2;
        let changed = format!("{}{:02x}{}", &hex[..at], seed & 0x3f, &hex[at + 2..]);
        both.say(&["frames", &changed]);
        both.say(&["frames", &hex[..at]]);
        both.say(&["frames", &hex[..=at]]);
    }
}

/// Scripts: those of the documents, each fault, and forms of lines.
const WRITTEN: [&str; 22] = [
    "open A bidi\nwrite A 0 68656c6c6f\nmake A 1200\ndeliver A 0\nread B 0 16\n",
    "",
    "\n\n# nothing\n \n",
    " open  A   uni \r\nwrite A 2 -\r\nfinish A 2\r\nmake A 128\r\ndeliver A 0\r\nread B 2 0\r\nread B 2 1",
    "open A bidi\nhop A\n",
    "open A\n",
    "open A bidi bidi\n",
    "open C bidi\n",
    "open A both\n",
    "accept A\nread A x 1\n",
    "read A 4611686018427387904 1\n",
    "read A 0 65536\n",
    "read A 00000000000000000000 1\n",
    "write A 0 abc\n",
    "write A 0 zz\n",
    "make A 127\nmake A 16384\n",
    "make A 128\ndeliver A 0\n",
    "open A bidi\nreset A 0 4611686018427387903\nmake A 16383\ndeliver A 0\nread B 0 5\nread B 0 5\n",
    "open A bidi\nstop A 0 7\nmake A 200\ndeliver A 0\ndeliver A 0\nwrite B 0 00\nmake B 200\nlose A 0\nlose A 0\n",
    "open B uni\nwrite B 2 00\nread B 3 1\nread A 9 1\nfinish A 0\n",
    "open\u{e9} A bidi\n",
    "open A bidi\nopen A bidi\nopen A bidi\nopen A bidi\nopen A bidi\nopen A bidi\nopen A bidi\nopen A bidi\nopen A bidi\n",
];

#[test]
fn written_scripts_say_the_same() {
    let Some(mut both) = Both::find("written") else {
        return;
    };
    let long = format!("open A bidi\nwrite A 0 {}\n", "00".repeat(65_535));
    let longer = format!("open A bidi\nwrite A 0 {}\n", "00".repeat(65_536));
    let huge = "#".repeat((16 << 20) + 1);
    let whole = &huge[1..];
    for script in WRITTEN.into_iter().chain([&*long, &longer, &huge, whole]) {
        both.put("script", script);
        both.say_line("play script");
        both.say_line("udp script");
    }
    both.put("script", b"open A bidi\n\xff\n");
    both.say_line("play script");
    both.say_line("play nowhere");
    both.say_line("play .");
    both.say_line("udp nowhere");
    both.tell([true, true, false, true]);
}

/// Command lines: their words parted by spaces, so that two spaces have an empty word between them.
const LINES: [&str; 66] = [
    "",
    "help",
    "--help",
    "-h",
    "--version",
    "-V",
    "frames",
    "frames ",
    "frames 0",
    "frames 0g",
    "frames 00 00",
    "frames 00",
    "frames 0X00",
    "frames --",
    "frames -- 00",
    "frames -x",
    "FRAMES 00",
    "frame 00",
    "play",
    "play script script",
    "play script --grant",
    "play script --grant x",
    "play script --grant 4097",
    "play script --grant 4096",
    "play script --grant=3",
    "play --grant 3 script",
    "play script --grant 3 --grant 4",
    "play script --grant -1",
    "play script --grant 9 --lifetime 8",
    "play script --lifetime 65536",
    "play script --lifetime 65537",
    "play script --lifetime 7",
    "play script --lifetime 8",
    "play script --lifetime",
    "play script --other 1",
    "play -- script",
    "udp",
    "udp script script",
    "udp script --grant 1",
    "random",
    "random 1",
    "random 1 10001",
    "random 1 10000",
    "random 1 0",
    "random x 1",
    "random 18446744073709551615 3",
    "random 18446744073709551616 3",
    "random 1 2 3",
    "help play",
    "help hop",
    "play --help",
    "frames -h",
    "-xh",
    "-hx",
    "--help=x",
    "--hop",
    "-- frames",
    "-- hop",
    "play script --grant --hop",
    "play script --grant --drain",
    "play script --grant 3 --grant 4 --hop",
    "play script --drain=yes",
    "play script --drain --drain",
    "play -",
    "udp -",
    "play script --qlog none/x",
];

#[test]
fn command_lines_say_the_same() {
    let Some(mut both) = Both::find("lines") else {
        return;
    };
    both.put("script", WRITTEN[0]);
    both.say(&[""; 0]);
    for line in LINES {
        both.say_line(line);
    }
    for words in [
        &[b"\xff".as_slice()][..],
        &[b"frames", b"0\xff"],
        &[b"play", b"\xff"],
    ] {
        both.say(
            &words
                .iter()
                .map(|word| OsStr::from_bytes(word))
                .collect::<Vec<_>>(),
        );
    }
    both.say(&["frames", &"00".repeat(32_767)]);
    both.say(&["frames", &"01".repeat(65_535)]);
    for kind in 0..=0x40 {
        let hex = format!("{kind:02x}4001020304050607080900010203");
        for end in (2..=hex.len()).step_by(3) {
            both.say(&["frames", &hex[..end]]);
        }
    }
    both.tell([true, true, true, true]);
}
