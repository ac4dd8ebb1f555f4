//! Replays inputs without a fuzzer: those of the files that it is given, one on a line, in hex, beside lines that begin with #. It prints
//! how many they were and a digest of all answers, which is that of the C library's target; with `--each` first the digest of each input.

use std::env::args;
use std::fs::read_to_string;
use std::process::ExitCode;

fn bytes_of(line: &str) -> Option<Vec<u8>> {
    let digits = line.as_bytes().chunks_exact(2);
    digits
        .map(|two| u8::from_str_radix(std::str::from_utf8(two).ok()?, 16).ok())
        .collect()
}

fn main() -> ExitCode {
    let mut names: Vec<String> = args().skip(1).collect();
    let each = names.first().is_some_and(|name| name == "--each");
    if each {
        names.remove(0);
    }
    let (mut inputs, mut all) = (0, 0_u64);
    for name in names {
        let lines = match read_to_string(&name) {
            Ok(lines) => lines,
            Err(fault) => {
                eprintln!("{name}: {fault}");
                return ExitCode::FAILURE;
            }
        };
        for line in lines.lines().filter(|line| !line.starts_with('#')) {
            let Some(bytes) = bytes_of(line) else {
                eprintln!("{name}: a line that isn't hex: {line}");
                return ExitCode::FAILURE;
            };
            let digest = gotsavena_fuzz::run(&bytes);
            if each {
                println!("{inputs} {digest:016x}");
            }
            all = (all ^ digest).wrapping_mul(0x100_0000_01b3);
            inputs += 1;
        }
    }
    println!("{inputs} inputs, digest {all:016x}");
    ExitCode::SUCCESS
}
