// Made from crates/qs_tool/src/tests/requests.rt by rust/erase; not edited by hand.
//! Which command lines make sense.

use crate::shim::{HostRuntime, String, Vec, assert, panic, vec};
use crate::proved::qs_tool::input::read_whole;
use crate::proved::qs_cli::Status;
use crate::proved::qs_request::{Refusal, Request};
use crate::proved::qs_world::standard_settings;
use crate::shim::alloc::Global;
use crate::shim::process::Abort;
use crate::shim::test::Fail;

fn words(alloc: Global, texts: &[&str]) -> Result<Vec<String>, Fail> {
    let mut words = Vec::new(alloc);
    for text in texts {
        words.push(String::from_str(alloc, text)?)?;
    }
    Ok(words)
}

#[test]
fn the_command_line_names_a_payload() -> Result<(), Fail> {
    let rt = HostRuntime::new();
    let line = words(rt.alloc(), &["qstream", "frames", "01"])?;
    assert!(rt; matches!(Request::parse(rt.alloc(), &line), Ok(Request::Frames("01"))));
    let line = words(rt.alloc(), &["qstream", "frames", ""])?;
    assert!(rt; matches!(Request::parse(rt.alloc(), &line), Ok(Request::Frames(""))));
    Ok(())
}

#[test]
fn other_command_lines_make_no_sense() -> Result<(), Fail> {
    let rt = HostRuntime::new();
    let lines: [&[&str]; 20] = [
        &["qstream"],
        &["qstream", "frames"],
        &["qstream", "frames", "01", "02"],
        &["qstream", "frame", "01"],
        &["qstream", "--help"],
        &["qstream", "--version"],
        &["qstream", "frames", "--help"],
        &["qstream", "play"],
        &["qstream", "play", "one", "two"],
        &["qstream", "random"],
        &["qstream", "random", "1"],
        &["qstream", "random", "1", "2", "3"],
        &["qstream", "help"],
        &["qstream", "udp"],
        &["qstream", "udp", "one", "--grant", "1"],
        &["qstream", "udp", "one", "--drain"],
        &["qstream", "udp", "one", "--qlog"],
        &["qstream", "random", "1", "2", "--qlog", "one"],
        &["qstream", "play", "one", "--drain=yes"],
        &["qstream", "random", "1", "2", "--lifetime", "9"],
    ];
    for line in lines {
        let line = words(rt.alloc(), line)?;
        assert!(rt; matches!(Request::parse(rt.alloc(), &line), Err(Refusal::BadUsage(_))));
    }
    Ok(())
}

/// Whether the words ask for nothing, and are told so by this text.
fn is_told(alloc: Global, texts: &[&str], text: &str) -> Result<bool, Fail> {
    let line = words(alloc, texts)?;
    match Request::parse(alloc, &line) {
        Err(Refusal::BadUsage(told)) => Ok(told.as_str() == text),
        _ => Ok(false),
    }
}

#[test]
fn the_word_and_the_reason_are_told() -> Result<(), Fail> {
    let rt = HostRuntime::new();
    let lines: [(&[&str], &str); 7] = [
        (
            &["qstream", "hop"],
            "qstream: unrecognized subcommand 'hop'",
        ),
        (
            &["qstream", "play"],
            "qstream: the following required arguments were not provided: <FILE>",
        ),
        (
            &["qstream", "random", "1"],
            "qstream: the following required arguments were not provided: <N>",
        ),
        (
            &["qstream", "play", "one", "--grant", "4097"],
            "qstream: --grant 4097: at most 4096",
        ),
        (
            &["qstream", "play", "one", "--lifetime", "7"],
            "qstream: --lifetime 7: at least 8",
        ),
        (
            &["qstream", "random", "x", "1"],
            "qstream: SEED x: no number",
        ),
        (
            &["qstream", "udp", "one", "--grant", "1"],
            "qstream: unexpected argument '--grant' found",
        ),
    ];
    for (line, text) in lines {
        assert!(rt; is_told(rt.alloc(), line, text)?, "{line:?}");
    }
    Ok(())
}

/// Whether both ends are to be led to rest, where `a file` is to be played between those of the standard settings, without traces.
fn asks_for_rest(request: Result<Request, Refusal>) -> Option<bool> {
    match request {
        Ok(
            Request::Play {
                file: "a file",
                settings,
                drain,
                qlog: None,
            },
        ) if settings == standard_settings() => Some(drain),
        _ => None,
    }
}

#[test]
fn the_command_line_names_a_file() -> Result<(), Fail> {
    let rt = HostRuntime::new();
    let line = words(rt.alloc(), &["qstream", "play", "a file"])?;
    assert!(rt; asks_for_rest(Request::parse(rt.alloc(), &line)) == Some(false));
    let line = words(rt.alloc(), &["qstream", "udp", "a file"])?;
    assert!(rt;
        matches!(
            Request::parse(rt.alloc(), &line),
            Ok(Request::Udp {
                file: "a file",
                qlog: None
            })
        )
    );
    Ok(())
}

#[test]
fn the_command_line_names_the_traces() -> Result<(), Fail> {
    let rt = HostRuntime::new();
    let line = words(rt.alloc(), &["qstream", "udp", "a file", "--qlog", "b"])?;
    assert!(rt;
        matches!(
            Request::parse(rt.alloc(), &line),
            Ok(Request::Udp {
                file: "a file",
                qlog: Some("b")
            })
        )
    );
    Ok(())
}

#[test]
fn the_command_line_asks_for_rest() -> Result<(), Fail> {
    let rt = HostRuntime::new();
    let line = words(rt.alloc(), &["qstream", "play", "a file", "--drain"])?;
    assert!(rt; asks_for_rest(Request::parse(rt.alloc(), &line)) == Some(true));
    Ok(())
}

/// How many streams of each direction `play` grants at first and in all with these words, where they are the same for both.
fn streams_granted(alloc: Global, options: &[&str]) -> Result<Option<(u64, u64)>, Fail> {
    let mut line = words(alloc, &["qstream", "play", "a file"])?;
    for option in options {
        line.push(String::from_str(alloc, option)?)?;
    }
    match Request::parse(alloc, &line) {
        Ok(Request::Play { settings, .. })
            if settings.grant_uni == settings.grant_bidi
                && settings.lifetime_uni == settings.lifetime_bidi => {
            Ok(Some((settings.grant_bidi, settings.lifetime_bidi)))
        }
        _ => Ok(None),
    }
}

#[test]
fn the_command_line_names_counts_of_streams() -> Result<(), Fail> {
    let rt = HostRuntime::new();
    let counts: [(&[&str], (u64, u64)); 7] = [
        (&["--grant", "1", "--lifetime", "2"], (1, 2)),
        (&["--lifetime=9"], (8, 9)),
        (&["--grant", "3"], (3, 8)),
        (&["--grant", "9"], (9, 9)),
        (&["--grant", "0", "--lifetime", "0"], (0, 0)),
        (&["--grant", "4096", "--lifetime", "65536"], (4096, 65_536)),
        (&["--lifetime", "8", "--grant", "08"], (8, 8)),
    ];
    for (options, count) in counts {
        assert!(rt;
            streams_granted(rt.alloc(), options)? == Some(count),
            "{options:?}"
        );
    }
    Ok(())
}

#[test]
fn counts_of_streams_lie_within_bounds() -> Result<(), Fail> {
    let rt = HostRuntime::new();
    let wrong: [&[&str]; 9] = [
        &["--lifetime", "7"],
        &["--grant", "4097"],
        &["--grant", "1", "--lifetime", "65537"],
        &["--grant", "2", "--lifetime", "1"],
        &["--grant", "-1"],
        &["--grant", "1", "--grant", "1"],
        &["--grant"],
        &["--grant", ""],
        &["--lifetime", "18446744073709551616"],
    ];
    for options in wrong {
        assert!(rt;
            streams_granted(rt.alloc(), options)?.is_none(),
            "{options:?}"
        );
    }
    Ok(())
}

/// What `random` asks for with these words.
fn random(
    alloc: Global,
    seed: &'static str,
    n: &'static str,
) -> Result<Option<(u64, usize)>, Fail> {
    let line = words(alloc, &["qstream", "random", seed, n])?;
    match Request::parse(alloc, &line) {
        Ok(Request::Random { seed, n }) => Ok(Some((seed, n))),
        _ => Ok(None),
    }
}

#[test]
fn the_command_line_names_a_seed_and_a_count() -> Result<(), Fail> {
    let rt = HostRuntime::new();
    assert!(rt; random(rt.alloc(), "1", "0")? == Some((1, 0)));
    assert!(rt; random(rt.alloc(), "007", "010000")? == Some((7, 10_000)));
    let most = random(rt.alloc(), "18446744073709551615", "1")?;
    assert!(rt; most == Some((u64::MAX, 1)));
    Ok(())
}

#[test]
fn a_seed_and_a_count_are_digits_within_bounds() -> Result<(), Fail> {
    let rt = HostRuntime::new();
    let wrong = [
        ("+5", "1"),
        ("-5", "1"),
        ("", "1"),
        ("1", ""),
        ("1", "+5"),
        ("0x1", "1"),
        ("1 ", "1"),
        ("18446744073709551616", "1"),
        ("1", "10001"),
        ("1", "18446744073709551616"),
    ];
    for (seed, n) in wrong {
        assert!(rt; random(rt.alloc(), seed, n)?.is_none(), "{seed:?} {n:?}");
    }
    Ok(())
}

/// How many bytes of a script are read, where it is read whole.
fn bytes_read(alloc: Global, script: &[u8]) -> Option<usize> {
    let mut reader = script;
    match read_whole(alloc, &mut reader) {
        Ok(bytes) => Some(bytes.len()),
        Err(_) => None,
    }
}

#[test]
fn a_script_has_a_greatest_length() -> Result<(), Fail> {
    let rt = HostRuntime::new();
    let script = vec![in rt.alloc(); b'#'; 16_777_217]?;
    assert!(rt; bytes_read(rt.alloc(), &script[1..]) == Some(16_777_216));
    assert!(rt; bytes_read(rt.alloc(), &script).is_none());
    Ok(())
}

#[test]
fn a_script_is_read_whole() -> Result<(), Fail> {
    let rt = HostRuntime::new();
    let mut script: &[u8] = b"accept B\n";
    match read_whole(rt.alloc(), &mut script) {
        Ok(bytes) => assert!(rt; bytes.as_slice() == b"accept B\n".as_slice()),
        Err(_) => panic!(rt; "it could be read"),
    }
    Ok(())
}
