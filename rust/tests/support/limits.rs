//! The words of docs/LIMITS.md, and what the tests that hold them count.
#![allow(dead_code)]

use super::counting::LIVE;
use super::peer::Driven;
use std::path::{Path, PathBuf};

/// A power of two. Where overflow is checked all takes longer, so less is counted.
pub const MANY: u64 = if cfg!(debug_assertions) {
    1 << 13
} else {
    1 << 16
};

/// What an endpoint takes beside what is counted: room for a packet, the first words of marks.
pub const ITSELF: u64 = 32_000;

pub fn root() -> PathBuf {
    Path::new(env!("CARGO_MANIFEST_DIR")).join("..")
}

/// The page without the marks of figures, each run of blanks as one. None where the crate stands without the repository.
pub fn page() -> Option<String> {
    let text = std::fs::read_to_string(root().join("docs/LIMITS.md")).ok()?;
    let mut pieces = text.split("<!--");
    let mut plain = pieces.next()?.to_owned();
    for piece in pieces {
        plain.push_str(piece.split_once("-->")?.1);
    }
    Some(plain)
}

/// The page has these words, whose figures the test around holds.
pub fn says(words: &str) {
    if let Some(page) = page() {
        assert!(page.contains(words), "docs/LIMITS.md doesn't say: {words}");
    }
}

/// How many bytes of the heap are in use more than before.
pub fn taken(work: impl FnOnce() -> Driven) -> (u64, Driven) {
    let before = LIVE.get();
    let driven = work();
    ((LIVE.get() - before) as u64 - driven.buffer(), driven)
}

/// So many bytes for each of so many, beside what the endpoint takes itself.
pub fn holds(what: &str, bytes: u64, count: u64, each: u64) {
    let most = count * each + ITSELF;
    assert!(bytes <= most, "{what}: {bytes} bytes for {count}");
    println!("{what}: {:.1} of {each} bytes", bytes as f64 / count as f64);
}
