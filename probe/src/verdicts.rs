//! What RFC 9000 says of each closing: `docs/verdicts.tsv`, where the first row that fits counts.

use gotsavena::{Dir, FaultKind, Frame, StreamId, frames};
use std::fmt;
use std::sync::OnceLock;

use crate::wire::{code_name, name};

const TABLE: &str = include_str!("../../docs/verdicts.tsv");

/// RFC 2119's words: whether an endpoint has to close.
#[derive(Clone, Copy, Debug, PartialEq, Eq)]
pub enum Word {
    Must,
    Should,
    May,
}

pub struct Row {
    pub code: u64,
    pub frame: &'static str,
    pub fault: &'static str,
    pub asks: &'static str,
    pub word: Word,
    pub section: &'static str,
    pub beside: Vec<u64>,
    pub clause: &'static str,
}

/// A closing of the mirror.
#[derive(Clone, Copy, Debug, PartialEq, Eq)]
pub struct Closes {
    pub code: u64,
    pub frame_type: u64,
    pub place: usize,
}

/// What may come of a payload: it is taken, or the connection is closed with one of these codes, of which the first is the one that is
/// named.
#[derive(Clone, Debug, PartialEq, Eq)]
pub struct Permit {
    pub codes: Vec<u64>,
    pub frame_type: u64,
    /// Whether it has to close. Where nothing offends there is no word.
    pub word: Option<Word>,
    pub section: String,
}

fn number(text: &str) -> u64 {
    u64::from_str_radix(text.trim_start_matches("0x"), 16).expect("a code in hex")
}

fn row(line: &'static str) -> Row {
    let cells: Vec<&str> = line.split('\t').collect();
    let [code, frame, fault, asks, word, section, beside, clause] =
        cells.try_into().expect("eight cells");
    Row {
        code: number(code),
        frame,
        fault,
        asks,
        word: match word {
            "MUST" => Word::Must,
            "SHOULD" => Word::Should,
            _ => Word::May,
        },
        section,
        beside: beside
            .split(' ')
            .filter(|text| *text != "-")
            .map(number)
            .collect(),
        clause,
    }
}

pub fn rows() -> &'static [Row] {
    static ROWS: OnceLock<Vec<Row>> = OnceLock::new();
    ROWS.get_or_init(|| TABLE.lines().skip(1).map(row).collect())
}

fn layout_name(kind: FaultKind) -> &'static str {
    match kind {
        FaultKind::Empty => "Empty",
        FaultKind::LongType => "LongType",
        FaultKind::UnknownType => "UnknownType",
        FaultKind::OffsetTooLarge => "OffsetTooLarge",
        FaultKind::CountTooLarge => "CountTooLarge",
        FaultKind::BelowZero => "BelowZero",
        FaultKind::IdentifierLength => "IdentifierLength",
        _ => "Truncated",
    }
}

fn fault_name(code: u64, frame: &str) -> &'static str {
    match (code, frame) {
        (0x03, _) => "credit",
        (0x04, _) => "count",
        (0x05, _) => "state",
        (0x06, _) => "final size",
        (_, "ACK") => "unsent number",
        _ => "changed byte",
    }
}

fn stream_of(frame: &Frame<'_>) -> Option<StreamId> {
    match *frame {
        Frame::Stream { stream, .. }
        | Frame::ResetStream { stream, .. }
        | Frame::StreamDataBlocked { stream, .. } => Some(stream),
        _ => None,
    }
}

/// The row of a closing that the mirror made of a payload; `is_over` tells whether an endpoint may have forgotten a stream.
pub fn row_of(
    closes: Closes,
    payload: &[u8],
    is_over: impl Fn(StreamId) -> bool,
) -> Option<&'static Row> {
    let frame = name(closes.frame_type);
    let rest = payload.get(closes.place..).unwrap_or_default();
    let found = frames(rest).next();
    let (fault, placed) = match found {
        Some(Ok(placed)) => (fault_name(closes.code, frame), Some(placed.frame)),
        Some(Err(fault)) => (layout_name(fault.kind), None),
        None => ("Empty", None),
    };
    let stream = placed.as_ref().and_then(stream_of);
    let asks = |what: &str| match what {
        "empty" => matches!(
            placed,
            Some(Frame::Stream {
                bytes: [],
                fin: false,
                ..
            })
        ),
        "over" => stream.is_some_and(&is_over),
        "bidirectional" => stream.is_some_and(|stream| stream.dir() == Dir::Bidi),
        _ => true,
    };
    rows().iter().find(|row| {
        row.code == closes.code
            && row.fault == fault
            && (row.frame == "-" || row.frame == frame)
            && asks(row.asks)
    })
}

/// The row that is by hand, of a frame of the transport's.
pub fn by_hand(frame: &str, fault: &str) -> Option<&'static Row> {
    let mut all = rows().iter();
    all.find(|row| row.clause == "by hand" && row.frame == frame && row.fault == fault)
}

impl Permit {
    /// Nothing offends.
    pub fn taken() -> Permit {
        Permit {
            codes: Vec::new(),
            frame_type: 0,
            word: None,
            section: String::new(),
        }
    }

    pub fn of(row: &Row, frame_type: u64) -> Permit {
        Permit {
            codes: [row.code].iter().chain(&row.beside).copied().collect(),
            frame_type,
            word: Some(row.word),
            section: row.section.to_owned(),
        }
    }

    pub fn may_go_on(&self) -> bool {
        !matches!(self.word, Some(Word::Must | Word::Should))
    }

    pub fn add(&mut self, code: u64) {
        if !self.codes.contains(&code) {
            self.codes.push(code);
        }
    }
}

impl fmt::Display for Word {
    fn fmt(&self, f: &mut fmt::Formatter<'_>) -> fmt::Result {
        f.write_str(match self {
            Word::Must => "MUST",
            Word::Should => "SHOULD",
            Word::May => "MAY",
        })
    }
}

impl fmt::Display for Permit {
    fn fmt(&self, f: &mut fmt::Formatter<'_>) -> fmt::Result {
        let (Some(word), Some((first, rest))) = (self.word, self.codes.split_first()) else {
            return f.write_str("it is taken");
        };
        write!(f, "{word} close with {first:#x} {}", code_name(*first))?;
        for code in rest {
            write!(f, " or {code:#x}")?;
        }
        write!(f, " ({})", self.section)
    }
}

#[cfg(test)]
mod tests {
    use super::*;

    #[test]
    fn each_row_has_a_word_and_codes() {
        assert!(rows().len() > 30);
        for line in TABLE.lines().skip(1) {
            let word = line.split('\t').nth(4).unwrap();
            assert!(["MUST", "SHOULD", "MAY"].contains(&word), "{line}");
        }
    }

    // RFC 9000, section 19.8: "it is used on a receive-only stream" isn't STREAM's; its offset and its length may fail together.
    #[test]
    fn a_row_is_found_by_code_frame_and_fault() {
        let payload = [
            0x0f, 0x00, 0xff, 0xff, 0xff, 0xff, 0xff, 0xff, 0xff, 0xff, 0x01, 0x00,
        ];
        let closes = Closes {
            code: 0x07,
            frame_type: 0x0f,
            place: 0,
        };
        let found = row_of(closes, &payload, |_| false).unwrap();
        assert_eq!(
            (found.section, &found.beside[..], found.word),
            ("19.8", &[0x03][..], Word::Must)
        );
        let reset = [0x04, 0x01, 0x00, 0x00];
        let closes = Closes {
            code: 0x05,
            frame_type: 0x04,
            place: 0,
        };
        assert_eq!(
            row_of(closes, &reset, |_| false).unwrap().word,
            Word::May,
            "no sentence names a bidirectional stream that isn't open"
        );
    }
}
