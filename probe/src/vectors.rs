//! Test vectors: the cases without a network, for a unit test of what takes payloads or frames in. docs/PROBE.md says what each field means.

use crate::cases::{self, Case, Context, Need, Payload, Step};
use crate::link::settings;
use crate::mirror::{Mirror, Place};
use crate::seen::Seen;
use crate::verdicts::Permit;
use crate::wire::{hex, stream_frame, stream_number};
use gotsavena::{Dir, PeerLimits, Role, frames};
use serde::Serialize;
use std::collections::BTreeMap;
use std::fmt::Write as _;

/// Of the form of the file: a field that goes or changes makes it another.
const FORM: u32 = 1;

/// What ends or halts a peer's process stays out until its maintainers were told.
const WITHHELD: [&str; 2] = ["cut/type", "max-stream-data/peers-bidi/most/zero"];

const MAX_DATA: u64 = 20_000;
const STREAM_DATA: u64 = 8192;
const STREAMS: u64 = 16;
const ACTIVE_IDS: u64 = 4;

#[derive(Serialize)]
pub struct Vectors {
    form: u32,
    limits: Limits,
    peer_limits: Limits,
    active_connection_id_limit: u64,
    /// Bytes that the endpoint wrote on each stream that it opened, in hex, and the packets that it sent.
    wrote: &'static str,
    packets_sent: u64,
    vectors: Vec<Vector>,
}

#[derive(Serialize)]
struct Limits {
    max_data: u64,
    bidi_local: u64,
    bidi_remote: u64,
    uni: u64,
    streams_bidi: u64,
    streams_uni: u64,
}

#[derive(Serialize)]
struct Vector {
    case: String,
    role: &'static str,
    opened: [u64; 2],
    reads: bool,
    level: &'static str,
    payloads: Vec<Entry>,
}

#[derive(Serialize)]
struct Entry {
    number: u64,
    hex: String,
    verdict: Verdict,
    permitted: Permitted,
}

/// What the proved layer does.
#[derive(Serialize)]
struct Verdict {
    closes_with: Option<u64>,
    frame_type: Option<u64>,
}

#[derive(Serialize)]
struct Permitted {
    goes_on: bool,
    closes_with: Vec<u64>,
    word: Option<String>,
    section: String,
}

impl From<PeerLimits> for Limits {
    fn from(limits: PeerLimits) -> Limits {
        Limits {
            max_data: limits.max_data,
            bidi_local: limits.bidi_local,
            bidi_remote: limits.bidi_remote,
            uni: limits.uni,
            streams_bidi: limits.streams_bidi,
            streams_uni: limits.streams_uni,
        }
    }
}

fn place(role: Role) -> Place {
    Place {
        role,
        grants: PeerLimits::default()
            .max_data(MAX_DATA)
            .stream_data(STREAM_DATA)
            .streams_bidi(STREAMS)
            .streams_uni(STREAMS),
        peer: settings(false).limits(),
        active_ids: ACTIVE_IDS,
    }
}

/// An endpoint that nothing is heard of but what it sent at first.
struct Unit {
    mirror: Mirror,
    seen: Seen,
    role: Role,
    totals: BTreeMap<u64, u64>,
    next: u64,
    level: &'static str,
    entries: Vec<Entry>,
}

const GREETING: &[u8] = b"hi";

fn opened(role: Role) -> [u64; 2] {
    [Dir::Bidi, Dir::Uni].map(|dir| stream_number(role, dir, 0))
}

impl Unit {
    fn new(role: Role, reads: bool) -> Unit {
        let mut unit = Unit {
            mirror: Mirror::new(place(role), reads),
            seen: Seen::new(place(role), place(role.peer())),
            role,
            totals: BTreeMap::new(),
            next: 0,
            level: "streams",
            entries: Vec::new(),
        };
        let first = opened(role).map(|stream| stream_frame(stream, 0, GREETING, false));
        unit.mirror.follow(0, &first.concat());
        unit
    }

    fn context(&self) -> Context<'_> {
        Context {
            seen: &self.seen,
            role: self.role,
            largest: 0,
            active_ids: ACTIVE_IDS,
            is_http: false,
            totals: &self.totals,
        }
    }

    // Answers whether the case goes on.
    fn send(&mut self, payload: &[u8], number: u64) -> bool {
        let plain = self.mirror.would_close(number, payload);
        let permit = self.mirror.take(number, payload);
        if permit.word.is_some() {
            self.level = level(payload, plain.is_some());
        }
        self.next = number + 1;
        self.entries.push(Entry {
            number,
            hex: hex(payload),
            verdict: Verdict {
                closes_with: plain.map(|closes| closes.code),
                frame_type: plain.map(|closes| closes.frame_type),
            },
            permitted: Permitted::of(&permit),
        });
        permit.word.is_none()
    }

    fn made(&self, make: &Payload) -> Vec<u8> {
        make(&self.context())
    }

    // `None` where a step needs what the endpoint itself sends.
    fn step(&mut self, step: &Step) -> Option<bool> {
        match step {
            Step::Send(make) => Some(self.send(&self.made(make), self.next)),
            Step::MayEnd(_) | Step::Pause(_) => Some(true),
            Step::Twice(make) => {
                let (payload, number) = (self.made(make), self.next);
                Some(self.send(&payload, number) && self.send(&payload, number))
            }
            Step::Over(stream, len) => {
                let stream = stream(&self.context());
                if stream & 2 == 0 {
                    return None;
                }
                let payload = self.context().stream(stream, 0, *len, true);
                Some(self.send(&payload, self.next))
            }
            _ => None,
        }
    }
}

impl Permitted {
    fn of(permit: &Permit) -> Permitted {
        Permitted {
            goes_on: permit.may_go_on(),
            closes_with: permit.codes.clone(),
            word: permit.word.map(|word| word.to_string()),
            section: permit.section.clone(),
        }
    }
}

fn level(payload: &[u8], closes: bool) -> &'static str {
    match frames(payload).any(|placed| placed.is_err()) {
        true => "layout",
        false if closes => "streams",
        false => "transport",
    }
}

fn vector(case: &Case, role: Role) -> Option<Vector> {
    let reads = case.steps.iter().any(|step| matches!(step, Step::Over(..)));
    let mut unit = Unit::new(role, reads);
    for step in &case.steps {
        if !unit.step(step)? {
            break;
        }
    }
    Some(Vector {
        case: case.name.clone(),
        role: if role == Role::Server {
            "server"
        } else {
            "client"
        },
        opened: opened(role),
        reads,
        level: unit.level,
        payloads: unit.entries,
    })
}

/// All of them, of either role.
pub fn all() -> Vectors {
    let cases = cases::all();
    let mut vectors = Vec::new();
    for role in [Role::Server, Role::Client] {
        for case in &cases {
            let is_of_the_other_role = role == Role::Client && case.needs.contains(&Need::Server);
            let is_withheld = WITHHELD.contains(&case.name.as_str());
            if !(is_withheld || case.is_tight || is_of_the_other_role) {
                vectors.extend(vector(case, role));
            }
        }
    }
    Vectors {
        form: FORM,
        limits: place(Role::Server).grants.into(),
        peer_limits: place(Role::Server).peer.into(),
        active_connection_id_limit: ACTIVE_IDS,
        wrote: "6869",
        packets_sent: 1,
        vectors,
    }
}

impl Vectors {
    pub fn json(&self) -> String {
        serde_json::to_string_pretty(self).expect("vectors are text and numbers") + "\n"
    }

    /// The same for a reader of a few lines. Columns: role, case, level, whether the application reads; then for each payload its number,
    /// hex, and what is permitted, with what the proved layer does first.
    pub fn tsv(&self) -> String {
        let mut out = String::new();
        for vector in &self.vectors {
            let reads = u8::from(vector.reads);
            _ = write!(
                out,
                "{}\t{}\t{}\t{reads}",
                vector.role, vector.case, vector.level
            );
            for entry in &vector.payloads {
                _ = write!(
                    out,
                    "\t{}:{}:{}",
                    entry.number,
                    entry.hex,
                    entry.permitted()
                );
            }
            out.push('\n');
        }
        out
    }
}

impl Entry {
    fn permitted(&self) -> String {
        let mut words = Vec::new();
        if let Some(code) = self.verdict.closes_with {
            words.push(code.to_string());
        } else {
            words.push("on".to_owned());
        }
        if self.permitted.goes_on {
            words.push("on".to_owned());
        }
        words.extend(self.permitted.closes_with.iter().map(u64::to_string));
        let mut seen = Vec::new();
        words.retain(|word| {
            !seen.contains(word) && {
                seen.push(word.clone());
                true
            }
        });
        words.join(",")
    }
}

#[cfg(test)]
mod tests {
    use super::*;

    #[test]
    fn no_two_vectors_are_of_one_case() {
        let all = all();
        let mut names: Vec<_> = all
            .vectors
            .iter()
            .map(|one| (one.role, &one.case))
            .collect();
        let count = names.len();
        names.sort();
        names.dedup();
        assert_eq!(names.len(), count);
        assert!(count > 700, "{count}");
    }

    #[test]
    fn each_stream_is_the_greeted_endpoints() {
        assert_eq!(opened(Role::Server), [1, 3]);
        assert_eq!(opened(Role::Client), [0, 2]);
    }
}
