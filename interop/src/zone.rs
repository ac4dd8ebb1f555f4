//! A zone's file (RFC 1035, section 5), in small: `$ORIGIN`, `$TTL`, and records of A, AAAA, TXT, SOA, NS and CNAME, over several
//! lines where parentheses hold them together.

use crate::dns::{Name, TYPE_A, TYPE_AAAA, TYPE_ANY, TYPE_CNAME, TYPE_NS, TYPE_SOA, TYPE_TXT};
use std::collections::{BTreeMap, BTreeSet};
use std::fmt;
use std::net::{Ipv4Addr, Ipv6Addr};

#[derive(Clone, Debug, PartialEq, Eq)]
pub struct Record {
    pub name: Name,
    pub kind: u16,
    pub ttl: u32,
    pub data: Vec<u8>,
}

#[derive(Clone, Debug)]
pub struct Zone {
    origin: Name,
    records: BTreeMap<(Name, u16), Vec<Record>>,
    names: BTreeSet<Name>,
}

#[derive(Debug, PartialEq, Eq)]
pub enum Found<'a> {
    Records(Vec<&'a Record>),
    /// The name has records, but none of this type.
    NoRecords,
    NoName,
    /// The name isn't of this zone.
    NotOurs,
}

/// What is wrong with a line, which is counted from 1.
#[derive(Clone, Debug, PartialEq, Eq)]
pub struct ZoneFault {
    pub line: usize,
    pub reason: String,
}

impl fmt::Display for ZoneFault {
    fn fmt(&self, f: &mut fmt::Formatter<'_>) -> fmt::Result {
        write!(f, "line {}: {}", self.line, self.reason)
    }
}

impl std::error::Error for ZoneFault {}

/// A chain of aliases may be a ring.
const MOST_ALIASES: usize = 8;

impl Zone {
    /// The zone that a text tells. It has one SOA record, whose name is the zone's.
    pub fn read(text: &str) -> Result<Zone, ZoneFault> {
        let mut reader = ZoneReader::default();
        let mut lines = 0;
        for entry in entries(text)? {
            lines = entry.line;
            reader.take(&entry).map_err(|reason| ZoneFault {
                line: entry.line,
                reason,
            })?;
        }
        let mut soas = reader
            .records
            .iter()
            .filter(|record| record.kind == TYPE_SOA);
        let (Some(soa), None) = (soas.next(), soas.next()) else {
            let reason = "a zone has one SOA record".to_owned();
            return Err(ZoneFault {
                line: lines,
                reason,
            });
        };
        Ok(Zone::of(soa.name.clone(), reader.records))
    }

    fn of(origin: Name, records: Vec<Record>) -> Zone {
        let mut zone = Zone {
            origin,
            records: BTreeMap::new(),
            names: BTreeSet::new(),
        };
        for record in records {
            // Names between a record's and the zone's exist, too, without records (RFC 8020).
            let mut name = Some(record.name.clone());
            while let Some(now) = name.filter(|name| name.is_within(&zone.origin)) {
                name = now.parent();
                zone.names.insert(now);
            }
            let key = (record.name.clone(), record.kind);
            zone.records.entry(key).or_default().push(record);
        }
        zone
    }

    pub fn soa(&self) -> Option<&Record> {
        self.of_type(&self.origin, TYPE_SOA).first()
    }

    fn of_type(&self, name: &Name, kind: u16) -> &[Record] {
        let found = self.records.get(&(name.clone(), kind));
        found.map_or(&[], Vec::as_slice)
    }

    fn all(&self, name: &Name) -> Found<'_> {
        let from = (name.clone(), 0)..=(name.clone(), u16::MAX);
        let records: Vec<&Record> = self.records.range(from).flat_map(|(_, of)| of).collect();
        match records.is_empty() {
            true => Found::NoRecords,
            false => Found::Records(records),
        }
    }

    /// The records of a name and type, behind the aliases that lead to them.
    pub fn find(&self, name: &Name, kind: u16) -> Found<'_> {
        if !name.is_within(&self.origin) {
            return Found::NotOurs;
        }
        if !self.names.contains(name) {
            return Found::NoName;
        }
        if kind == TYPE_ANY {
            return self.all(name);
        }
        let mut records = Vec::new();
        let mut target = name.clone();
        for _ in 0..MOST_ALIASES {
            records.extend(self.of_type(&target, kind));
            let alias = self.of_type(&target, TYPE_CNAME).first();
            let Some(alias) = alias.filter(|_| kind != TYPE_CNAME) else {
                break;
            };
            records.push(alias);
            target = Name::of_wire(&alias.data);
        }
        match records.is_empty() {
            true => Found::NoRecords,
            false => Found::Records(records),
        }
    }
}

struct Entry {
    line: usize,
    /// Whether it begins with a blank, and so has the name of the entry before it.
    is_indented: bool,
    words: Vec<String>,
}

// The entries of a text: comments are dropped, and lines within parentheses are one.
fn entries(text: &str) -> Result<Vec<Entry>, ZoneFault> {
    let mut out: Vec<Entry> = Vec::new();
    let mut depth = 0usize;
    for (place, text) in text.lines().enumerate() {
        let line = place + 1;
        let words = split(text).map_err(|reason| ZoneFault { line, reason })?;
        if depth == 0 {
            let is_indented = text.starts_with([' ', '\t']);
            let words = Vec::new();
            out.push(Entry {
                line,
                is_indented,
                words,
            });
        }
        for word in words {
            match (word.as_str(), depth) {
                ("(", _) => depth += 1,
                (")", 0) => {
                    let reason = "a parenthesis is closed that wasn't opened".to_owned();
                    return Err(ZoneFault { line, reason });
                }
                (")", _) => depth -= 1,
                _ => out.last_mut().map_or((), |entry| entry.words.push(word)),
            }
        }
    }
    if depth > 0 {
        let line = out.last().map_or(1, |entry| entry.line);
        let reason = "a parenthesis isn't closed".to_owned();
        return Err(ZoneFault { line, reason });
    }
    out.retain(|entry| !entry.words.is_empty());
    Ok(out)
}

// The words of a line. A text in quotes keeps its first quote, so that it is told from other words.
fn split(line: &str) -> Result<Vec<String>, String> {
    let mut words = Vec::new();
    let mut rest = line.trim_start();
    while let Some(first) = rest.chars().next() {
        let len = match first {
            ';' => break,
            '(' | ')' => 1,
            '"' => 1 + rest[1..].find('"').ok_or("a quote isn't closed")?,
            _ => rest
                .find([' ', '\t', ';', '(', ')', '"'])
                .unwrap_or(rest.len()),
        };
        words.push(rest[..len].to_owned());
        let after = if first == '"' { len + 1 } else { len };
        rest = rest[after..].trim_start();
    }
    Ok(words)
}

struct ZoneReader {
    origin: Name,
    ttl: u32,
    last: Option<Name>,
    records: Vec<Record>,
}

impl Default for ZoneReader {
    fn default() -> ZoneReader {
        ZoneReader {
            origin: Name::root(),
            ttl: 3600,
            last: None,
            records: Vec::new(),
        }
    }
}

impl ZoneReader {
    fn take(&mut self, entry: &Entry) -> Result<(), String> {
        let mut words = entry.words.iter().map(String::as_str).peekable();
        match (words.peek(), entry.is_indented) {
            (Some(&"$ORIGIN"), _) => {
                let text = entry.words.get(1).ok_or("$ORIGIN lacks its name")?;
                self.origin = self.name(text)?;
                return Ok(());
            }
            (Some(&"$TTL"), _) => {
                let text = entry.words.get(1).ok_or("$TTL lacks its number")?;
                self.ttl = number(text)?;
                return Ok(());
            }
            (_, true) => {}
            (_, false) => {
                let name = self.name(words.next().unwrap_or_default())?;
                self.last = Some(name);
            }
        }
        let rest: Vec<&str> = words.collect();
        self.take_record(&rest)
    }

    // The words of a record behind its name.
    fn take_record(&mut self, words: &[&str]) -> Result<(), String> {
        let name = self.last.clone().ok_or("the first record lacks its name")?;
        let mut ttl = self.ttl;
        let mut words = words.iter().copied().peekable();
        while let Some(word) = words.peek() {
            match word.parse() {
                Ok(told) => ttl = told,
                Err(_) if word.eq_ignore_ascii_case("IN") => {}
                Err(_) => break,
            }
            words.next();
        }
        let kind = words.next().ok_or("a record lacks its type")?;
        let rest: Vec<&str> = words.collect();
        let (kind, data) = self.data(kind, &rest)?;
        self.records.push(Record {
            name,
            kind,
            ttl,
            data,
        });
        Ok(())
    }

    fn name(&self, text: &str) -> Result<Name, String> {
        Name::of_text(text, &self.origin).ok_or_else(|| format!("{text} is no name"))
    }

    fn data(&self, kind: &str, words: &[&str]) -> Result<(u16, Vec<u8>), String> {
        let one = || match words {
            [word] => Ok(*word),
            _ => Err(format!(
                "a record of type {kind} has one value, and not {}",
                words.len()
            )),
        };
        match kind.to_ascii_uppercase().as_str() {
            "A" => {
                let address: Ipv4Addr = parsed(one()?, "an IPv4 address")?;
                Ok((TYPE_A, address.octets().to_vec()))
            }
            "AAAA" => {
                let address: Ipv6Addr = parsed(one()?, "an IPv6 address")?;
                Ok((TYPE_AAAA, address.octets().to_vec()))
            }
            "NS" => Ok((TYPE_NS, self.name(one()?)?.as_slice().to_vec())),
            "CNAME" => Ok((TYPE_CNAME, self.name(one()?)?.as_slice().to_vec())),
            "TXT" => Ok((TYPE_TXT, texts(words)?)),
            "SOA" => Ok((TYPE_SOA, self.soa(words)?)),
            _ => Err(format!(
                "there is no type {kind} here: A, AAAA, TXT, SOA, NS, CNAME"
            )),
        }
    }

    fn soa(&self, words: &[&str]) -> Result<Vec<u8>, String> {
        let [server, mailbox, numbers @ ..] = words else {
            return Err("a SOA record has two names and five numbers".to_owned());
        };
        if numbers.len() != 5 {
            return Err("a SOA record has two names and five numbers".to_owned());
        }
        let mut out = self.name(server)?.as_slice().to_vec();
        out.extend_from_slice(self.name(mailbox)?.as_slice());
        for word in numbers {
            out.extend_from_slice(&number(word)?.to_be_bytes());
        }
        Ok(out)
    }
}

fn number(word: &str) -> Result<u32, String> {
    parsed(word, "a number below 2^32")
}

fn parsed<T: std::str::FromStr>(word: &str, what: &str) -> Result<T, String> {
    word.parse().map_err(|_| format!("{word} is not {what}"))
}

fn texts(words: &[&str]) -> Result<Vec<u8>, String> {
    let mut out = Vec::new();
    for word in words {
        let text = word.strip_prefix('"').unwrap_or(word);
        let len =
            u8::try_from(text.len()).map_err(|_| "a text has more than 255 bytes".to_owned())?;
        out.push(len);
        out.extend_from_slice(text.as_bytes());
    }
    match out.is_empty() {
        true => Err("a record of type TXT lacks its text".to_owned()),
        false => Ok(out),
    }
}

#[cfg(test)]
mod tests {
    use super::*;

    const SOA: &str =
        "$ORIGIN example.\n$TTL 60\n@ IN SOA ns.example. host (\n 1 2 3 ; numbers\n 4 5 )\n";

    fn name(text: &str) -> Name {
        Name::of_text(text, &Name::root()).unwrap()
    }

    #[test]
    fn records_are_found() {
        let text = format!(
            "{SOA}www 5 IN A 192.0.2.1\n    A 192.0.2.2\na.b TXT \"x; y\" z\nalias CNAME www\n"
        );
        let zone = Zone::read(&text).unwrap();
        let count = |text: &str, kind| match zone.find(&name(text), kind) {
            Found::Records(records) => records.len(),
            _ => 0,
        };
        assert_eq!(count("www.example.", TYPE_A), 2);
        assert_eq!(count("alias.example.", TYPE_A), 3);
        assert_eq!(zone.find(&name("b.example."), TYPE_A), Found::NoRecords);
        assert_eq!(zone.find(&name("c.example."), TYPE_A), Found::NoName);
        assert_eq!(zone.find(&name("example.org."), TYPE_A), Found::NotOurs);
        let Found::Records(found) = zone.find(&name("a.b.example."), TYPE_TXT) else {
            panic!("no text");
        };
        assert_eq!(found[0].data, b"\x04x; y\x01z");
        assert_eq!(found[0].ttl, 60);
        assert_eq!(zone.soa().unwrap().data.len(), 12 + 14 + 20);
    }

    #[test]
    fn a_wrong_line_is_named() {
        let wrong = [
            ("www A 192.0.2", "line 6: 192.0.2 is not an IPv4 address"),
            (
                "www MX 10 mail",
                "line 6: there is no type MX here: A, AAAA, TXT, SOA, NS, CNAME",
            ),
            ("www TXT \"x", "line 6: a quote isn't closed"),
            ("www TXT", "line 6: a record of type TXT lacks its text"),
            ("www", "line 6: a record lacks its type"),
            ("w..w A 192.0.2.1", "line 6: w..w is no name"),
            ("www A (192.0.2.1", "line 6: a parenthesis isn't closed"),
            (
                "www A 192.0.2.1)",
                "line 6: a parenthesis is closed that wasn't opened",
            ),
        ];
        for (line, told) in wrong {
            let fault = Zone::read(&format!("{SOA}{line}\n")).unwrap_err();
            assert_eq!(fault.to_string(), told);
        }
        assert!(Zone::read("www.example. A 192.0.2.1").is_err());
    }
}
