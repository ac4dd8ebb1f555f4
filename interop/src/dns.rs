//! Messages of DNS (RFC 1035, section 4), as far as a server of one zone needs them.

use crate::bytes::Reader;
use crate::zone::{Found, Record, Zone};
use std::fmt;

pub const NO_ERROR: u16 = 0;
pub const FORMAT_ERROR: u16 = 1;
pub const NAME_ERROR: u16 = 3;
pub const NOT_IMPLEMENTED: u16 = 4;
pub const REFUSED: u16 = 5;

pub const TYPE_A: u16 = 1;
pub const TYPE_NS: u16 = 2;
pub const TYPE_CNAME: u16 = 5;
pub const TYPE_SOA: u16 = 6;
pub const TYPE_TXT: u16 = 16;
pub const TYPE_AAAA: u16 = 28;
const TYPE_OPT: u16 = 41;
/// The transfers of a zone (RFC 1995, RFC 5936), which are no types of records.
pub const TYPE_IXFR: u16 = 251;
pub const TYPE_AXFR: u16 = 252;
/// All records of a name (RFC 1035, section 3.2.3).
pub const TYPE_ANY: u16 = 255;

const CLASS_IN: u16 = 1;
const IS_RESPONSE: u16 = 0x8000;
const IS_AUTHORITATIVE: u16 = 0x0400;
const OPCODE: u16 = 0x7800;
const CODE: u16 = 0x000f;
const RECURSION_DESIRED: u16 = 0x0100;

/// A longer one is refused, so that a name can't grow by pointers without end (RFC 1035, section 2.3.4).
const MOST_NAME: usize = 255;

/// In small letters, as names are compared without regard to them.
#[derive(Clone, PartialEq, Eq, Hash, PartialOrd, Ord)]
pub struct Name(Vec<u8>);

#[derive(Debug)]
struct Question<'a> {
    text: &'a [u8],
    name: Name,
    kind: u16,
    class: u16,
}

impl Name {
    pub fn of_text(text: &str, origin: &Name) -> Option<Name> {
        if text == "@" {
            return Some(origin.clone());
        }
        let mut out = Vec::new();
        let relative = text.strip_suffix('.');
        let labels = relative.unwrap_or(text);
        for label in labels.split('.').filter(|_| !labels.is_empty()) {
            if label.is_empty() || label.len() > 63 {
                return None;
            }
            out.push(label.len() as u8);
            out.extend(label.bytes().map(|byte| byte.to_ascii_lowercase()));
        }
        match relative {
            Some(_) => out.push(0),
            None => out.extend_from_slice(&origin.0),
        }
        (out.len() <= MOST_NAME).then_some(Name(out))
    }

    pub fn of_wire(bytes: &[u8]) -> Name {
        Name(bytes.to_vec())
    }

    pub fn root() -> Name {
        Name(vec![0])
    }

    pub fn as_slice(&self) -> &[u8] {
        &self.0
    }

    /// The name without its first label; `None` of the root.
    pub fn parent(&self) -> Option<Name> {
        let first = usize::from(*self.0.first()?);
        (first > 0).then(|| Name(self.0[first + 1..].to_vec()))
    }

    /// Whether it is another name or lies below it.
    pub fn is_within(&self, above: &Name) -> bool {
        let mut name = Some(self.clone());
        while let Some(now) = name {
            if now == *above {
                return true;
            }
            name = now.parent();
        }
        false
    }

    // A question's name has no pointers, since nothing stands before it.
    fn read(rest: &mut Reader<'_>) -> Option<Name> {
        let mut out = Vec::new();
        loop {
            let len = rest.byte()?;
            if len > 63 || out.len() + usize::from(len) + 1 > MOST_NAME {
                return None;
            }
            out.push(len);
            if len == 0 {
                return Some(Name(out));
            }
            out.extend(rest.take(usize::from(len))?.to_ascii_lowercase());
        }
    }
}

impl fmt::Display for Name {
    fn fmt(&self, f: &mut fmt::Formatter<'_>) -> fmt::Result {
        let mut rest = Reader::new(&self.0);
        while let Some(label) = rest.byte().and_then(|len| rest.take(usize::from(len))) {
            if label.is_empty() {
                break;
            }
            write!(f, "{}.", label.escape_ascii())?;
        }
        Ok(())
    }
}

impl fmt::Debug for Name {
    fn fmt(&self, f: &mut fmt::Formatter<'_>) -> fmt::Result {
        fmt::Display::fmt(self, f)
    }
}

struct Head {
    id: u16,
    flags: u16,
    counts: [u16; 4],
}

fn read_head(rest: &mut Reader<'_>) -> Option<Head> {
    Some(Head {
        id: rest.u16()?,
        flags: rest.u16()?,
        counts: [rest.u16()?, rest.u16()?, rest.u16()?, rest.u16()?],
    })
}

fn read_question<'a>(rest: &mut Reader<'a>) -> Option<Question<'a>> {
    let from = rest.rest();
    let name = Name::read(rest)?;
    let (kind, class) = (rest.u16()?, rest.u16()?);
    Some(Question {
        text: &from[..from.len() - rest.rest().len()],
        name,
        kind,
        class,
    })
}

// Whether an OPT record stands among the others of a query (RFC 6891, section 6.1.1): of a query they are all it has.
fn has_opt(mut rest: Reader<'_>, count: u16) -> bool {
    for _ in 0..count {
        let Some(kind) = Name::read(&mut rest).and_then(|_| rest.u16()) else {
            return false;
        };
        if kind == TYPE_OPT {
            return true;
        }
        let skipped = rest.take(6).and_then(|_| rest.u16());
        if skipped
            .and_then(|len| rest.take(usize::from(len)))
            .is_none()
        {
            return false;
        }
    }
    false
}

pub fn message_id(message: &[u8]) -> Option<u16> {
    Reader::new(message).u16()
}

/// A query for the records of a name and type, which may ask for a name server that looks elsewhere, too.
pub fn query(name: &Name, kind: u16) -> Vec<u8> {
    let mut out = Vec::new();
    for number in [0, RECURSION_DESIRED, 1, 0, 0, 0] {
        out.extend_from_slice(&number.to_be_bytes());
    }
    out.extend_from_slice(name.as_slice());
    out.extend_from_slice(&kind.to_be_bytes());
    out.extend_from_slice(&CLASS_IN.to_be_bytes());
    out
}

#[derive(Debug, PartialEq, Eq)]
pub struct Reply {
    pub code: u16,
    pub records: Vec<(u16, Vec<u8>)>,
}

pub fn read_reply(message: &[u8]) -> Option<Reply> {
    let mut rest = Reader::new(message);
    let head = read_head(&mut rest)?;
    if head.flags & IS_RESPONSE == 0 {
        return None;
    }
    for _ in 0..head.counts[0] {
        skip_name(&mut rest)?;
        rest.take(4)?;
    }
    let mut records = Vec::new();
    for _ in 0..head.counts[1] {
        skip_name(&mut rest)?;
        let kind = rest.u16()?;
        rest.take(6)?;
        let len = usize::from(rest.u16()?);
        records.push((kind, rest.take(len)?.to_vec()));
    }
    let code = head.flags & CODE;
    Some(Reply { code, records })
}

// A name ends with a zero or with a pointer to the rest of another (RFC 1035, section 4.1.4).
fn skip_name(rest: &mut Reader<'_>) -> Option<()> {
    loop {
        match rest.byte()? {
            0 => return Some(()),
            0xc0.. => return rest.byte().map(|_| ()),
            len => rest.take(usize::from(len))?,
        };
    }
}

/// `None` for what is no query at all: to that nothing can be answered.
pub fn answer(zone: &Zone, query: &[u8]) -> Option<Vec<u8>> {
    let mut rest = Reader::new(query);
    let head = read_head(&mut rest)?;
    if head.flags & IS_RESPONSE != 0 {
        return None;
    }
    let question = match head.counts[0] {
        1 => read_question(&mut rest),
        _ => None,
    };
    let has_opt = question.is_some() && has_opt(rest, head.counts[3]);
    let (code, answers, authority) = match &question {
        _ if head.flags & OPCODE != 0 => (NOT_IMPLEMENTED, Vec::new(), None),
        None => (FORMAT_ERROR, Vec::new(), None),
        Some(question) => look_up(zone, question),
    };
    let mut out = Vec::new();
    let flags = head.flags & (OPCODE | RECURSION_DESIRED) | IS_RESPONSE | authority_of(code) | code;
    let counts = [
        u16::from(question.is_some()),
        answers.len() as u16,
        u16::from(authority.is_some()),
        u16::from(has_opt),
    ];
    for number in [head.id, flags].into_iter().chain(counts) {
        out.extend_from_slice(&number.to_be_bytes());
    }
    out.extend_from_slice(question.map_or(&[], |question| question.text));
    for record in answers.into_iter().chain(authority) {
        push_record(&mut out, record);
    }
    if has_opt {
        push_opt(&mut out);
    }
    Some(out)
}

// Only what the zone says is said with authority (RFC 1035, section 4.1.1).
fn authority_of(code: u16) -> u16 {
    match code {
        NO_ERROR | NAME_ERROR => IS_AUTHORITATIVE,
        _ => 0,
    }
}

// A code, answers and a record of authority. A zone isn't transferred.
fn look_up<'a>(
    zone: &'a Zone,
    question: &Question<'_>,
) -> (u16, Vec<&'a Record>, Option<&'a Record>) {
    if question.class != CLASS_IN || matches!(question.kind, TYPE_IXFR | TYPE_AXFR) {
        return (REFUSED, Vec::new(), None);
    }
    match zone.find(&question.name, question.kind) {
        Found::Records(records) => (NO_ERROR, records, None),
        Found::NoRecords => (NO_ERROR, Vec::new(), zone.soa()),
        Found::NoName => (NAME_ERROR, Vec::new(), zone.soa()),
        Found::NotOurs => (REFUSED, Vec::new(), None),
    }
}

fn push_record(out: &mut Vec<u8>, record: &Record) {
    out.extend_from_slice(record.name.as_slice());
    out.extend_from_slice(&record.kind.to_be_bytes());
    out.extend_from_slice(&CLASS_IN.to_be_bytes());
    out.extend_from_slice(&record.ttl.to_be_bytes());
    out.extend_from_slice(&(record.data.len() as u16).to_be_bytes());
    out.extend_from_slice(&record.data);
}

fn push_opt(out: &mut Vec<u8>) {
    out.push(0);
    out.extend_from_slice(&TYPE_OPT.to_be_bytes());
    // The size of a UDP message that may come back, which means nothing over QUIC; no extended code, version 0, no options.
    out.extend_from_slice(&1232u16.to_be_bytes());
    out.extend_from_slice(&[0; 6]);
}

#[cfg(test)]
mod tests {
    use super::*;

    fn zone() -> Zone {
        let text = "$ORIGIN example.\n@ 60 SOA ns hostmaster 1 2 3 4 5\nwww 60 A 192.0.2.1\n";
        Zone::read(text).unwrap()
    }

    fn query(name: &str, kind: u16) -> Vec<u8> {
        super::query(&Name::of_text(name, &Name::root()).unwrap(), kind)
    }

    #[test]
    fn a_name_is_answered() {
        let told = answer(&zone(), &query("WWW.example.", TYPE_A)).unwrap();
        assert_eq!(told[2..4], [0x85, 0x00]);
        assert_eq!(told[4..12], [0, 1, 0, 1, 0, 0, 0, 0]);
        assert!(told.ends_with(&[0, 4, 192, 0, 2, 1]));
    }

    #[test]
    fn a_query_has_the_layout_of_the_standard() {
        // RFC 1035, section 4.1.
        let text = b"\0\0\x01\0\0\x01\0\0\0\0\0\0\x03www\x07example\0\0\x01\0\x01";
        assert_eq!(query("www.example.", TYPE_A), text);
    }

    #[test]
    fn an_answer_is_read() {
        // Two records, whose names are a pointer to the question's and a label before one.
        let mut text = b"\0\0\x81\0\0\x01\0\x02\0\0\0\0\x01a\0\0\x01\0\x01".to_vec();
        text.extend_from_slice(b"\xc0\x0c\0\x01\0\x01\0\0\0\x3c\0\x04\x01\x02\x03\x04");
        text.extend_from_slice(b"\x01b\xc0\x0c\0\x10\0\x01\0\0\0\x3c\0\x02\x01t");
        let records = vec![(TYPE_A, vec![1, 2, 3, 4]), (TYPE_TXT, vec![1, b't'])];
        assert_eq!(read_reply(&text), Some(Reply { code: 0, records }));
        for len in 0..text.len() {
            assert_eq!(read_reply(&text[..len]), None, "{len}");
        }
        assert_eq!(read_reply(&query("a.", TYPE_A)), None);
    }

    #[test]
    fn all_records_of_a_name_are_answered() {
        let text = "$ORIGIN example.\n@ SOA ns hostmaster 1 2 3 4 5\nwww A 192.0.2.1\n A 192.0.2.2\n TXT t\n";
        let zone = Zone::read(text).unwrap();
        let kinds = |name| {
            let told = answer(&zone, &query(name, TYPE_ANY)).unwrap();
            let kinds = read_reply(&told).unwrap().records.into_iter();
            kinds.map(|(kind, _)| kind).collect::<Vec<_>>()
        };
        assert_eq!(kinds("www.example."), [TYPE_A, TYPE_A, TYPE_TXT]);
        assert_eq!(kinds("example."), [TYPE_SOA]);
    }

    #[test]
    fn what_is_not_there_is_told() {
        let code = |name, kind| answer(&zone(), &query(name, kind)).unwrap()[3] & 15;
        assert_eq!(code("www.example.", TYPE_TXT), 0);
        assert_eq!(code("no.example.", TYPE_A), 3);
        assert_eq!(code("example.org.", TYPE_A), 5);
        assert!(answer(&zone(), b"short").is_none());
        // AA is set where the zone has the last word alone.
        let has_authority = |name, kind| answer(&zone(), &query(name, kind)).unwrap()[2] & 4 != 0;
        assert!(has_authority("no.example.", TYPE_A));
        assert!(!has_authority("example.org.", TYPE_A));
        for kind in [TYPE_AXFR, TYPE_IXFR] {
            assert_eq!(code("example.", kind), 5);
            assert!(!has_authority("example.", kind));
        }
        let broken = &query("www.example.", TYPE_A)[..20];
        assert_eq!(answer(&zone(), broken).unwrap()[3] & 15, 1);
    }
}
