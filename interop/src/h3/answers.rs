//! Requests for files, and what they are answered with: whole, a part (RFC 9110, section 14), or not again (section 13).

use super::session::Field;
use crate::files::{Folder, Found, Listed, Named, Names, is_exhausted};
use crate::log::tell;
use crate::streams::Body;
use html_escape::encode_text;
use httpdate::{fmt_http_date, parse_http_date};
use percent_encoding::{AsciiSet, NON_ALPHANUMERIC, percent_encode};
use std::io::{self, ErrorKind};
use std::iter::once;
use std::ops::Range;
use std::time::{SystemTime, UNIX_EPOCH};

/// What a part of a path has as it is (RFC 3986, section 2.3).
const ESCAPED: &AsciiSet = &NON_ALPHANUMERIC
    .remove(b'-')
    .remove(b'.')
    .remove(b'_')
    .remove(b'~');

const HTML: &str = "text/html; charset=utf-8";

#[derive(Default)]
pub struct Request {
    pub method: Vec<u8>,
    pub path: Vec<u8>,
    if_match: Option<String>,
    if_unmodified_since: Option<String>,
    if_none_match: Option<String>,
    if_modified_since: Option<String>,
    range: Option<String>,
    if_range: Option<String>,
}

pub struct Answer {
    pub status: &'static str,
    pub fields: Vec<Field>,
    /// How long the body is, of HEAD too, where that is told.
    pub len: Option<u64>,
    pub body: Option<Body>,
    /// A folder was read for it.
    pub is_listing: bool,
}

#[derive(Debug, PartialEq, Eq)]
enum Part {
    Whole,
    Bytes(Range<u64>),
    Behind,
}

impl Request {
    pub fn take(&mut self, (name, value): Field) {
        let text = || Some(String::from_utf8_lossy(&value).into_owned());
        match name.as_slice() {
            b":method" => self.method = value,
            b":path" => self.path = value,
            // CONNECT has no path (RFC 9114, section 4.4).
            b":authority" if self.path.is_empty() => self.path = value,
            b"if-match" => self.if_match = text(),
            b"if-unmodified-since" => self.if_unmodified_since = text(),
            b"if-none-match" => self.if_none_match = text(),
            b"if-modified-since" => self.if_modified_since = text(),
            b"range" => self.range = text(),
            b"if-range" => self.if_range = text(),
            _ => {}
        }
    }

    pub fn is_of_files(&self) -> bool {
        matches!(self.method.as_slice(), b"GET" | b"HEAD")
    }

    pub fn answer(&self, folder: &Folder) -> Answer {
        let answered = match folder.named(&self.path) {
            Ok(Named::File(found)) => self.of_file(found),
            Ok(Named::Folder(to)) => {
                let query = self.path.iter().position(|byte| *byte == b'?');
                let query = query.map_or(&[][..], |at| &self.path[at..]);
                let to = format!("{to}{}", query.escape_ascii());
                Ok(Answer::of("301", &[("location", &to)]))
            }
            Ok(Named::Listing(first, rest)) => Ok(self.listing(first, rest)),
            Err(error) => Err(error),
        };
        answered.unwrap_or_else(|error| match is_exhausted(&error) {
            true => self.unavailable(&error.to_string()),
            false if error.kind() == ErrorKind::PermissionDenied => {
                self.page("403", page("403", "<p>The server may not read it."))
            }
            false => self.page("404", page("404", "<p>There is no such file.")),
        })
    }

    /// What is there can't be given out for now (RFC 9110, section 15.6.4).
    pub fn unavailable(&self, reason: &str) -> Answer {
        let path = self.path.escape_ascii();
        tell(format_args!("{path} is answered 503: {reason}"));
        Answer::of("503", &[("retry-after", "10")])
    }

    fn page(&self, status: &'static str, html: String) -> Answer {
        let mut answer = Answer::of(status, &[("content-type", HTML)]);
        answer.len = Some(html.len() as u64);
        answer.body = (self.method == b"GET").then(|| Body::of_bytes(html.into_bytes()));
        answer
    }

    // Where there are many names they go as they are read, so that a folder of many holds no one up.
    fn listing(&self, first: Vec<Listed>, rest: Option<Names>) -> Answer {
        let mut answer = match rest {
            None => self.page("200", listing(&self.path, first)),
            Some(rest) => {
                let mut answer = Answer::of("200", &[("content-type", HTML)]);
                let [head, tail] = around(&self.path);
                let names = first.into_iter().chain(rest).map(|listed| entry(&listed));
                let pieces = once(head).chain(names).chain(once(tail));
                answer.len = None;
                answer.body = (self.method == b"GET").then(|| Body::of_pieces(pieces));
                answer
            }
        };
        answer.is_listing = true;
        answer
    }

    fn of_file(&self, found: Found) -> io::Result<Answer> {
        let tag = tag(&found);
        if !self.is_as_expected(&found, &tag) {
            return Ok(Answer::of("412", &[]));
        }
        let status = match self.is_fresh(&found, &tag) {
            true => "304",
            false => "200",
        };
        let mut answer = Answer::of(status, &[("etag", &tag)]);
        // The library has no words for a time before 1970.
        if found.modified >= UNIX_EPOCH {
            let modified = fmt_http_date(found.modified.min(SystemTime::now()));
            answer.add("last-modified", &modified);
        }
        if status == "304" {
            answer.len = None;
            return Ok(answer);
        }
        answer.add("content-type", &found.kind);
        answer.add("accept-ranges", "bytes");
        let whole = found.len;
        let range = match self.part(&found, &tag) {
            Part::Whole => 0..whole,
            Part::Bytes(range) => {
                answer.status = "206";
                let (first, last) = (range.start, range.end - 1);
                answer.add("content-range", &format!("bytes {first}-{last}/{whole}"));
                range
            }
            Part::Behind => {
                return Ok(Answer::of(
                    "416",
                    &[("content-range", &format!("bytes */{whole}"))],
                ));
            }
        };
        answer.len = Some(range.end - range.start);
        if self.method == b"GET" {
            answer.body = Some(found.body(range)?);
        }
        Ok(answer)
    }

    // Whether the file is one that the client wants it to be (RFC 9110, sections 13.1.1 and 13.1.4).
    fn is_as_expected(&self, found: &Found, tag: &str) -> bool {
        match (&self.if_match, &self.if_unmodified_since) {
            (Some(tags), _) => listed(tags).any(|known| known == "*" || known == tag),
            // (a date that is none counts for nothing)
            (None, Some(date)) => {
                parse_http_date(date).map_or(true, |date| seconds(found.modified) <= seconds(date))
            }
            (None, None) => true,
        }
    }

    // Whether the client has the file as it is (section 13.2.2).
    fn is_fresh(&self, found: &Found, tag: &str) -> bool {
        match (&self.if_none_match, &self.if_modified_since) {
            (Some(tags), _) => listed(tags)
                .any(|known| known == "*" || known.strip_prefix("W/").unwrap_or(known) == tag),
            (None, Some(date)) => {
                parse_http_date(date).is_ok_and(|date| seconds(found.modified) <= seconds(date))
            }
            (None, None) => false,
        }
    }

    // A range counts where the file is still that of the client's other parts (sections 13.1.5 and 14.2).
    fn part(&self, found: &Found, tag: &str) -> Part {
        let is_same = match self.if_range.as_deref() {
            None => true,
            Some(known) if known.starts_with('"') => known == tag,
            Some(date) => {
                parse_http_date(date).is_ok_and(|date| seconds(found.modified) == seconds(date))
            }
        };
        match &self.range {
            Some(range) if is_same && self.method == b"GET" => part(range, found.len),
            _ => Part::Whole,
        }
    }
}

impl Answer {
    pub fn of(status: &'static str, fields: &[(&str, &str)]) -> Answer {
        let fields = fields.iter().map(|(name, value)| field(name, value));
        Answer {
            status,
            fields: fields.collect(),
            len: Some(0),
            body: None,
            is_listing: false,
        }
    }

    fn add(&mut self, name: &str, value: &str) {
        self.fields.push(field(name, value));
    }

    /// How many bytes of the body go at most: none of HEAD.
    pub fn sent_len(&self) -> u64 {
        match self.body {
            Some(_) => self.len.unwrap_or(u64::MAX),
            None => 0,
        }
    }
}

pub fn field(name: &str, value: &str) -> Field {
    (name.as_bytes().to_vec(), value.as_bytes().to_vec())
}

fn listed(tags: &str) -> impl Iterator<Item = &str> {
    tags.split(',').map(str::trim)
}

fn seconds(time: SystemTime) -> u64 {
    time.duration_since(UNIX_EPOCH)
        .unwrap_or_default()
        .as_secs()
}

// It is another one where the file's size or time is.
fn tag(found: &Found) -> String {
    let (sign, time) = match found.modified.duration_since(UNIX_EPOCH) {
        Ok(since) => ("", since),
        Err(before) => ("-", before.duration()),
    };
    format!("\"{:x}-{sign}{:x}\"", found.len, time.as_nanos())
}

// One range; of others the whole file goes (RFC 9110, section 14.2).
fn part(text: &str, len: u64) -> Part {
    let Some(("bytes", range)) = text.split_once('=') else {
        return Part::Whole;
    };
    let Some((first, last)) = range.trim().split_once('-') else {
        return Part::Whole;
    };
    match (first.parse::<u64>(), last.parse::<u64>()) {
        (Ok(first), Ok(last)) if first > last => Part::Whole,
        (Ok(first), _) if first >= len && (last.is_empty() || last.parse::<u64>().is_ok()) => {
            Part::Behind
        }
        (Ok(first), Ok(last)) => Part::Bytes(first..len.min(last.saturating_add(1))),
        (Ok(first), Err(_)) if last.is_empty() => Part::Bytes(first..len),
        (Err(_), Ok(0)) if first.is_empty() => Part::Behind,
        (Err(_), Ok(_)) if first.is_empty() && len == 0 => Part::Behind,
        (Err(_), Ok(count)) if first.is_empty() => Part::Bytes(len.saturating_sub(count)..len),
        _ => Part::Whole,
    }
}

fn page(title: &str, body: &str) -> String {
    format!("<!doctype html>\n<meta charset=\"utf-8\">\n<title>{title}</title>\n{body}\n")
}

// What stands before the names of a folder, and behind them.
fn around(path: &[u8]) -> [String; 2] {
    let path = String::from_utf8_lossy(path);
    let title = encode_text(&path);
    let page = page(&title, &format!("<h1>{title}</h1>\n<ul>\0\n</ul>"));
    let (head, tail) = page.split_once('\0').unwrap_or((&page, ""));
    [head.to_owned(), tail.to_owned()]
}

fn entry(Listed { name, is_folder }: &Listed) -> String {
    let slash = if *is_folder { "/" } else { "" };
    let (link, text) = (percent_encode(name, ESCAPED), String::from_utf8_lossy(name));
    let parts = ["\n<li><a href=\"./"].into_iter().chain(link);
    parts
        .chain([slash, "\">", &encode_text(&text), slash, "</a>"])
        .collect()
}

fn listing(path: &[u8], listed: Vec<Listed>) -> String {
    let [head, tail] = around(path);
    let names: String = listed.iter().map(entry).collect();
    format!("{head}{names}{tail}")
}

#[cfg(test)]
mod tests {
    use super::*;

    #[test]
    fn a_range_is_read_as_the_standard_has_it() {
        // RFC 9110, section 14.1.2, has these of a file of 10,000 bytes.
        for (text, wanted) in [
            ("bytes=0-499", Part::Bytes(0..500)),
            ("bytes=500-999", Part::Bytes(500..1000)),
            ("bytes=-500", Part::Bytes(9500..10_000)),
            ("bytes=9500-", Part::Bytes(9500..10_000)),
            ("bytes=9999-20000", Part::Bytes(9999..10_000)),
            ("bytes=-20000", Part::Bytes(0..10_000)),
            ("bytes=10000-", Part::Behind),
            ("bytes=10000-10001", Part::Behind),
            ("bytes=-0", Part::Behind),
            ("bytes=5-4", Part::Whole),
            ("bytes=0-0,-1", Part::Whole),
            ("bytes=a-", Part::Whole),
            ("bytes=-", Part::Whole),
            ("lines=0-5", Part::Whole),
        ] {
            assert_eq!(part(text, 10_000), wanted, "{text}");
        }
        assert_eq!(part("bytes=-5", 0), Part::Behind);
    }

    #[test]
    fn what_a_client_expects_of_a_file_is_looked_at() {
        let folder = Folder::open(env!("CARGO_MANIFEST_DIR")).unwrap();
        let answer = |name: &str, value: &str| {
            let mut request = Request::default();
            for (name, value) in [(":method", "GET"), (":path", "/Cargo.toml"), (name, value)] {
                request.take(field(name, value));
            }
            request.answer(&folder)
        };
        let plain = answer("x", "");
        let told = |name: &str| {
            let found = plain
                .fields
                .iter()
                .find(|(told, _)| told == name.as_bytes());
            String::from_utf8(found.unwrap().1.clone()).unwrap()
        };
        let (tag, modified) = (told("etag"), told("last-modified"));
        let long_ago = "Thu, 01 Jan 1970 00:00:00 GMT";
        for (name, value, wanted) in [
            ("if-match", tag.as_str(), "200"),
            ("if-match", "*", "200"),
            ("if-match", "\"another\"", "412"),
            // A weak tag names no file (RFC 9110, section 8.8.3.2).
            ("if-match", &format!("W/{tag}"), "412"),
            ("if-unmodified-since", &modified, "200"),
            ("if-unmodified-since", long_ago, "412"),
            ("if-unmodified-since", "no date", "200"),
            ("if-none-match", &format!("W/{tag}"), "304"),
        ] {
            assert_eq!(answer(name, value).status, wanted, "{name}: {value}");
        }
    }

    #[test]
    fn a_listing_is_escaped() {
        let name = b"<b> & \"'%:?#\xff".to_vec();
        let is_folder = true;
        let html = listing(b"/<sub>/", vec![Listed { name, is_folder }]);
        assert!(html.contains("<h1>/&lt;sub&gt;/</h1>"));
        assert!(html.contains("href=\"./%3Cb%3E%20%26%20%22%27%25%3A%3F%23%FF/\""));
        assert!(
            html.contains(">&lt;b&gt; &amp; \"'%:?#\u{fffd}/</a>"),
            "{html}"
        );
    }
}
