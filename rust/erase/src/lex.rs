//! Tokens of a text in Rattle: those of Rust, and of clauses, whose signs are single characters.

#[derive(Clone, Copy, Debug, PartialEq, Eq)]
pub enum Kind {
    Name,
    Lifetime,
    Number,
    Text,
    Char,
    Sign,
}

/// A token, and the bytes of the text that it takes. Comments are none.
#[derive(Clone, Copy, Debug)]
pub struct Token {
    pub kind: Kind,
    pub start: usize,
    pub end: usize,
}

pub fn tokens(text: &str) -> Result<Vec<Token>, usize> {
    let mut tokens = Vec::new();
    let mut start = 0;
    while let Some(first) = text[start..].chars().next() {
        let rest = &text[start..];
        let after = |len: usize| start + len;
        if first.is_whitespace() {
            start = after(first.len_utf8());
            continue;
        }
        if rest.starts_with("//") {
            start = after(rest.find('\n').unwrap_or(rest.len()));
            continue;
        }
        if rest.starts_with("/*") {
            return Err(start);
        }
        let (kind, len) = token(rest, first).ok_or(start)?;
        let end = after(len);
        tokens.push(Token { kind, start, end });
        start = end;
    }
    Ok(tokens)
}

fn token(rest: &str, first: char) -> Option<(Kind, usize)> {
    if let Some(len) = raw_len(rest) {
        return Some((Kind::Text, len?));
    }
    let prefix = usize::from(rest.starts_with("b\"") || rest.starts_with("b'"));
    match rest.as_bytes()[prefix] {
        b'"' => return Some((Kind::Text, prefix + quoted_len(&rest[prefix..])?)),
        b'\'' => {
            if let Some(len) = char_len(&rest[prefix..]) {
                return Some((Kind::Char, prefix + len));
            }
            let name = name_len(&rest[1..]);
            return Some(if name > 0 {
                (Kind::Lifetime, 1 + name)
            } else {
                (Kind::Sign, 1)
            });
        }
        _ => {}
    }
    if first.is_ascii_digit() {
        return Some((Kind::Number, number_len(rest)));
    }
    match name_len(rest) {
        0 => Some((Kind::Sign, first.len_utf8())),
        len => Some((Kind::Name, len)),
    }
}

fn name_len(rest: &str) -> usize {
    rest.find(|c: char| !c.is_alphanumeric() && c != '_')
        .unwrap_or(rest.len())
}

/// A point only where a digit follows: a range has two, and a call begins with one.
fn number_len(rest: &str) -> usize {
    let whole = name_len(rest);
    match rest[whole..].strip_prefix('.') {
        Some(part) if part.starts_with(|c: char| c.is_ascii_digit()) => whole + 1 + name_len(part),
        _ => whole,
    }
}

/// `None` where no raw string stands in front, `Some(None)` where it has no end.
fn raw_len(rest: &str) -> Option<Option<usize>> {
    let body = rest.strip_prefix("br").or_else(|| rest.strip_prefix('r'))?;
    let marks = body.len() - body.trim_start_matches('#').len();
    let inner = body[marks..].strip_prefix('"')?;
    let close = format!("\"{}", "#".repeat(marks));
    let opened = rest.len() - inner.len();
    Some(inner.find(&close).map(|at| opened + at + close.len()))
}

fn quoted_len(rest: &str) -> Option<usize> {
    let mut escaped = false;
    for (at, c) in rest.char_indices().skip(1) {
        match c {
            _ if escaped => escaped = false,
            '\\' => escaped = true,
            '"' => return Some(at + 1),
            _ => {}
        }
    }
    None
}

/// The length of a character between two quotes, `None` where it is none, as in a lifetime.
fn char_len(rest: &str) -> Option<usize> {
    let inner = &rest[1..];
    if let Some(escape) = inner.strip_prefix('\\') {
        let escaped = escape.chars().next()?.len_utf8();
        return escape[escaped..].find('\'').map(|at| 2 + escaped + at + 1);
    }
    let first = inner.chars().next()?;
    inner[first.len_utf8()..]
        .starts_with('\'')
        .then(|| 1 + first.len_utf8() + 1)
}
