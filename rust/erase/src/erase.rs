//! Takes out of one file what is for the specification alone. What stays is left as it is, but for the edits that `KINDS.md` lists, so that
//! a token can be compared with its original.

use crate::display;
use crate::inline::inline;
use crate::lex::{Kind, Token, tokens};
use crate::require;

pub struct Place<'a> {
    pub krate: &'a str,
    /// The crates that are erased, and so are modules.
    pub erased: &'a [&'a str],
    /// Whether functions without parameters and with an empty body are laws.
    pub laws: bool,
    /// Whether the crate's file of laws has nothing else: then none is made, and no module is named for it.
    pub laws_alone: bool,
    /// Whether a function `main` is the program.
    pub program: bool,
    pub inlines: bool,
}

pub struct Unknown {
    pub at: usize,
    pub what: String,
}

pub type Erased<T> = Result<T, Unknown>;

pub fn erase(place: &Place<'_>, text: &str) -> Erased<String> {
    let tokens = tokens(text).map_err(|at| Unknown {
        at,
        what: "a token without an end, or a block comment".to_owned(),
    })?;
    let mut eraser = Eraser {
        place,
        text,
        has_exports: tokens
            .iter()
            .any(|it| &text[it.start..it.end] == "no_mangle"),
        tokens,
        edits: Vec::new(),
        shim: Vec::new(),
    };
    let mut at = 0;
    while at < eraser.tokens.len() {
        at = eraser.step(at)?;
    }
    eraser.import();
    eraser.link();
    let rust = eraser.apply();
    Ok(if place.inlines { inline(&rust) } else { rust })
}

/// Names of Rattle's prelude that Rust's has not, or has with another meaning. A macro is named with its sign.
const PRELUDE: &str = "Box HostRuntime String Vec assert! assert_eq! format! panic! vec!";

/// A module of the shim stands for each, so that the library has no dependency.
const SHIMMED: [&str; 6] = ["std", "byteorder", "hex", "rand_core", "rand_pcg", "clap"];

/// Calls that take an allocator and that Rust has under the same name without one: the shim's names for them, and the traits that have
/// them.
const CALLS: [(&str, &str, &str); 2] = [
    ("to_vec", "copied_in", "SliceCalls"),
    ("collect", "collected_in", "IteratorCalls"),
];

/// How the name of a step begins that only tells the prover a fact.
const LEARN: &str = "learn_";

/// They take memory and can't fail, or the shim has them under another name. None may stay: an allocation that aborts would slip in.
const BANNED: &str = "alloc collect concat into_boxed_slice into_vec join repeat sort sort_by sort_by_cached_key sort_by_key to_owned \
                      to_string to_vec";

struct Edit {
    start: usize,
    end: usize,
    new: String,
}

pub struct Eraser<'a> {
    place: &'a Place<'a>,
    pub text: &'a str,
    pub tokens: Vec<Token>,
    has_exports: bool,
    edits: Vec<Edit>,
    shim: Vec<&'static str>,
}

impl<'a> Eraser<'a> {
    fn step(&mut self, at: usize) -> Erased<usize> {
        match self.word(at) {
            "ghost" => self.ghost(at),
            "#" => self.attribute(at),
            "impl" if self.is_model(at) => {
                let open = self.find(at, "{")?;
                Ok(self.cut_item(at, self.close(open)?))
            }
            "fn" if self.is_name(at + 1) => self.function(at),
            "use" => self.import_of(at),
            "Drop" => self.bound(at),
            "extern" => self.export(at),
            "mod" if self.place.laws_alone && self.word(at + 1) == "laws" => {
                Ok(self.cut_item(at - usize::from(self.is_public(at)), at + 2))
            }
            "mod" if self.has_exports && self.is_name(at + 1) => Ok(self.open_module(at)),
            "requires" | "ensures" | "invariant" | "prove" => self.unknown(at, "a clause here"),
            _ if self.tokens[at].kind == Kind::Name => self.name(at),
            sign if sign.is_ascii() => Ok(at + 1),
            _ if matches!(self.tokens[at].kind, Kind::Text | Kind::Char) => Ok(at + 1),
            _ => self.unknown(at, "a sign that Rust hasn't"),
        }
    }

    fn ghost(&mut self, at: usize) -> Erased<usize> {
        if self.word(at + 1) == "use" {
            let end = self.find(at, ";")?;
            return Ok(self.cut_item(at, end));
        }
        if !self.is_name(at + 1) || !matches!(self.word(at + 2), ":" | "=") {
            return self.unknown(at, "a ghost");
        }
        if self.word(at + 3) != "{" {
            return self.unknown(at, "a ghost without braces");
        }
        let mut end = self.close(at + 3)? + 1;
        if self.word(end) == "by" && self.word(end + 1) == "{" {
            end = self.close(end + 1)? + 1;
        }
        match self.word(end) {
            ";" | "," => Ok(self.cut_item(at, end)),
            _ => self.unknown(end, "an end of a ghost"),
        }
    }

    fn attribute(&mut self, at: usize) -> Erased<usize> {
        let open = if self.word(at + 1) == "!" {
            at + 2
        } else {
            at + 1
        };
        let close = self.close(open)?;
        match self.word(open + 1) {
            "tactic" => Ok(self.cut_lines(at, close)),
            "unsafe" if self.words(open + 2, close) == ["(", "no_mangle", ")"] => {
                Ok(self.cut_lines(at, close))
            }
            "error" => Ok(self.cut_item(at, close)),
            "derive" => self.derive(at, open + 2, close),
            "test" => self.test(close + 1),
            "cfg" | "default" | "inline" | "repr" => Ok(close + 1),
            _ => self.unknown(open + 1, "an attribute"),
        }
    }

    /// Derives without those that Rust hasn't; for an error's the impls that it stands for.
    fn derive(&mut self, at: usize, open: usize, close: usize) -> Erased<usize> {
        let all: Vec<&str> = (open + 1..close - 1)
            .map(|i| self.word(i))
            .filter(|word| *word != ",")
            .collect();
        let kept: Vec<&str> = all
            .iter()
            .copied()
            .filter(|word| !matches!(*word, "Drop" | "Error"))
            .collect();
        if all.contains(&"Error") {
            let (end, impls) = display::impls(self, close + 1)?;
            let end = self.tokens[end].end;
            self.edits.push(edit(end, end, format!("\n\n{impls}")));
        }
        if kept.is_empty() {
            return Ok(self.cut_lines(at, close));
        }
        if kept.len() < all.len() {
            let (start, end) = (self.tokens[open].end, self.tokens[close - 1].start);
            self.edits.push(edit(start, end, kept.join(", ")));
        }
        Ok(close + 1)
    }

    /// A test gets its runtime from the shim, and not as a parameter.
    fn test(&mut self, at: usize) -> Erased<usize> {
        let params = at + 2;
        if self.word(at) != "fn" || self.word(params) != "(" {
            return self.unknown(at, "a test");
        }
        let close = self.close(params)?;
        if close > params + 1 {
            if self.words(params + 1, close) != ["rt", ":", "HostRuntime"] {
                return self.unknown(params, "the parameters of a test");
            }
            let (start, end) = (self.tokens[params].end, self.tokens[close].start);
            self.edits.push(edit(start, end, String::new()));
            let body = self.find(close, "{")?;
            let end = self.tokens[body].end;
            self.edits.push(edit(
                end,
                end,
                "\n    let rt = HostRuntime::new();".to_owned(),
            ));
            self.need("HostRuntime");
        }
        Ok(close + 1)
    }

    /// A function loses its contract. A law goes whole.
    fn function(&mut self, at: usize) -> Erased<usize> {
        let mut end = at + 2;
        while !matches!(self.word(end), "{" | ";" | "requires" | "ensures") {
            end = match self.word(end) {
                "(" | "[" => self.close(end)? + 1,
                "" => return self.unknown(at, "a function without an end"),
                _ => end + 1,
            };
        }
        let mut body = end;
        while matches!(self.word(body), "requires" | "ensures") {
            let open = self.opening(body);
            if self.word(open) != "{" {
                return self.unknown(body, "a clause");
            }
            body = self.close(open)? + 1;
        }
        if !matches!(self.word(body), "{" | ";") {
            return self.unknown(body, "an end of a contract");
        }
        if self.place.laws && self.is_law(at, end, body) {
            return Ok(self.cut_item(at - 1, body + 1));
        }
        if self.word(at + 1).starts_with(LEARN) {
            return self.learnt(at, end, body);
        }
        if self.place.program && self.word(at + 1) == "main" {
            let start = self.tokens[at].start;
            self.edits
                .push(edit(start, start, "pub(crate) ".to_owned()));
        }
        if body > end {
            let gap = if self.word(body) == "{" { " " } else { "" };
            self.tests(at, end, body)?;
            let (start, end) = (self.tokens[end - 1].end, self.tokens[body].start);
            self.edits.push(edit(start, end, gap.to_owned()));
        }
        self.signature(at + 1, end)?;
        Ok(body)
    }

    /// It takes nothing that may change and returns nothing, so it does nothing, and its name says that it is for the prover.
    fn learnt(&mut self, at: usize, end: usize, body: usize) -> Erased<usize> {
        let changes = (at..end).any(|i| self.word(i) == "mut" || self.is_sign(i, "->"));
        if changes || self.word(body) != "{" {
            return self.unknown(at + 1, "a step that may do something");
        }
        let mut first = at;
        if self.word(first - 1) == ")" {
            first -= 3;
        }
        first -= usize::from(self.word(first - 1) == "pub");
        while self.word(first - 1) == "]" {
            first = self.open(first - 1)? - 1;
        }
        let start = self.comments_above(self.line_start(self.tokens[first].start));
        Ok(self.cut(start, self.close(body)?))
    }

    /// A call of such a step goes, a statement of its own.
    fn call_of_learnt(&mut self, at: usize) -> Erased<usize> {
        let close = self.close(at + 1)?;
        let mut first = at;
        loop {
            first = match self.word(first - 1) {
                "." if matches!(self.word(first - 2), ")" | "]") => {
                    let open = self.open(first - 2)?;
                    open - usize::from(self.is_name(open - 1))
                }
                "." => first - 2,
                ":" => first - 3,
                _ => break,
            };
        }
        let is_statement = matches!(self.word(first - 1), ";" | "{" | "}");
        if !is_statement || self.word(close + 1) != ";" {
            return self.unknown(at, "a step that isn't a statement");
        }
        Ok(self.cut_lines(first, close + 1))
    }

    /// Where the braces of a clause open: behind its star, where it speaks of what is owned, and its name.
    fn opening(&self, clause: usize) -> usize {
        let star = clause + 1 + usize::from(self.word(clause + 1) == "*");
        star + usize::from(self.is_name(star))
    }

    fn tests(&mut self, at: usize, end: usize, body: usize) -> Erased<()> {
        if self.word(body) != "{" {
            return Ok(());
        }
        let mut first = at + 2;
        while first < end && self.word(first) != "(" {
            first += 1;
        }
        let params = require::params(self, first, self.close(first)?);
        let line = self.line_start(self.tokens[at].start);
        let text = &self.text[line..];
        let indent = " ".repeat(text.len() - text.trim_start().len() + 4);
        let mut clause = end;
        let mut tests = String::new();
        while clause < body {
            let open = self.opening(clause);
            let close = self.close(open)?;
            if self.word(clause) == "requires" {
                let words = self.words(open + 1, close);
                for test in require::tests(&params, &words).unwrap_or_default() {
                    tests += &format!("\n{indent}{test}");
                }
            }
            clause = close + 1;
        }
        let after = self.tokens[body].end;
        self.edits.push(edit(after, after, tests));
        Ok(())
    }

    fn signature(&mut self, from: usize, to: usize) -> Erased<()> {
        let mut at = from;
        while at < to {
            at = self.step(at)?;
        }
        Ok(())
    }

    fn is_law(&self, at: usize, end: usize, body: usize) -> bool {
        self.word(at - 1) == "pub"
            && self.words(at + 2, end) == ["(", ")"]
            && body > end
            && self.words(body, body + 2) == ["{", "}"]
    }

    fn is_public(&self, at: usize) -> bool {
        at > 0 && self.word(at - 1) == "pub"
    }

    fn import_of(&mut self, at: usize) -> Erased<usize> {
        let end = self.find(at, ";")?;
        let path = self.words(at + 1, end).concat();
        let is_public = self.is_public(at);
        let first = at - usize::from(is_public);
        let hands_on_laws =
            is_public && (path.ends_with("::laws") || self.place.laws && path.contains("::laws::"));
        if hands_on_laws || matches!(path.as_str(), "std::marker::Model" | "thiserror::Error") {
            return Ok(self.cut_item(first, end));
        }
        self.signature(at + 1, end)?;
        Ok(end)
    }

    /// A plain function: the package for C, by hand, has one of that name that C can call, so that the library forbids unsafe code.
    fn export(&mut self, at: usize) -> Erased<usize> {
        if self.words(at + 1, at + 3) != ["\"C\"", "fn"] {
            return self.unknown(at, "a function of another language");
        }
        let (start, end) = (self.tokens[at].start, self.tokens[at + 2].start);
        self.edits.push(edit(start, end, String::new()));
        Ok(at + 2)
    }

    /// That one names the types of what C passes, so their modules are open to it.
    fn open_module(&mut self, at: usize) -> usize {
        let start = self.tokens[at].start;
        self.edits
            .push(edit(start, start, "pub(crate) ".to_owned()));
        at + 1
    }

    /// `Drop` as a bound or the base of a trait.
    fn bound(&mut self, at: usize) -> Erased<usize> {
        let (from, to) = match (self.word(at - 1), self.word(at + 1)) {
            (":", "+") => (at, at + 1),
            (":", ">" | "," | "{") => (at - 1, at),
            ("+", ">" | "," | "{" | "+") => (at - 1, at),
            _ => return self.unknown(at, "a bound"),
        };
        let (mut start, mut end) = (self.tokens[from].start, self.tokens[to].end);
        if from == at {
            end = self.tokens[to + 1].start;
        } else {
            start = start.min(self.tokens[from - 1].end);
        }
        self.edits.push(edit(start, end, String::new()));
        Ok(at + 1)
    }

    /// A name: the first of a path, one of the prelude, or a call.
    fn name(&mut self, at: usize) -> Erased<usize> {
        let word = self.word(at);
        let before = self.word_before(at);
        if word.starts_with(LEARN) {
            return self.call_of_learnt(at);
        }
        if self.is_sign(at + 1, "::") && !(at >= 2 && self.is_sign(at - 2, "::")) {
            return self.path(at);
        }
        if before == "." && self.word(at + 1) == "(" {
            if word == "expect" && self.words(at + 2, at + 5) == ["&", "rt", ","] {
                let (start, end) = (self.tokens[at + 2].start, self.tokens[at + 5].start);
                self.edits.push(edit(start, end, String::new()));
                return Ok(at + 5);
            }
            let renamed = CALLS
                .iter()
                .find(|(old, _, _)| *old == word && self.word(at + 2) != ")");
            if let Some((_, new, owner)) = renamed {
                let Token { start, end, .. } = self.tokens[at];
                self.edits.push(edit(start, end, (*new).to_owned()));
                self.need(owner);
            } else if BANNED.split(' ').any(|call| call == word)
                && !(word == "alloc" && self.is_runtime(at))
            {
                return self.unknown(at, "a call that takes memory and can't fail");
            }
            return Ok(at + 1);
        }
        let is_macro = self.word(at + 1) == "!" && self.word(at + 2) != "=";
        let needed = PRELUDE
            .split(' ')
            .find(|name| match name.strip_suffix('!') {
                Some(bare) => is_macro && bare == word,
                None => *name == word,
            });
        if let Some(name) = needed {
            self.need(name);
        }
        Ok(at + 1)
    }

    fn is_runtime(&self, at: usize) -> bool {
        at >= 2 && self.word(at - 2) == "rt"
    }

    /// The first name of a path says which crate it is in.
    fn path(&mut self, at: usize) -> Erased<usize> {
        let word = self.word(at);
        let Token { start, end, .. } = self.tokens[at];
        if word == "crate" {
            let new = format!("crate::proved::{}", self.place.krate);
            self.edits.push(edit(start, end, new));
        } else if self.place.erased.contains(&word) {
            self.edits
                .push(edit(start, start, "crate::proved::".to_owned()));
        } else if word == "std" {
            self.edits.push(edit(start, end, "crate::shim".to_owned()));
        } else if SHIMMED.contains(&word) {
            self.edits
                .push(edit(start, start, "crate::shim::".to_owned()));
        } else if word.starts_with("qs_") || word == "core" || word == "alloc" {
            return self.unknown(at, "a crate");
        } else if let Some(name) = PRELUDE.split(' ').find(|name| *name == word) {
            self.need(name);
        }
        Ok(at + 1)
    }

    fn need(&mut self, name: &'static str) {
        if !self.shim.contains(&name) {
            self.shim.push(name);
        }
    }

    fn import(&mut self) {
        self.shim.sort_unstable();
        let names: Vec<&str> = self
            .shim
            .iter()
            .map(|name| name.trim_end_matches('!'))
            .collect();
        let import = match names.as_slice() {
            [] => return,
            [name] => format!("use crate::shim::{name};\n"),
            names => format!("use crate::shim::{{{}}};\n", names.join(", ")),
        };
        let mut at = 0;
        for line in self.text.split_inclusive('\n') {
            if !line.starts_with("//!") && !line.starts_with("#!") && !line.trim().is_empty() {
                break;
            }
            at += line.len();
        }
        self.edits.push(edit(at, at, import));
    }

    /// Links of doc comments have the paths that names have, so that the documents of the made text hold together.
    fn link(&mut self) {
        let mut at = 0;
        for line in self.text.split_inclusive('\n') {
            let words = line.trim_start();
            let links = line
                .match_indices("[`crate::")
                .chain(line.match_indices("(crate::"));
            for (place, opening) in links {
                if words.starts_with("///") || words.starts_with("//!") {
                    let end = at + place + opening.len();
                    let new = format!("proved::{}::", self.place.krate);
                    self.edits.push(edit(end, end, new));
                }
            }
            at += line.len();
        }
    }

    /// Blank lines that follow one another become one, for what is taken out leaves its own.
    fn apply(mut self) -> String {
        self.edits.sort_by_key(|edit| (edit.start, edit.end));
        let mut out = String::new();
        let mut from = 0;
        for edit in &self.edits {
            if edit.start < from {
                assert!(
                    edit.end <= from,
                    "an edit goes past an item that is taken out"
                );
                continue;
            }
            out.push_str(&self.text[from..edit.start]);
            out.push_str(&edit.new);
            from = edit.end;
            let starts = out.is_empty() || out.ends_with("\n\n") || out.ends_with("{\n");
            if starts && edit.end > edit.start && edit.new.is_empty() {
                let rest = &self.text[from..];
                from += rest.len() - rest.trim_start_matches('\n').len();
            }
        }
        out.push_str(&self.text[from..]);
        out
    }

    /// Takes an item out, with the comments above it.
    fn cut_item(&mut self, first: usize, last: usize) -> usize {
        let start = self.line_start(self.tokens[first].start);
        let start = if self.word(first) == "#" {
            start
        } else {
            self.comments_above(start)
        };
        self.cut(start, last)
    }

    /// The first of the comments that stand right above a line, messages of errors, and what helps a proof.
    fn comments_above(&self, line: usize) -> usize {
        let mut start = line;
        while start > 0 {
            let above = self.line_start(start - 1);
            let line = self.text[above..start].trim_start();
            let is_comment = line.starts_with("//") && !line.starts_with("//!");
            let is_attribute = line.starts_with("#[error") || line.starts_with("#[tactic");
            if !is_comment && !is_attribute {
                break;
            }
            start = above;
        }
        start
    }

    fn cut_lines(&mut self, first: usize, last: usize) -> usize {
        self.cut(self.line_start(self.tokens[first].start), last)
    }

    fn cut(&mut self, start: usize, last: usize) -> usize {
        let end = self.tokens[last].end;
        let rest = &self.text[end..];
        let line = rest.find('\n').map_or(rest.len(), |at| at + 1);
        let (start, end) = if rest[..line].trim().is_empty() {
            (start, end + line)
        } else {
            (self.tokens[last].end, end)
        };
        self.edits.push(edit(start, end, String::new()));
        last + 1
    }

    fn line_start(&self, at: usize) -> usize {
        self.text[..at].rfind('\n').map_or(0, |feed| feed + 1)
    }

    fn is_model(&self, at: usize) -> bool {
        let mut at = at + 1;
        if self.word(at) == "<" {
            let mut depth = 0;
            loop {
                match self.word(at) {
                    "<" => depth += 1,
                    ">" => depth -= 1,
                    "" => return false,
                    _ => {}
                }
                at += 1;
                if depth == 0 {
                    break;
                }
            }
        }
        self.word(at) == "Model" && self.word(at + 1) == "for"
    }

    fn find(&self, from: usize, word: &str) -> Erased<usize> {
        let mut at = from;
        loop {
            match self.word(at) {
                found if found == word => return Ok(at),
                "(" | "[" | "{" => at = self.close(at)? + 1,
                "" => return self.unknown(from, "an item without an end"),
                _ => at += 1,
            }
        }
    }

    pub fn close(&self, open: usize) -> Erased<usize> {
        let mut depth = 0;
        for at in open..self.tokens.len() {
            match self.word(at) {
                "(" | "[" | "{" => depth += 1,
                ")" | "]" | "}" => depth -= 1,
                _ => {}
            }
            if depth == 0 {
                return Ok(at);
            }
        }
        self.unknown(open, "a bracket that isn't closed")
    }

    fn open(&self, close: usize) -> Erased<usize> {
        let mut depth = 0;
        for at in (0..=close).rev() {
            match self.word(at) {
                "(" | "[" | "{" => depth -= 1,
                ")" | "]" | "}" => depth += 1,
                _ => {}
            }
            if depth == 0 {
                return Ok(at);
            }
        }
        self.unknown(close, "a bracket that wasn't opened")
    }

    pub fn word(&self, at: usize) -> &'a str {
        self.tokens
            .get(at)
            .map_or("", |token| &self.text[token.start..token.end])
    }

    fn word_before(&self, at: usize) -> &'a str {
        at.checked_sub(1).map_or("", |at| self.word(at))
    }

    fn words(&self, from: usize, to: usize) -> Vec<&'a str> {
        (from..to).map(|at| self.word(at)).collect()
    }

    fn is_name(&self, at: usize) -> bool {
        self.tokens
            .get(at)
            .is_some_and(|token| token.kind == Kind::Name)
    }

    fn is_sign(&self, at: usize, sign: &str) -> bool {
        self.tokens
            .get(at)
            .is_some_and(|token| self.text[token.start..].starts_with(sign))
    }

    pub fn unknown<T>(&self, at: usize, what: &str) -> Erased<T> {
        let at = at.min(self.tokens.len().saturating_sub(1));
        Err(Unknown {
            at: self.tokens.get(at).map_or(0, |token| token.start),
            what: format!("{what}: '{}'", self.word(at)),
        })
    }
}

fn edit(start: usize, end: usize, new: String) -> Edit {
    Edit { start, end, new }
}
