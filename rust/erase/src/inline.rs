//! Short functions that other modules call may be inlined by them: a build with many codegen units otherwise makes calls of them all.
//! One that only its own module calls needs no word for it, and would take rustc's time for nothing.

use crate::lex::{Kind, Token, tokens};

/// Longer functions gain nothing by it.
const LINES: usize = 40;

/// What stands between an item's beginning and its `fn`. What stands in a visibility's parentheses is behind them.
const BEFORE: [&str; 4] = ["pub", "const", "unsafe", "default"];

/// The Rust text with `#[inline]` before each short function that has a visibility and says nothing of it by itself.
pub fn inline(rust: &str) -> String {
    let file = File {
        text: rust,
        tokens: tokens(rust).unwrap_or_default(),
    };
    let (mut out, mut from) = (String::new(), 0);
    for at in 0..file.tokens.len() {
        let Some(start) = file.short(at) else {
            continue;
        };
        let line = rust[..start].rfind('\n').map_or(0, |feed| feed + 1);
        out.push_str(&rust[from..start]);
        out.push_str("#[inline]\n");
        out.push_str(&rust[line..start]);
        from = start;
    }
    out + &rust[from..]
}

struct File<'a> {
    text: &'a str,
    tokens: Vec<Token>,
}

impl<'a> File<'a> {
    /// Where the item begins whose `fn` this token is, where it is to have the attribute.
    fn short(&self, at: usize) -> Option<usize> {
        if self.word(at) != "fn" || self.tokens.get(at + 1)?.kind != Kind::Name {
            return None;
        }
        let first = self.first(at);
        if self.word(first) != "pub" {
            return None;
        }
        let mut before = first;
        while self.word_before(before) == "]" {
            let open = self.open(before - 1)?;
            if self.word(open + 1) == "inline" {
                return None;
            }
            before = open.checked_sub(1)?;
        }
        let end = self.end(at)?;
        let start = self.tokens[first].start;
        let lines = 1 + self.text[start..end].matches('\n').count();
        (lines <= LINES).then_some(start)
    }

    fn first(&self, at: usize) -> usize {
        let mut first = at;
        loop {
            let before = self.word_before(first);
            if BEFORE.contains(&before) {
                first -= 1;
            } else if before == ")" && first >= 4 && self.word(first - 4) == "pub" {
                first -= 4;
            } else {
                return first;
            }
        }
    }

    fn end(&self, at: usize) -> Option<usize> {
        let mut depth = 0;
        for at in at..self.tokens.len() {
            match self.word(at) {
                "(" | "[" | "{" => depth += 1,
                ")" | "]" => depth -= 1,
                "}" if depth == 1 => return Some(self.tokens[at].end),
                "}" => depth -= 1,
                ";" if depth == 0 => return None,
                _ => {}
            }
        }
        None
    }

    fn open(&self, close: usize) -> Option<usize> {
        let mut depth = 0;
        for at in (0..=close).rev() {
            match self.word(at) {
                "]" => depth += 1,
                "[" => depth -= 1,
                _ => {}
            }
            if depth == 0 {
                return Some(at);
            }
        }
        None
    }

    fn word(&self, at: usize) -> &'a str {
        let token = self.tokens[at];
        &self.text[token.start..token.end]
    }

    fn word_before(&self, at: usize) -> &'a str {
        at.checked_sub(1).map_or("", |at| self.word(at))
    }
}
