//! Clauses `requires` that Rust can spell: comparisons of numbers.

use crate::erase::Eraser;

const NUMBERS: [&str; 2] = ["u64", "usize"];

/// The parameters of a function that a test may name, each with its type; a slice has that of its length.
pub type Params<'a> = Vec<(&'a str, &'a str, bool)>;

/// The numbers and the slices among the parameters between two parentheses.
pub fn params<'a>(eraser: &Eraser<'a>, open: usize, close: usize) -> Params<'a> {
    let mut found = Vec::new();
    for at in open..close {
        let is_param = matches!(eraser.word(at), "(" | "," | "mut") && eraser.word(at + 2) == ":";
        if !is_param {
            continue;
        }
        let (name, kind) = (eraser.word(at + 1), at + 3);
        if NUMBERS.contains(&eraser.word(kind)) && matches!(eraser.word(kind + 1), "," | ")") {
            found.push((name, eraser.word(kind), false));
        }
        let slice = kind + 1 + usize::from(eraser.word(kind + 1) == "mut");
        if eraser.word(kind) == "&" && eraser.word(slice) == "[" {
            found.push((name, "usize", true));
        }
    }
    found
}

/// `None` if it has others than comparisons of numbers, which Rust can't spell.
pub fn tests(params: &Params<'_>, words: &[&str]) -> Option<Vec<String>> {
    words
        .split(|word| *word == "×")
        .map(|part| match part {
            ["(", inner @ .., ")"] => comparison(params, inner),
            part => comparison(params, part),
        })
        .map(|test| Some(format!("debug_assert!({});", test?)))
        .collect()
}

fn comparison(params: &Params<'_>, words: &[&str]) -> Option<String> {
    let place = words.iter().position(|word| matches!(*word, "<" | "≤"))?;
    let (left, left_type) = operand(params, &words[..place])?;
    let (right, right_type) = operand(params, &words[place + 1..])?;
    let number = left_type.or(right_type)?;
    if left_type.is_some_and(|it| it != number) || right_type.is_some_and(|it| it != number) {
        return None;
    }
    let sign = if words[place] == "<" { "<" } else { "<=" };
    Some(format!("{left} {sign} {right}"))
}

/// A number as Rust spells it, and its type, where it isn't that of the other side.
fn operand<'a>(params: &Params<'a>, words: &[&str]) -> Option<(String, Option<&'a str>)> {
    let param = |name: &str, is_slice: bool| {
        params
            .iter()
            .find(|it| it.0 == name && it.2 == is_slice)
            .map(|it| it.1)
    };
    match words {
        ["MAX_VARINT"] => Some(("0x3fff_ffff_ffff_ffff".to_owned(), None)),
        ["MAX_WINDOW"] => Some(("1 << 30".to_owned(), None)),
        ["MAX_CONN_WINDOW"] => Some(("1 << 40".to_owned(), None)),
        ["2", "^", exponent] if exponent.parse::<u32>().ok()? < 64 => {
            Some((format!("1 << {exponent}"), None))
        }
        ["length", name, ".", "now" | "old"] => {
            Some((format!("{name}.len()"), Some(param(name, true)?)))
        }
        [word] if word.bytes().all(|byte| byte.is_ascii_digit()) => {
            Some(((*word).to_owned(), None))
        }
        [name] => Some(((*name).to_owned(), Some(param(name, false)?))),
        _ => None,
    }
}
