//! The impls that a derive of thiserror's `Error` stands for.

use crate::erase::{Erased, Eraser};

/// A variant, or the struct itself.
struct Shape<'a> {
    name: String,
    message: &'a str,
    fields: Fields,
}

enum Fields {
    None,
    Named,
    Numbered(usize),
}

pub fn impls(eraser: &Eraser<'_>, from: usize) -> Erased<(usize, String)> {
    let (message, at) = message(eraser, from)?;
    let at = at + usize::from(eraser.word(at) == "pub");
    let name = eraser.word(at + 1);
    let (end, arms) = match eraser.word(at) {
        "struct" => {
            let (end, shape) = shape(eraser, "Self".to_owned(), message, at + 2)?;
            let end = end + usize::from(eraser.word(end + 1) == ";");
            (end, vec![arm(eraser, from, &shape)?])
        }
        "enum" if message.is_none() && eraser.word(at + 2) == "{" => {
            let end = eraser.close(at + 2)?;
            (end, variants(eraser, at + 3, end)?)
        }
        _ => return eraser.unknown(at, "an error"),
    };
    let arms: String = arms
        .iter()
        .map(|arm| format!("            {arm},\n"))
        .collect();
    let impls = format!(
        "impl core::fmt::Display for {name} {{\n    \
         fn fmt(&self, f: &mut core::fmt::Formatter<'_>) -> core::fmt::Result {{\n        \
         match self {{\n{arms}        }}\n    }}\n}}\n\n\
         impl core::error::Error for {name} {{}}"
    );
    Ok((end, impls))
}

fn variants(eraser: &Eraser<'_>, from: usize, end: usize) -> Erased<Vec<String>> {
    let mut arms = Vec::new();
    let mut at = from;
    while at < end {
        let (message, name) = message(eraser, at)?;
        let path = format!("Self::{}", eraser.word(name));
        let (last, shape) = shape(eraser, path, message, name + 1)?;
        arms.push(arm(eraser, at, &shape)?);
        at = last + 1 + usize::from(eraser.word(last + 1) == ",");
    }
    Ok(arms)
}

fn message<'a>(eraser: &Eraser<'a>, at: usize) -> Erased<(Option<&'a str>, usize)> {
    if eraser.word(at) != "#" {
        return Ok((None, at));
    }
    let close = eraser.close(at + 1)?;
    if eraser.word(at + 2) != "error" || close != at + 6 {
        return eraser.unknown(at, "an attribute of an error");
    }
    Ok((Some(eraser.word(at + 4)), close + 1))
}

fn shape<'a>(
    eraser: &Eraser<'a>,
    name: String,
    message: Option<&'a str>,
    at: usize,
) -> Erased<(usize, Shape<'a>)> {
    let Some(message) = message else {
        return eraser.unknown(at, "an error without a message");
    };
    let (last, fields) = match eraser.word(at) {
        "{" => (eraser.close(at)?, Fields::Named),
        "(" => {
            let close = eraser.close(at)?;
            let commas = (at..close).filter(|i| eraser.word(*i) == ",").count();
            (close, Fields::Numbered(commas + 1))
        }
        _ => (at - 1, Fields::None),
    };
    let shape = Shape {
        name,
        message,
        fields,
    };
    Ok((last, shape))
}

fn arm(eraser: &Eraser<'_>, at: usize, shape: &Shape<'_>) -> Erased<String> {
    let Shape { name, message, .. } = shape;
    let Some(named) = names(message) else {
        return eraser.unknown(at, "a message");
    };
    if named.is_empty() {
        let fields = match shape.fields {
            Fields::None => "",
            Fields::Named => " { .. }",
            Fields::Numbered(_) => "(..)",
        };
        return Ok(format!("{name}{fields} => f.write_str({message})"));
    }
    match shape.fields {
        Fields::Named => {
            let fields = named.join(", ");
            Ok(format!("{name} {{ {fields}, .. }} => write!(f, {message})"))
        }
        Fields::Numbered(1) if named == ["0"] => {
            Ok(format!("{name}(field) => write!(f, {message}, field)"))
        }
        _ => eraser.unknown(at, "a message"),
    }
}

/// Each once, since a pattern may bind a name once.
fn names(message: &str) -> Option<Vec<&str>> {
    let mut names = Vec::new();
    for part in message.split('{').skip(1) {
        let (inner, rest) = part.split_once('}')?;
        if rest.contains('}') {
            return None;
        }
        let name = inner.split(':').next()?;
        if name.is_empty() {
            return None;
        }
        if !names.contains(&name) {
            names.push(name);
        }
    }
    Some(names)
}
