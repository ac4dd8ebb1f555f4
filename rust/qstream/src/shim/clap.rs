//! Command lines of words and of options with a value: as much of the crate `clap` as the program uses.

use super::alloc::{AllocError, Global};
use super::{String, Vec};
use std::fmt;

pub mod error {
    /// What is wrong with a command line, or what it asks for in place of a run.
    #[derive(Clone, Copy, Debug, PartialEq, Eq)]
    pub enum ErrorKind {
        UnknownArgument,
        InvalidSubcommand,
        /// A value is wanting.
        InvalidValue,
        TooManyValues,
        /// An argument stands twice.
        ArgumentConflict,
        MissingRequiredArgument,
        MissingSubcommand,
        DisplayHelp,
        DisplayVersion,
        OutOfMemory,
    }
}

use error::ErrorKind;

/// Why a command line was refused. Its text says so in the words of `clap`, without the usage that stands there behind an empty line.
#[derive(Debug)]
pub struct Error {
    kind: ErrorKind,
    text: String,
}

impl Error {
    fn new(alloc: Global, kind: ErrorKind, text: fmt::Arguments<'_>) -> Self {
        let mut made = String::new(alloc);
        match made.write_fmt(text) {
            Ok(()) => Error { kind, text: made },
            Err(refused) => refused.into(),
        }
    }

    pub fn kind(&self) -> ErrorKind {
        self.kind
    }
}

impl fmt::Display for Error {
    fn fmt(&self, f: &mut fmt::Formatter<'_>) -> fmt::Result {
        writeln!(f, "error: {}", &*self.text)
    }
}

impl From<AllocError> for Error {
    fn from(_refused: AllocError) -> Self {
        Error {
            kind: ErrorKind::OutOfMemory,
            text: String::new(Global),
        }
    }
}

/// What comes of an option: it takes no value, and tells that it is there.
#[derive(Clone, Copy, PartialEq, Eq)]
pub enum ArgAction {
    SetTrue,
}

/// An argument: a word at its place, the value of an option with a long name, or such an option without a value.
#[derive(Clone, Copy)]
pub struct Arg<'a> {
    id: &'a str,
    long: Option<&'a str>,
    action: Option<ArgAction>,
    required: bool,
}

impl<'a> Arg<'a> {
    pub fn new(_alloc: Global, id: &'a str) -> Self {
        Arg {
            id,
            long: None,
            action: None,
            required: false,
        }
    }

    pub fn action(mut self, action: ArgAction) -> Self {
        self.action = Some(action);
        self
    }

    pub fn long(mut self, name: &'a str) -> Self {
        self.long = Some(name);
        self
    }

    pub fn required(mut self, is_required: bool) -> Self {
        self.required = is_required;
        self
    }
}

/// As messages name it.
impl fmt::Display for Arg<'_> {
    fn fmt(&self, f: &mut fmt::Formatter<'_>) -> fmt::Result {
        match (self.long, self.action) {
            (None, _) => write!(f, "<{}>", self.id),
            (Some(long), None) => write!(f, "--{long} <{}>", self.id),
            (Some(long), Some(ArgAction::SetTrue)) => write!(f, "--{long}"),
        }
    }
}

/// An option whose value is waited for or has come. A fault of the option behind it comes before its own.
type Waiting<'c, 'a> = Option<(&'c Arg<'a>, Option<&'a str>)>;

/// A command with its arguments and its subcommands.
pub struct Command<'a> {
    alloc: Global,
    name: &'a str,
    version: Option<&'a str>,
    args: Vec<Arg<'a>>,
    subcommands: Vec<Command<'a>>,
    needs_subcommand: bool,
}

impl<'a> Command<'a> {
    pub fn new(alloc: Global, name: &'a str) -> Self {
        Command {
            alloc,
            name,
            version: None,
            args: Vec::new(alloc),
            subcommands: Vec::new(alloc),
            needs_subcommand: false,
        }
    }

    /// It then has an option that asks for it. The text itself is never asked for here.
    pub fn version(mut self, version: &'a str) -> Self {
        self.version = Some(version);
        self
    }

    pub fn arg(mut self, arg: Arg<'a>) -> Result<Self, AllocError> {
        self.args.push(arg)?;
        Ok(self)
    }

    pub fn subcommand(mut self, command: Command<'a>) -> Result<Self, AllocError> {
        self.subcommands.push(command)?;
        Ok(self)
    }

    pub fn subcommand_required(mut self, is_required: bool) -> Self {
        self.needs_subcommand = is_required;
        self
    }

    /// What the words ask for, the program's name first.
    pub fn try_get_matches_from(self, words: &'a [String]) -> Result<ArgMatches<'a>, Error> {
        self.matches(words.get(1..).unwrap_or(&[]))
    }

    fn matches(&self, words: &'a [String]) -> Result<ArgMatches<'a>, Error> {
        let mut found = ArgMatches {
            values: Vec::new(self.alloc),
            inner: None,
        };
        if let [first, rest @ ..] = words {
            if let Some(command) = self.subcommand_named(first) {
                let mut inner = Vec::new(self.alloc);
                inner
                    .push((command.name, command.matches(rest)?))
                    .map_err(|_| AllocError)?;
                found.inner = Some(inner);
                return Ok(found);
            }
            if !self.subcommands.is_empty() && first.as_str() == "help" {
                return Err(self.help(rest));
            }
        }
        self.take_words(words, &mut found)?;
        self.checked(found)
    }

    fn subcommand_named(&self, name: &str) -> Option<&Command<'a>> {
        self.subcommands.iter().find(|it| it.name == name)
    }

    /// What the words behind `help` ask for.
    fn help(&self, words: &[String]) -> Error {
        match words {
            [] => self.asks(ErrorKind::DisplayHelp),
            [name, rest @ ..] => match self.subcommand_named(name) {
                Some(command) => command.help(rest),
                None => self.no_subcommand(name),
            },
        }
    }

    fn asks(&self, kind: ErrorKind) -> Error {
        Error::new(self.alloc, kind, format_args!(""))
    }

    fn no_subcommand(&self, name: &str) -> Error {
        self.error(
            ErrorKind::InvalidSubcommand,
            format_args!("unrecognized subcommand '{name}'"),
        )
    }

    /// Nothing has that name. Of short options in one word the first is named.
    fn unexpected(&self, name: &str) -> Error {
        let end = match name.strip_prefix('-').and_then(|rest| rest.chars().next()) {
            Some(first) if first != '-' => 1 + first.len_utf8(),
            _ => name.len(),
        };
        self.error(
            ErrorKind::UnknownArgument,
            format_args!("unexpected argument '{}' found", &name[..end]),
        )
    }

    fn error(&self, kind: ErrorKind, text: fmt::Arguments<'_>) -> Error {
        Error::new(self.alloc, kind, text)
    }

    /// Takes words at their places, and options. Behind a word `--` all are words.
    fn take_words<'c>(
        &'c self,
        words: &'a [String],
        found: &mut ArgMatches<'a>,
    ) -> Result<(), Error> {
        let mut places = self.args.iter().filter(|arg| arg.long.is_none());
        let mut waiting: Waiting<'c, 'a> = None;
        let mut are_words = false;
        for word in words.iter().map(String::as_str) {
            if are_words || option_of(word).is_none() {
                if let Some((_, value @ None)) = waiting.as_mut().filter(|_| !are_words) {
                    *value = Some(word);
                    continue;
                }
                let arg = places.next().ok_or_else(|| self.surplus(word, are_words))?;
                self.settle(&mut waiting, found)?;
                self.put(found, arg, word)?;
            } else if word == "--" {
                are_words = true;
            } else {
                self.take_option(word, &mut waiting, found)?;
            }
        }
        self.settle(&mut waiting, found)
    }

    /// The option that waits, if one does, is done with.
    fn settle(
        &self,
        waiting: &mut Waiting<'_, 'a>,
        found: &mut ArgMatches<'a>,
    ) -> Result<(), Error> {
        match waiting.take() {
            Some((arg, Some(value))) => self.put(found, arg, value),
            Some((arg, None)) => Err(self.error(
                ErrorKind::InvalidValue,
                format_args!("a value is required for '{arg}' but none was supplied"),
            )),
            None => Ok(()),
        }
    }

    /// What is wrong with a word that there is no place for.
    fn surplus(&self, word: &str, is_behind_dashes: bool) -> Error {
        let is_known = self.subcommand_named(word).is_some();
        if self.subcommands.is_empty() || is_behind_dashes && (is_known || word == "help") {
            self.error(
                ErrorKind::UnknownArgument,
                format_args!("unexpected argument '{word}' found"),
            )
        } else {
            self.no_subcommand(word)
        }
    }

    /// An option, whose value stands behind a sign `=` or is waited for.
    fn take_option<'c>(
        &'c self,
        option: &'a str,
        waiting: &mut Waiting<'c, 'a>,
        found: &mut ArgMatches<'a>,
    ) -> Result<(), Error> {
        let (name, value) = match option.split_once('=') {
            Some((name, value)) if name.starts_with("--") => (name, Some(value)),
            _ => (option, None),
        };
        let asked = self.asked_by(name);
        let known = self
            .args
            .iter()
            .find(|arg| arg.long.is_some() && arg.long == name.strip_prefix("--"));
        let takes_value = known.is_some_and(|arg| arg.action.is_none());
        if asked.is_none() && known.is_none() {
            return Err(self.unexpected(name));
        }
        if let Some(value) = value.filter(|_| !takes_value) {
            return Err(self.error(
                ErrorKind::TooManyValues,
                format_args!(
                    "unexpected value '{value}' for '{name}' found; no more were expected"
                ),
            ));
        }
        self.settle(waiting, found)?;
        match (asked, known, value) {
            (Some(kind), ..) => Err(self.asks(kind)),
            (None, Some(arg), None) if takes_value => {
                *waiting = Some((arg, None));
                Ok(())
            }
            (None, Some(arg), value) => self.put(found, arg, value.unwrap_or("")),
            (None, None, _) => Ok(()),
        }
    }

    /// What an option asks for in place of a run.
    fn asked_by(&self, name: &str) -> Option<ErrorKind> {
        match name {
            "--help" => Some(ErrorKind::DisplayHelp),
            "--version" if self.version.is_some() => Some(ErrorKind::DisplayVersion),
            _ if name.starts_with("--") => None,
            _ => match name.as_bytes().get(1) {
                Some(b'h') => Some(ErrorKind::DisplayHelp),
                Some(b'V') if self.version.is_some() => Some(ErrorKind::DisplayVersion),
                _ => None,
            },
        }
    }

    /// An argument has one value at most.
    fn put(&self, found: &mut ArgMatches<'a>, arg: &Arg<'a>, value: &'a str) -> Result<(), Error> {
        if found.get_str(arg.id).is_some() {
            return Err(self.error(
                ErrorKind::ArgumentConflict,
                format_args!("the argument '{arg}' cannot be used multiple times"),
            ));
        }
        let pushed = found.values.push((arg.id, value));
        Ok(pushed.map_err(|_| AllocError)?)
    }

    fn checked(&self, found: ArgMatches<'a>) -> Result<ArgMatches<'a>, Error> {
        if self.needs_subcommand {
            return Err(self.asks(ErrorKind::MissingSubcommand));
        }
        let mut missing = String::new(self.alloc);
        for arg in self.args.iter().filter(|arg| arg.required) {
            if found.get_str(arg.id).is_none() {
                write!(missing, "\n  {arg}")?;
            }
        }
        if missing.is_empty() {
            return Ok(found);
        }
        Err(self.error(
            ErrorKind::MissingRequiredArgument,
            format_args!(
                "the following required arguments were not provided:{}",
                &*missing
            ),
        ))
    }
}

/// A word that begins with a dash and isn't one alone.
fn option_of(word: &str) -> Option<&str> {
    (word.len() > 1 && word.starts_with('-')).then_some(word)
}

/// The values of a command's arguments, and the subcommand with its own.
pub struct ArgMatches<'a> {
    values: Vec<(&'a str, &'a str)>,
    /// One at most.
    inner: Option<Vec<(&'a str, ArgMatches<'a>)>>,
}

impl<'a> ArgMatches<'a> {
    pub fn get_str(&self, id: &str) -> Option<&'a str> {
        let value = self.values.iter().find(|value| value.0 == id)?;
        Some(value.1)
    }

    pub fn get_flag(&self, id: &str) -> bool {
        self.get_str(id).is_some()
    }

    /// The subcommand's name and its values.
    pub fn subcommand(&self) -> Option<(&'a str, &ArgMatches<'a>)> {
        let (name, found) = self.inner.as_ref()?.first()?;
        Some((name, found))
    }
}
