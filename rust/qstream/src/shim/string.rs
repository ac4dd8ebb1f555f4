//! Text whose every growth can fail.

use super::alloc::{AllocError, Global};
use std::fmt;
use std::ops::Deref;

/// A text. Where memory is refused it keeps what went in.
#[derive(PartialEq, Eq)]
pub struct String {
    text: std::string::String,
}

impl String {
    /// An empty text. It takes no memory.
    pub const fn new(_alloc: Global) -> Self {
        String {
            text: std::string::String::new(),
        }
    }

    pub fn with_capacity(alloc: Global, count: usize) -> Result<Self, AllocError> {
        let mut made = String::new(alloc);
        made.reserve(count)?;
        Ok(made)
    }

    pub fn from_str(alloc: Global, text: &str) -> Result<Self, AllocError> {
        let mut made = String::with_capacity(alloc, text.len())?;
        made.text.push_str(text);
        Ok(made)
    }

    pub fn push_str(&mut self, text: &str) -> Result<(), AllocError> {
        self.reserve(text.len())?;
        self.text.push_str(text);
        Ok(())
    }

    /// What `write!` calls.
    pub fn write_fmt(&mut self, args: fmt::Arguments<'_>) -> Result<(), AllocError> {
        fmt::write(self, args).map_err(|_| AllocError)
    }

    pub fn as_str(&self) -> &str {
        &self.text
    }

    #[allow(dead_code, reason = "only tests call it")]
    pub fn clear(&mut self) {
        self.text.clear();
    }

    fn reserve(&mut self, count: usize) -> Result<(), AllocError> {
        self.text.try_reserve(count).map_err(|_| AllocError)
    }
}

impl fmt::Write for String {
    fn write_str(&mut self, text: &str) -> fmt::Result {
        self.push_str(text).map_err(|_| fmt::Error)
    }
}

impl Deref for String {
    type Target = str;

    fn deref(&self) -> &str {
        &self.text
    }
}

impl fmt::Debug for String {
    fn fmt(&self, f: &mut fmt::Formatter<'_>) -> fmt::Result {
        self.text.fmt(f)
    }
}

/// `format!(in alloc; ..)`: a new text.
macro_rules! format_in {
    (in $alloc:expr; $($words:tt)*) => {{
        let mut text = $crate::shim::String::new($alloc);
        match text.write_fmt(::core::format_args!($($words)*)) {
            Ok(()) => Ok(text),
            Err(refused) => Err(refused),
        }
    }};
}

pub(crate) use format_in;
