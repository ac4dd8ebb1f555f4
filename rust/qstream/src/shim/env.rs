//! The words of the command line.

use super::alloc::{AllocError, Global};
use super::{HostRuntime, String, Vec, io};

/// The words of the command line, not yet in memory of their own.
pub struct Args {
    words: std::vec::IntoIter<std::string::String>,
}

/// The words, the program's name first. `InvalidData` where one is no text.
pub fn args(_rt: &HostRuntime) -> io::Result<Args> {
    let words: Result<std::vec::Vec<_>, _> =
        std::env::args_os().map(|word| word.into_string()).collect();
    match words {
        Ok(words) => Ok(Args {
            words: words.into_iter(),
        }),
        Err(_) => Err(io::ErrorKind::InvalidData.into()),
    }
}

impl Args {
    pub fn collected_in(self, alloc: Global) -> Result<Vec<String>, AllocError> {
        let mut words = Vec::new(alloc);
        for word in self.words {
            words.push(String::from_str(alloc, &word)?)?;
        }
        Ok(words)
    }
}
