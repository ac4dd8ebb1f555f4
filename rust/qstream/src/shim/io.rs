//! Reading and writing.

use super::alloc::{AllocError, Global};
use super::{HostRuntime, Vec};
use std::fs::File;

pub use std::io::{Error, ErrorKind, Result, Write};

impl From<AllocError> for Error {
    fn from(_refused: AllocError) -> Self {
        ErrorKind::OutOfMemory.into()
    }
}

/// The standard output.
pub struct Writer;

/// A writer to the standard output. What it wrote is on its way as a call returns.
pub fn writer(_rt: &HostRuntime) -> Writer {
    Writer
}

impl Write for Writer {
    fn write(&mut self, bytes: &[u8]) -> Result<usize> {
        let mut out = std::io::stdout().lock();
        out.write_all(bytes)?;
        out.flush()?;
        Ok(bytes.len())
    }

    fn flush(&mut self) -> Result<()> {
        std::io::stdout().lock().flush()
    }
}

/// The standard input.
pub struct Reader;

impl Read for Reader {
    fn read(&mut self, into: &mut [u8]) -> Result<usize> {
        std::io::Read::read(&mut std::io::stdin().lock(), into)
    }
}

impl Write for Vec<u8> {
    fn write(&mut self, bytes: &[u8]) -> Result<usize> {
        self.extend_from_slice(bytes)?;
        Ok(bytes.len())
    }

    fn flush(&mut self) -> Result<()> {
        Ok(())
    }
}

/// What bytes are read from.
pub trait Read: Sized {
    /// Reads some bytes to the slice's front, and answers how many; 0 at the end.
    fn read(&mut self, into: &mut [u8]) -> Result<usize>;

    fn by_ref(&mut self) -> &mut Self {
        self
    }

    /// At most so many bytes of it.
    fn take(self, limit: u64) -> Take<Self> {
        Take {
            inner: self,
            left: limit,
        }
    }

    /// Appends all bytes that are left, and answers how many.
    fn read_to_end(&mut self, bytes: &mut Vec<u8>) -> Result<usize> {
        let mut room = Vec::from_elem(Global, 0, 1 << 16)?;
        let mut total = 0;
        loop {
            match self.read(&mut room) {
                Ok(0) => return Ok(total),
                Ok(count) => {
                    bytes.extend_from_slice(&room[..count])?;
                    total += count;
                }
                Err(error) if error.kind() == ErrorKind::Interrupted => {}
                Err(error) => return Err(error),
            }
        }
    }
}

/// At most so many bytes of a reader.
pub struct Take<R> {
    inner: R,
    left: u64,
}

impl<R: Read> Read for Take<R> {
    fn read(&mut self, into: &mut [u8]) -> Result<usize> {
        let most = into.len().min(self.left as usize);
        if most == 0 {
            return Ok(0);
        }
        let count = self.inner.read(&mut into[..most])?;
        self.left -= count as u64;
        Ok(count)
    }
}

impl<R: Read> Read for &mut R {
    fn read(&mut self, into: &mut [u8]) -> Result<usize> {
        R::read(self, into)
    }
}

impl Read for File {
    fn read(&mut self, into: &mut [u8]) -> Result<usize> {
        std::io::Read::read(self, into)
    }
}

impl Read for &[u8] {
    fn read(&mut self, into: &mut [u8]) -> Result<usize> {
        std::io::Read::read(self, into)
    }
}
