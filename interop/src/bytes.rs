//! Bytes are read from the front, and numbers written at the back.

use gotsavena::{read_varint, write_varint};

/// What is left of some bytes. Each call answers `None` where they end too soon, and then nothing was taken.
#[derive(Clone, Copy, Debug)]
pub struct Reader<'a> {
    rest: &'a [u8],
}

impl<'a> Reader<'a> {
    pub fn new(rest: &'a [u8]) -> Reader<'a> {
        Reader { rest }
    }

    pub fn is_empty(&self) -> bool {
        self.rest.is_empty()
    }

    pub fn rest(&self) -> &'a [u8] {
        self.rest
    }

    pub fn take(&mut self, count: usize) -> Option<&'a [u8]> {
        let (taken, rest) = self.rest.split_at_checked(count)?;
        self.rest = rest;
        Some(taken)
    }

    pub fn byte(&mut self) -> Option<u8> {
        Some(self.take(1)?[0])
    }

    pub fn u16(&mut self) -> Option<u16> {
        Some(u16::from_be_bytes(self.take(2)?.try_into().ok()?))
    }

    pub fn u32(&mut self) -> Option<u32> {
        Some(u32::from_be_bytes(self.take(4)?.try_into().ok()?))
    }

    /// A variable-length integer (RFC 9000, section 16).
    pub fn varint(&mut self) -> Option<u64> {
        let (value, len) = read_varint(self.rest)?;
        self.take(len)?;
        Some(value)
    }

    /// Bytes behind a length that is a variable-length integer.
    pub fn counted(&mut self) -> Option<&'a [u8]> {
        let mut ahead = *self;
        let count = usize::try_from(ahead.varint()?).ok()?;
        let taken = ahead.take(count)?;
        *self = ahead;
        Some(taken)
    }
}

/// Writes a variable-length integer behind the bytes. One that no spelling has is written as the greatest that has one.
pub fn push_varint(out: &mut Vec<u8>, value: u64) {
    let mut text = [0; 8];
    let value = value.min((1 << 62) - 1);
    let len = write_varint(value, &mut text).unwrap_or(0);
    out.extend_from_slice(&text[..len]);
}
