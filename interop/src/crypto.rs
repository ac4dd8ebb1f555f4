//! The bytes of the handshake at one level, which go in CRYPTO frames (RFC 9000, section 19.6).

use crate::fault::{CRYPTO_BUFFER_EXCEEDED, Fault};
use gotsavena::{Frame, put};
use std::collections::BTreeMap;
use std::ops::Range;

/// A bound on what a peer can make this side keep (RFC 9000, section 7.5: 4,096 at the least).
const MOST_AHEAD: u64 = 1 << 16;

/// What a CRYPTO frame takes beside its bytes, at the most here.
const FRAME_LEN: usize = 8;

#[derive(Debug, Default)]
pub struct CryptoOut {
    bytes: Vec<u8>,
    sent: usize,
    lost: Vec<Range<usize>>,
}

#[derive(Debug, Default)]
pub struct CryptoIn {
    read: u64,
    ahead: BTreeMap<u64, Vec<u8>>,
}

impl CryptoOut {
    pub fn write(&mut self, bytes: &[u8]) {
        self.bytes.extend_from_slice(bytes);
    }

    pub fn is_due(&self) -> bool {
        self.sent < self.bytes.len() || !self.lost.is_empty()
    }

    /// Writes a frame of the bytes that are due behind a payload, within so much room; answers which these are.
    pub fn put(&mut self, out: &mut Vec<u8>, room: usize) -> Option<Range<usize>> {
        let most = room.checked_sub(FRAME_LEN).filter(|most| *most > 0)?;
        let range = match self.lost.last_mut() {
            Some(lost) => {
                let range = lost.start..lost.end.min(lost.start + most);
                lost.start = range.end;
                range
            }
            None => self.sent..self.bytes.len().min(self.sent + most),
        };
        self.lost.retain(|lost| !lost.is_empty());
        if range.is_empty() {
            return None;
        }
        self.sent = self.sent.max(range.end);
        let frame = Frame::Crypto {
            offset: range.start as u64,
            bytes: &self.bytes[range.clone()],
        };
        push_frame(out, &frame);
        Some(range)
    }

    pub fn lose(&mut self, range: Range<usize>) {
        self.lost.push(range);
    }

    /// Only what is in flight: a probe sends nothing that was acknowledged.
    pub fn probe(&mut self, in_flight: Vec<Range<usize>>) {
        self.lost = in_flight;
    }

    /// After a Retry or another version the server knows nothing of what was sent.
    pub fn again(&mut self) {
        self.lost.clear();
        self.sent = 0;
    }
}

impl CryptoIn {
    /// Takes in bytes at an offset, and answers those that are next in order, which may be none.
    pub fn take(&mut self, offset: u64, bytes: &[u8]) -> Result<Vec<u8>, Fault> {
        let end = offset + bytes.len() as u64;
        if end > self.read + MOST_AHEAD {
            let reason = "too many bytes of the handshake are ahead";
            return Err(Fault::new(CRYPTO_BUFFER_EXCEEDED, 0x06, reason));
        }
        let longer = self
            .ahead
            .get(&offset)
            .is_none_or(|kept| kept.len() < bytes.len());
        if end > self.read && longer {
            self.ahead.insert(offset, bytes.to_vec());
        }
        let mut next = Vec::new();
        while let Some(first) = self.ahead.first_entry() {
            if *first.key() > self.read {
                break;
            }
            let (start, bytes) = first.remove_entry();
            let known = (self.read - start) as usize;
            if known < bytes.len() {
                next.extend_from_slice(&bytes[known..]);
                self.read = start + bytes.len() as u64;
            }
        }
        Ok(next)
    }
}

/// Writes a frame behind a payload.
pub fn push_frame(out: &mut Vec<u8>, frame: &Frame<'_>) {
    let bytes = match frame {
        Frame::Crypto { bytes, .. } => bytes.len(),
        Frame::ConnectionClose { reason, .. } | Frame::ApplicationClose { reason, .. } => {
            reason.len()
        }
        _ => 0,
    };
    let at = out.len();
    out.resize(at + bytes + 64, 0);
    // Every frame that is made here has a text, and there is room for it.
    let len = put(frame, &mut out[at..]).unwrap_or(0);
    out.truncate(at + len);
}

#[cfg(test)]
mod tests {
    use super::*;

    #[test]
    fn bytes_come_in_order() {
        let mut bytes = CryptoIn::default();
        assert_eq!(bytes.take(3, b"defg").unwrap(), b"");
        assert_eq!(bytes.take(0, b"abcde").unwrap(), b"abcdefg");
        assert_eq!(bytes.take(2, b"cdefgh").unwrap(), b"h");
        assert!(bytes.take(1 << 17, b"x").is_err());
    }

    #[test]
    fn what_is_lost_goes_again() {
        let mut bytes = CryptoOut::default();
        bytes.write(&[7; 20]);
        let mut out = Vec::new();
        assert_eq!(bytes.put(&mut out, FRAME_LEN + 8), Some(0..8));
        assert_eq!(bytes.put(&mut out, 100), Some(8..20));
        assert!(!bytes.is_due());
        bytes.lose(0..8);
        assert_eq!(bytes.put(&mut out, FRAME_LEN + 5), Some(0..5));
        assert_eq!(bytes.put(&mut out, 100), Some(5..8));
        assert_eq!(bytes.put(&mut out, 100), None);
    }
}
