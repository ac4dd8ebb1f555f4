//! What the applications do with streams: read one to its end, write bytes as room comes.

use crate::fault::{Close, Outcome};
use crate::priorities::Priorities;
use gotsavena::{Endpoint, Read, StreamId, UseFault};
use std::io;

/// What runs over the streams of a connection.
pub trait Application {
    /// The code of a close without a fault, which protocols number apart.
    const NO_ERROR: u64;

    /// Reads and writes as far as it goes. It is called after datagrams came, and once as the handshake is done.
    ///
    /// # Errors
    fn progress(&mut self, end: &mut Endpoint) -> Result<(), Close>;

    /// Whether it waits for nothing but streams that it may open.
    fn waits_for_streams(&self) -> bool {
        false
    }

    /// Whether it had more to write, and let others have their turn.
    fn was_cut(&self) -> bool {
        false
    }

    /// Tells how soon streams go, where it isn't by turns.
    fn prioritize(&self, _priorities: &mut Priorities) {}

    /// The server stops: the peer is told, where the protocol has words for that. Answers whether nothing is under way. It is asked
    /// again and again until then.
    ///
    /// # Errors
    fn stop(&mut self) -> Result<bool, Close> {
        Ok(true)
    }

    /// After it the endpoint is gone, so this is the last look at how streams stood.
    fn ended(&mut self, _end: Option<&Endpoint>, _outcome: &Outcome) {}
}

#[derive(Clone, Copy, Debug, PartialEq, Eq)]
pub enum Came {
    Some,
    All,
    Reset(u64),
    TooMuch,
}

/// Reads what is there behind the bytes, which are at most so many then.
pub fn read_more(
    end: &mut Endpoint,
    stream: StreamId,
    into: &mut Vec<u8>,
    most: usize,
) -> Result<Came, UseFault> {
    let mut buffer = [0; 16_384];
    loop {
        match end.read(stream, &mut buffer)? {
            Read::Bytes(count) if into.len() + count > most => return Ok(Came::TooMuch),
            Read::Bytes(count) => into.extend_from_slice(&buffer[..count]),
            Read::End => return Ok(Came::All),
            Read::Reset(code) => return Ok(Came::Reset(code)),
            Read::Wait => return Ok(Came::Some),
        }
    }
}

/// One that is over already, or was reset as the peer asked, stays as it is: both are what was wanted.
pub fn abandon(end: &mut Endpoint, stream: StreamId, code: u64) -> Result<(), UseFault> {
    match end.reset(stream, code) {
        Ok(()) | Err(UseFault::Finished | UseFault::WasReset) => Ok(()),
        Err(fault) => Err(fault),
    }
}

/// Writes what the peer grants, and where that is nothing one byte, which waits, so that the peer is told what holds the stream back (RFC
/// 9000, section 4.1): once all before it was acknowledged, since the buffer of a stream goes back only when it is empty. The rest stays
/// where it is, so that an answer which no one reads keeps little, and one that is read isn't held up by those.
pub fn write_granted(
    end: &mut Endpoint,
    stream: StreamId,
    bytes: &[u8],
) -> Result<usize, UseFault> {
    let send = end.report(stream).and_then(|report| report.send);
    let written = send.as_ref().map_or(0, |send| send.written);
    let left = send.map_or(0, |send| send.limit.saturating_sub(send.written));
    let granted = left.min(end.credit_left().saturating_sub(end.unsent_sum()));
    let most = match granted {
        0 => u64::from(end.acked_below(stream) == Some(written)),
        granted => granted,
    };
    end.write(stream, &bytes[..bytes.len().min(most as usize)])
}

/// Small, so that many answers keep little.
const PIECE: u64 = 1 << 14;

/// The bytes of an answer or a request, read in pieces as the stream takes them.
pub struct Body {
    source: Source,
    left: u64,
}

enum Source {
    /// So many bytes as are left.
    Bytes(Box<dyn io::Read>),
    /// To its end.
    Pieces(Box<dyn Iterator<Item = String>>),
}

impl Body {
    pub fn new(source: impl io::Read + 'static, len: u64) -> Body {
        Body {
            source: Source::Bytes(Box::new(source)),
            left: len,
        }
    }

    pub fn of_bytes(bytes: Vec<u8>) -> Body {
        let len = bytes.len() as u64;
        Body::new(io::Cursor::new(bytes), len)
    }

    pub fn of_pieces(pieces: impl Iterator<Item = String> + 'static) -> Body {
        Body {
            source: Source::Pieces(Box::new(pieces)),
            left: u64::MAX,
        }
    }

    /// Reads into a vector that was used before, or none: its bytes needn't be made zero again.
    ///
    /// # Errors
    ///
    /// Of the source, which may have become shorter than it was.
    pub fn next_piece(&mut self, mut piece: Vec<u8>) -> io::Result<Vec<u8>> {
        match &mut self.source {
            Source::Bytes(source) => {
                piece.resize(self.left.min(PIECE) as usize, 0);
                source.read_exact(&mut piece)?;
                self.left -= piece.len() as u64;
                Ok(piece)
            }
            Source::Pieces(pieces) => {
                let mut whole = String::new();
                while whole.len() < PIECE as usize && self.left > 0 {
                    match pieces.next() {
                        Some(piece) => whole += &piece,
                        None => self.left = 0,
                    }
                }
                Ok(whole.into_bytes())
            }
        }
    }

    pub fn is_over(&self) -> bool {
        self.left == 0
    }

    /// Its pieces are made as they go, which takes longer than to read them.
    pub fn is_made(&self) -> bool {
        matches!(self.source, Source::Pieces(_))
    }
}

/// A body that is written to a stream and then ends it.
pub struct Outgoing {
    body: Body,
    piece: Vec<u8>,
    written: usize,
}

impl Outgoing {
    pub fn new(body: Body) -> Outgoing {
        Outgoing {
            body,
            piece: Vec::new(),
            written: 0,
        }
    }

    /// Writes as much as there is room for. Answers whether the stream was finished, or reset with this code since its source
    /// failed.
    pub fn write(
        &mut self,
        end: &mut Endpoint,
        stream: StreamId,
        code: u64,
    ) -> Result<bool, UseFault> {
        loop {
            if self.written < self.piece.len() {
                match write_granted(end, stream, &self.piece[self.written..])? {
                    0 => return Ok(false),
                    count => self.written += count,
                }
            } else if self.body.is_over() {
                return end.finish(stream).map(|()| true);
            } else {
                let used = std::mem::take(&mut self.piece);
                let Ok(piece) = self.body.next_piece(used) else {
                    return abandon(end, stream, code).map(|()| true);
                };
                (self.piece, self.written) = (piece, 0);
            }
        }
    }
}

#[cfg(test)]
mod tests {
    use super::*;
    use gotsavena::{Dir, Fill, Frame, PeerLimits, Role, Settings, frames};

    // What is said of limits as an answer of 20 bytes goes, and how many bytes of it are kept.
    fn blocked(limits: PeerLimits) -> (Vec<String>, u64) {
        let mut end = Endpoint::new(Role::Client, Settings::small(), limits).unwrap();
        let stream = end.open(Dir::Uni).unwrap();
        let mut outgoing = Outgoing::new(Body::of_bytes(vec![7; 20]));
        let (mut told, mut out) = (Vec::new(), [0; 1200]);
        for _ in 0..3 {
            assert_eq!(outgoing.write(&mut end, stream, 9), Ok(false));
            while let Some(filled) = end.fill(&mut out, &Fill::all()).unwrap() {
                let all = frames(&out[..filled.len]).flatten();
                let others = all.filter(|placed| !matches!(placed.frame, Frame::Stream { .. }));
                told.extend(others.map(|placed| format!("{:?}", placed.frame)));
                end.acked(filled.token).unwrap();
            }
        }
        (told, end.unsent_sum())
    }

    // RFC 9000, section 4.1: a sender that is blocked SHOULD say so.
    #[test]
    fn a_peer_is_told_which_limit_holds_an_answer_back() {
        let limits = Settings::small().limits();
        let (told, waits) = blocked(limits.max_data(5));
        assert_eq!(
            (&told[..], waits),
            (&["DataBlocked { limit: 5 }".to_owned()][..], 1)
        );
        let (told, waits) = blocked(limits.stream_data(3));
        assert_eq!((told.len(), waits), (1, 1));
        assert!(told[0].starts_with("StreamDataBlocked"), "{told:?}");
    }

    fn write_all(source: &'static [u8], len: u64) -> (u64, Option<u64>) {
        let settings = Settings::small().send_buffer(1 << 16);
        let wide = settings.limits().max_data(1 << 20).stream_data(1 << 20);
        let mut end = Endpoint::new(Role::Client, settings, wide).unwrap();
        let stream = end.open(Dir::Uni).unwrap();
        let mut outgoing = Outgoing::new(Body::new(source, len));
        assert_eq!(outgoing.write(&mut end, stream, 9), Ok(true));
        let send = end.report(stream).unwrap().send.unwrap();
        (send.written, send.reset_code)
    }

    #[test]
    fn a_body_ends_its_stream() {
        assert_eq!(write_all(&[7; 40_000], 40_000), (40_000, None));
        assert_eq!(write_all(&[7; 40_000], 20_000), (20_000, None));
        assert_eq!(write_all(&[], 0), (0, None));
    }

    #[test]
    fn a_source_that_ends_too_soon_breaks_its_stream_off() {
        assert_eq!(write_all(&[7; 20_000], 40_000).1, Some(9));
    }
}
