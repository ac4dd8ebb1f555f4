// Made from crates/qs_conn/src/heard.rt by rust/erase; not edited by hand.
//! What was reported to the application, and what is next.

use crate::proved::qs_conn::blocked::BlockedMarks;
use crate::proved::qs_conn::by_dir::ByDir;
use crate::proved::qs_conn::endpoint::Endpoint;
use crate::proved::qs_conn::told_streams::ToldStreams;
use crate::proved::qs_calls::News;
use crate::proved::qs_ranges::NoMemory;
use crate::proved::qs_streams::index_of;
use crate::proved::qs_wire::{Dir, Frame, StreamId};
use crate::shim::alloc::Global;

/// What was reported to an application, so that each event comes once (RFC 9000, sections 2 to 4).
///
/// It stands beside the endpoint and is kept as marks of streams: an endpoint whose application asks for no events pays nothing for it.
/// Four things it can't know, so its user notes them: that it is about to write ([`will_write`](Heard::will_write)), that it waits for a
/// stream to open ([`wants`](Heard::wants)), that it read a stream ([`was_read`](Heard::was_read)), and that the peer says what blocks it
/// ([`was_told`](Heard::was_told)).
pub struct Heard {
    opened: ByDir<u64>,
    readable: ToldStreams,
    short: ToldStreams,
    stopped: ToldStreams,
    sent: ToldStreams,
    ended: ToldStreams,
    wanted: ByDir<bool>,
    blocked: BlockedMarks,
}

impl Heard {
    /// Nothing was reported, and nothing is waited for.
    #[inline]
    pub fn new(alloc: Global) -> Heard {
        Heard {
            opened: ByDir::new(0, 0),
            readable: ToldStreams::new(alloc),
            short: ToldStreams::new(alloc),
            stopped: ToldStreams::new(alloc),
            sent: ToldStreams::new(alloc),
            ended: ToldStreams::new(alloc),
            wanted: ByDir::new(false, false),
            blocked: BlockedMarks::new(alloc),
        }
    }

    /// Returns the first event of an endpoint, and notes that it was reported. `None` only if there is none. Events of a kind come before
    /// those of the next, in the order of [`News`], and those of a lower stream first.
    ///
    /// `NoMemory` if there was no memory to note it; then nothing changed, and it comes again. It takes memory if no mark was made yet for
    /// its stream, or a higher one of its type, among those of its kind: never for `Opened`, `Writable`, `Available` and the kinds behind
    /// it. `Finished` and `ResetAcked` make one among those of `Stopped` too.
    #[inline]
    pub fn next_news(&mut self, end: &Endpoint) -> Result<Option<News>, NoMemory> {
        let answer = self.first(end);
        self.hear(&answer)?;
        Ok(answer)
    }

    /// The application is about to write so many bytes to a stream. If that will be cut short, it is an event once the stream takes a byte
    /// again.
    ///
    /// `NoMemory` if there was no memory to note it; then nothing changed. It takes memory if no write to this stream, or to a higher one
    /// of its type, was noted before.
    #[inline]
    pub fn will_write(
        &mut self,
        end: &Endpoint,
        stream: StreamId,
        len: usize,
    ) -> Result<(), NoMemory> {
        if end.is_cut_short(stream, len) {
            return self.short.tell(stream);
        }
        Ok(())
    }

    /// The application waits to open a stream of a direction: that it may is an event then.
    #[inline]
    pub fn wants(&mut self, dir: Dir) {
        self.wanted.set(dir, true);
    }

    /// The application read the stream, or stopped it: if nothing is left to read, new data is an event again.
    #[inline]
    pub fn was_read(&mut self, end: &Endpoint, stream: StreamId) {
        if !end.is_readable(stream) {
            self.readable.forget(stream);
        }
    }

    /// A frame of the peer's was processed. If it says that a present limit blocks the peer, that of the connection, of a stream whose
    /// final size isn't known, or a count of streams, that is an event from now on until it is reported, even if the limit rises meanwhile.
    /// A limit that rose before isn't one, and any other frame changes nothing (RFC 9000, sections 4.1, 4.6 and 19.12 to 19.14).
    ///
    /// `NoMemory` if there was no memory to note it; then nothing changed. It takes memory if it names a stream, and no limit of this
    /// stream or of a higher one of its type was noted before.
    #[inline]
    pub fn was_told(&mut self, end: &Endpoint, frame: &Frame<'_>) -> Result<(), NoMemory> {
        match *frame {
            Frame::DataBlocked { limit } => {
                if end.granted() <= limit {
                    self.blocked.set_conn(true);
                }
                Ok(())
            }
            Frame::StreamDataBlocked { stream, limit } => {
                if end.is_met(stream, limit) {
                    return self.blocked.tell(stream);
                }
                Ok(())
            }
            Frame::StreamsBlocked { dir, count } => {
                if end.granted_streams(dir) <= count {
                    self.blocked.set_dir(dir, true);
                }
                Ok(())
            }
            _ => Ok(()),
        }
    }

    // In the order of kinds, each by a search of its own: what no longer holds is so never found.
    #[inline(always)]
    fn first(&self, end: &Endpoint) -> Option<News> {
        if let Some(stream) = end.next_opened(self.opened) {
            return Some(News::Opened(stream));
        }
        if let Some(stream) = end.next_readable_untold(&self.readable) {
            return Some(News::Readable(stream));
        }
        if let Some(stream) = end.next_writable_of(&self.short) {
            return Some(News::Writable(stream));
        }
        if let Some(stream) = end.next_stopped_untold(&self.stopped) {
            return Some(News::Stopped(stream, end.stopped_with(stream)?));
        }
        if let Some(stream) = end.next_sent_untold(&self.sent) {
            return Some(sent_news(end, stream));
        }
        if let Some(stream) = end.next_ended_untold(&self.ended, 0) {
            return Some(News::Ended(stream));
        }
        match end.next_available(self.wanted) {
            Some(dir) => Some(News::Available(dir)),
            None => self.first_blocked(end),
        }
    }

    fn first_blocked(&self, end: &Endpoint) -> Option<News> {
        if end.is_closed() {
            return None;
        }
        if self.blocked.has_conn() {
            return Some(News::DataBlocked);
        }
        if let Some(stream) = self.blocked.next_stream() {
            return Some(News::StreamDataBlocked(stream));
        }
        match self.blocked.next_dir() {
            Some(dir) => Some(News::StreamsBlocked(dir)),
            None => None,
        }
    }

    // Noted before it is returned, so that a refusal leaves it for the next call.
    #[inline(always)]
    fn hear(&mut self, answer: &Option<News>) -> Result<(), NoMemory> {
        match *answer {
            None => {}
            Some(News::Opened(stream)) => self.hear_opened(stream),
            Some(News::Readable(stream)) => return self.readable.tell(stream),
            Some(News::Writable(stream)) => self.short.forget(stream),
            Some(News::Stopped(stream, _code)) => return self.stopped.tell(stream),
            // A half that came to its end takes no stop any more: with a mark of it a word of marks becomes full, and searches pass it.
            Some(News::Finished(stream)) => return self.sent.tell_both(&mut self.stopped, stream),
            Some(News::ResetAcked(stream)) => return self.sent.tell_both(&mut self.stopped, stream),
            Some(News::Ended(stream)) => return self.ended.tell(stream),
            Some(News::Available(dir)) => self.wanted.set(dir, false),
            Some(News::DataBlocked) => self.blocked.set_conn(false),
            Some(News::StreamDataBlocked(stream)) => self.blocked.forget(stream),
            Some(News::StreamsBlocked(dir)) => self.blocked.set_dir(dir, false),
        }
        Ok(())
    }

    fn hear_opened(&mut self, stream: StreamId) {
        let count = index_of(stream) as u64 + 1;
        match stream.dir() {
            Dir::Bidi => self.opened.bidi = count,
            Dir::Uni => self.opened.uni = count,
        }
    }
}

fn sent_news(end: &Endpoint, stream: StreamId) -> News {
    if end.was_reset_acked(stream) {
        News::ResetAcked(stream)
    } else {
        News::Finished(stream)
    }
}
