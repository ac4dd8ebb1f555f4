//! What was reported to the application, and what is noted for that. The proved `Heard` below needs four things noted by whoever uses
//! an endpoint; this makes those notes, so that no application has to.

use crate::frame::MAX_VARINT;
use crate::ids::{Dir, StreamId};
use crate::proved::{qs_conn as conn, qs_ranges::NoMemory, qs_wire as wire};
use crate::shim::alloc::Global;
use crate::shim::{Box, Vec};

/// An endpoint whose application asks for no events, and of which no write was cut short, pays a few words for it.
pub(super) struct Hearing {
    notes: Option<Box<Notes>>,
    // The stream of a write that was cut short and found no memory to be noted. One is enough: the next write waits for it.
    unnoted: Option<StreamId>,
    // The directions of which an open was blocked. They are passed on when an event is asked for, so that `open` needs no memory for
    // being refused.
    wanted: [bool; 2],
    // Off by default, since each payload is read twice for it.
    pub(super) looks: bool,
    // Streams whose blocked frames took effect and found no memory for their note. They are noted before anything else happens, so they
    // are those of one call.
    said: Vec<StreamId>,
}

// A packet names fewer streams; what one call needed beyond that is given back, so that a peer can't make it stay.
const FEW_SAID: usize = 512;

struct Notes {
    heard: conn::Heard,
    // Before that nothing has to be reported again, so reads needn't look.
    has_told: bool,
    // A cache: streams of which it is known that a write was cut short, each at a place that its number gives. So a writer that fills
    // its buffer again and again makes the note once.
    short: [u64; 64],
}

// An empty place.
const NO_STREAM: u64 = u64::MAX;

// Each type begins 16 places further, so that few streams of each type don't share a place.
fn place(stream: StreamId) -> usize {
    let number = stream.value();
    (number / 4 + number % 4 * 16) as usize % 64
}

impl Notes {
    // Apart, as mostly it is noted already.
    #[inline(never)]
    fn note_short(&mut self, end: &conn::Endpoint, stream: StreamId) -> Result<(), NoMemory> {
        // The application is about to write the rest: more than any buffer has room for, because some may be free again by now.
        self.heard.will_write(end, stream.inner(), usize::MAX)?;
        self.short[place(stream)] = stream.value();
        Ok(())
    }
}

impl Hearing {
    pub(super) fn new() -> Hearing {
        Hearing {
            notes: None,
            unnoted: None,
            wanted: [false; 2],
            looks: false,
            said: Vec::new(Global),
        }
    }

    #[inline]
    pub(super) fn next(&mut self, end: &conn::Endpoint) -> Result<Option<conn::News>, NoMemory> {
        self.catch_up(end)?;
        self.note_said(end)?;
        let wanted = self.wanted;
        if wanted != [false; 2] {
            let notes = self.notes()?;
            for (dir, is_wanted) in [wire::Dir::Bidi, wire::Dir::Uni].into_iter().zip(wanted) {
                if is_wanted {
                    notes.heard.wants(dir);
                }
            }
            self.wanted = [false; 2];
        }
        let notes = self.notes()?;
        let news = notes.heard.next_news(end);
        notes.has_told = true;
        if let Ok(Some(conn::News::Writable(stream))) = news {
            notes.short[place(StreamId::of(stream))] = NO_STREAM;
        }
        news
    }

    /// A write took less than it was offered. If there is no memory to note it, it is noted before the next write, so that no wait is in
    /// vain.
    #[inline]
    pub(super) fn was_cut_short(&mut self, end: &conn::Endpoint, stream: StreamId) {
        if let Some(notes) = &mut self.notes {
            if notes.short[place(stream)] == stream.value() || notes.note_short(end, stream).is_ok()
            {
                return;
            }
        }
        self.unnoted = Some(stream);
        let _ = self.note(end);
    }

    #[inline]
    pub(super) fn catch_up(&mut self, end: &conn::Endpoint) -> Result<(), NoMemory> {
        match self.unnoted {
            None => Ok(()),
            Some(_) => self.note(end),
        }
    }

    #[cold]
    fn note(&mut self, end: &conn::Endpoint) -> Result<(), NoMemory> {
        let Some(stream) = self.unnoted else {
            return Ok(());
        };
        self.notes()?.note_short(end, stream)?;
        self.unnoted = None;
        Ok(())
    }

    /// An open was blocked, so one is wanted.
    pub(super) fn wants(&mut self, dir: Dir) {
        self.wanted[usize::from(dir == Dir::Uni)] = true;
    }

    /// The stream was read or stopped, so it may become readable again.
    #[inline]
    pub(super) fn was_read(&mut self, end: &conn::Endpoint, stream: StreamId) {
        if let Some(notes) = &mut self.notes {
            if notes.has_told {
                notes.heard.was_read(end, stream.inner());
            }
        }
    }

    /// Once an event was asked for, or if it was chosen: others pay nothing for the notes.
    #[inline]
    pub(super) fn is_heard(&self) -> bool {
        self.looks || self.notes.as_ref().is_some_and(|notes| notes.has_told)
    }

    #[inline]
    pub(super) fn is_looking(&self) -> bool {
        self.looks
    }

    /// Takes the memory for the notes of so many frames before they take effect, so that none is lost afterwards.
    pub(super) fn expect(&mut self, end: &conn::Endpoint, count: usize) -> Result<(), NoMemory> {
        if count == 0 {
            return Ok(());
        }
        self.notes()?;
        self.note_said(end)?;
        self.said.reserve_exact(count).map_err(|_refused| NoMemory)
    }

    /// A frame took effect; its memory was taken by `expect`.
    pub(super) fn was_told(&mut self, end: &conn::Endpoint, frame: &wire::Frame<'_>) {
        let Some(notes) = &mut self.notes else {
            return;
        };
        if notes.heard.was_told(end, frame).is_err() {
            if let wire::Frame::StreamDataBlocked { stream, .. } = *frame {
                self.said.push_reserved(StreamId::of(stream));
            }
        }
    }

    #[inline]
    fn note_said(&mut self, end: &conn::Endpoint) -> Result<(), NoMemory> {
        // Mostly nothing ever waited here.
        if self.said.capacity() == 0 {
            return Ok(());
        }
        self.note_all_said(end)
    }

    // A stream whose length became known meanwhile waits for no limit, so it is left out.
    #[inline(never)]
    fn note_all_said(&mut self, end: &conn::Endpoint) -> Result<(), NoMemory> {
        while let Some(stream) = self.said.as_slice().last() {
            let frame = wire::Frame::StreamDataBlocked {
                stream: stream.inner(),
                limit: MAX_VARINT,
            };
            self.notes()?.heard.was_told(end, &frame)?;
            self.said.pop();
        }
        if self.said.capacity() > FEW_SAID {
            self.said = Vec::new(Global);
        }
        Ok(())
    }

    // Made with the first note: most endpoints never need it.
    #[inline]
    fn notes(&mut self) -> Result<&mut Notes, NoMemory> {
        match &mut self.notes {
            Some(notes) => Ok(notes),
            none => Ok(none.insert(new_notes()?)),
        }
    }
}

#[cold]
fn new_notes() -> Result<Box<Notes>, NoMemory> {
    let notes = Notes {
        heard: conn::Heard::new(Global),
        has_told: false,
        short: [NO_STREAM; 64],
    };
    Box::new(Global, notes).map_err(|_refused| NoMemory)
}
