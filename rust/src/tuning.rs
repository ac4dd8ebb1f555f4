//! What an application may choose about an endpoint.

use crate::proved::qs_calls as calls;

/// A part of a window, or of a count of streams.
#[derive(Clone, Copy, Debug, PartialEq, Eq)]
pub enum Share {
    /// One half.
    Half,
    /// One quarter.
    Quarter,
    /// One eighth.
    Eighth,
    /// One sixteenth.
    Sixteenth,
}

/// What an application may choose about an endpoint: see [`Endpoint::with_tuning`](crate::Endpoint::with_tuning).
///
/// [`Tuning::default`] is what [`Endpoint::new`](crate::Endpoint::new) has.
///
/// ```
/// use gotsavena::{Share, Tuning};
///
/// let tuning = Tuning::default()
///     .credit_step(Share::Eighth)
///     .count_step(Some(Share::Eighth))
///     .within_credit(true);
/// assert_ne!(tuning, Tuning::default());
/// ```
#[derive(Clone, Copy, Debug, PartialEq, Eq)]
#[non_exhaustive]
pub struct Tuning(calls::Tuning);

impl Default for Tuning {
    fn default() -> Tuning {
        Tuning(calls::Tuning::by_default())
    }
}

impl Tuning {
    /// How much of its window, as it is set at the time, has to be consumed until a limit on bytes moves (RFC 9000, section 4.2): a half by
    /// default. A smaller share grants new credit earlier and more often, so that a long fast path stays full, at the cost of a frame for
    /// each step.
    #[must_use]
    pub fn credit_step(mut self, share: Share) -> Tuning {
        self.0.credit_step = share.inner();
        self
    }

    /// How many of the streams permitted at once have to end until a count of streams moves (section 4.6). `None`, the default: each one
    /// moves it, which costs a frame for each. With a share the count moves by whole steps of that share, as it is set at the time, and of
    /// one stream at least. A step is never more than may be open, so no peer waits for ever.
    ///
    /// ```
    /// use gotsavena::{Dir, Endpoint, Role, Settings, Share, Tuning};
    ///
    /// // The count goes from 100 to 125, once 25 streams ended, then to 150.
    /// let settings = Settings::default().streams(100, 10_000);
    /// let tuning = Tuning::default().count_step(Some(Share::Quarter));
    /// let end = Endpoint::with_tuning(Role::Server, settings, tuning, settings.limits()).unwrap();
    /// assert_eq!(end.granted_streams(Dir::Bidi), 100);
    /// ```
    #[must_use]
    pub fn count_step(mut self, share: Option<Share>) -> Tuning {
        self.0.count_step = share.map(Share::inner);
        self
    }

    /// Whether a write accepts no more bytes than may be sent at once under the stream's limit and the connection's (RFC 9000, section
    /// 4.1). Then none waits for credit, and [`room`](crate::Endpoint::room) returns how many it accepts: for a proxy that would rather
    /// leave bytes where they are. Not by default.
    #[must_use]
    pub fn within_credit(mut self, is_chosen: bool) -> Tuning {
        self.0.within_credit = is_chosen;
        self
    }

    /// Whether the application answers a STOP_SENDING (RFC 9000, section 3.5). Then the event [`Stopped`](crate::Event::Stopped) says that
    /// it came, and the stream goes on until the application resets it, with a code of its own, or finishes it. By default the endpoint
    /// resets the stream at once with the peer's code, since a peer that stopped reading waits for good if nobody answers.
    #[must_use]
    pub fn answers_stops(mut self, is_chosen: bool) -> Tuning {
        self.0.answers_stops = is_chosen;
        self
    }

    /// Whether received bytes can still be read after the endpoint closed: then [`read`](crate::Endpoint::read),
    /// [`peek`](crate::Endpoint::peek), [`consume`](crate::Endpoint::consume) and [`next_readable`](crate::Endpoint::next_readable) go on
    /// as before, and [`next_event`](crate::Endpoint::next_event) returns [`Readable`](crate::Event::Readable). Nothing else does. Not by
    /// default, since all streams end with the connection (section 10.2); TCP would let them be read.
    #[must_use]
    pub fn reads_when_closed(mut self, is_chosen: bool) -> Tuning {
        self.0.reads_when_closed = is_chosen;
        self
    }

    /// A number in each token of the endpoint, which takes no token of another epoch. 0 by default. Give another one to an endpoint that
    /// replaces one whose 0-RTT was refused: late news of the old packets then can't be taken for those of the new.
    #[must_use]
    pub fn epoch(mut self, epoch: u64) -> Tuning {
        self.0.epoch = epoch;
        self
    }

    /// How many bytes all streams together keep until they are acknowledged (RFC 9000, section 13.3), beside the bound of each
    /// ([`send_buffer`](crate::Settings::send_buffer)). A [`write`](crate::Endpoint::write) accepts no more than that leaves beside
    /// [`kept_sum`](crate::Endpoint::kept_sum), and [`room`](crate::Endpoint::room) returns how many those are. With many streams it is
    /// what bounds the memory of a connection. `None`, the default: each stream keeps what it may keep alone.
    ///
    /// ```
    /// use gotsavena::{Dir, Endpoint, Role, Settings, Tuning};
    ///
    /// let settings = Settings::default();
    /// let tuning = Tuning::default().send_window(Some(5));
    /// let mut end = Endpoint::with_tuning(Role::Client, settings, tuning, settings.limits()).expect("in range");
    /// let (one, other) = (end.open(Dir::Uni).expect("granted"), end.open(Dir::Bidi).expect("granted"));
    /// assert_eq!((end.write(one, b"abc"), end.write(other, b"def")), (Ok(3), Ok(2)));
    /// assert_eq!((end.room(one), end.write(one, b"g")), (0, Ok(0)));
    /// ```
    #[must_use]
    pub fn send_window(mut self, bytes: Option<u64>) -> Tuning {
        self.0.send_window = bytes;
        self
    }

    pub(crate) fn inner(&self) -> calls::Tuning {
        self.0
    }
}

impl Share {
    fn inner(self) -> calls::Share {
        match self {
            Share::Half => calls::Share::Half,
            Share::Quarter => calls::Share::Quarter,
            Share::Eighth => calls::Share::Eighth,
            Share::Sixteenth => calls::Share::Sixteenth,
        }
    }
}
