//! What an endpoint grants, and what it knows of its peer's limits.

use crate::proved::qs_calls as calls;

/// The credit that an endpoint grants, and the size of its sending buffers.
///
/// [`Settings::default`] are those of a server: 100 streams of each direction at a time and 2^21 in all, windows of 256 KiB for each stream
/// and of 1 MiB for the connection, and sending buffers of 256 KiB. What a peer can make such an endpoint hold stands in the repository's
/// `docs/LIMITS.md`.
/// Change what differs by name, so that no number is taken for another:
///
/// ```
/// use gotsavena::Settings;
///
/// let settings = Settings::default().conn_window(1 << 24).stream_windows(1 << 20);
/// assert_eq!(settings.limits().max_data, 1 << 24);
/// assert_eq!(settings.limits().streams_bidi, 100);
/// ```
///
/// [`Endpoint::new`](crate::Endpoint::new) checks the ranges, all at once, so that the order of these calls doesn't matter.
#[derive(Clone, Copy, Debug, PartialEq, Eq)]
#[non_exhaustive]
pub struct Settings(calls::Settings);

/// The limits that an endpoint begins with, as its peer grants them: the transport parameters of RFC 9000, section 18.2.
///
/// `local` and `remote` are seen from the endpoint that grants, as in the standard. What this endpoint grants is in [`Settings::limits`];
/// the handshake carries both ways.
///
/// A client knows the peer's limits only after the handshake, so make its endpoint then. With 0-RTT make it with the remembered limits, and
/// [raise](crate::Endpoint::raise_limits) them later: those of a server that accepts 0-RTT are no lower (section 7.4.1).
///
/// The default grants nothing, as a handshake without these parameters does. Each call changes one limit:
///
/// ```
/// use gotsavena::PeerLimits;
///
/// let limits = PeerLimits::default()
///     .max_data(1 << 20)
///     .stream_data(1 << 18)
///     .streams_bidi(100);
/// assert_eq!((limits.bidi_remote, limits.streams_uni), (1 << 18, 0));
/// ```
#[derive(Clone, Copy, Debug, Default, PartialEq, Eq)]
#[non_exhaustive]
pub struct PeerLimits {
    /// `initial_max_data`: bytes on all streams together, below 2^62.
    pub max_data: u64,
    /// `initial_max_stream_data_bidi_local`: bytes on each bidirectional stream that the granting endpoint opens, below 2^62.
    pub bidi_local: u64,
    /// `initial_max_stream_data_bidi_remote`: the same for each one that the other endpoint opens, below 2^62.
    pub bidi_remote: u64,
    /// `initial_max_stream_data_uni`: the same for each unidirectional stream, below 2^62.
    pub uni: u64,
    /// `initial_max_streams_bidi`: how many bidirectional streams may be opened, at most 2^60.
    pub streams_bidi: u64,
    /// `initial_max_streams_uni`: how many unidirectional streams may be opened, at most 2^60.
    pub streams_uni: u64,
}

impl Default for Settings {
    fn default() -> Settings {
        Settings(calls::Settings {
            conn_window: 1 << 20,
            bidi_local: 1 << 18,
            bidi_remote: 1 << 18,
            uni: 1 << 18,
            send_buffer: 1 << 18,
            grant_bidi: 100,
            grant_uni: 100,
            lifetime_bidi: 1 << 21,
            lifetime_uni: 1 << 21,
        })
    }
}

impl Settings {
    /// Small settings, as in the scripts of `qstream`, so that a test soon meets every limit: a connection window of 4,096 bytes, windows
    /// of 1,024 bytes for each stream, a sending buffer of 2,048 bytes for each stream, and eight streams of each direction in all. Once a
    /// peer opened eight, its `open` returns `Blocked` for good.
    #[must_use]
    pub fn small() -> Settings {
        Settings(calls::Settings {
            conn_window: 4096,
            bidi_local: 1024,
            bidi_remote: 1024,
            uni: 1024,
            send_buffer: 2048,
            grant_bidi: 8,
            grant_uni: 8,
            lifetime_bidi: 8,
            lifetime_uni: 8,
        })
    }

    /// How many bytes may be received on all streams beyond those consumed: 1 to 2^40 (RFC 9000, section 4.1). No more are ever stored, so
    /// it bounds the memory of a connection.
    #[must_use]
    pub fn conn_window(mut self, bytes: u64) -> Settings {
        self.0.conn_window = bytes;
        self
    }

    /// The same for each bidirectional stream that this endpoint opens: 1 to 2^30 bytes.
    #[must_use]
    pub fn bidi_local_window(mut self, bytes: u64) -> Settings {
        self.0.bidi_local = bytes;
        self
    }

    /// The same for each bidirectional stream that the peer opens: 1 to 2^30 bytes.
    #[must_use]
    pub fn bidi_remote_window(mut self, bytes: u64) -> Settings {
        self.0.bidi_remote = bytes;
        self
    }

    /// The same for each unidirectional stream that the peer opens: 1 to 2^30 bytes.
    #[must_use]
    pub fn uni_window(mut self, bytes: u64) -> Settings {
        self.0.uni = bytes;
        self
    }

    /// The three windows of streams at once: 1 to 2^30 bytes.
    #[must_use]
    pub fn stream_windows(self, bytes: u64) -> Settings {
        self.bidi_local_window(bytes)
            .bidi_remote_window(bytes)
            .uni_window(bytes)
    }

    /// How many unacknowledged bytes each sending half keeps, because they may have to be sent again: 1 to 2^30.
    #[must_use]
    pub fn send_buffer(mut self, bytes: usize) -> Settings {
        self.0.send_buffer = bytes;
        self
    }

    /// How many streams of each direction the peer may open at first (0 to 2^17), and in all, as its streams end (from the first number to
    /// 2^21; RFC 9000, section 4.6). In all, because an ended stream still keeps some bytes.
    #[must_use]
    pub fn streams(self, at_first: u64, in_all: u64) -> Settings {
        self.bidi_streams(at_first, in_all)
            .uni_streams(at_first, in_all)
    }

    /// The same of bidirectional streams.
    #[must_use]
    pub fn bidi_streams(mut self, at_first: u64, in_all: u64) -> Settings {
        self.0.grant_bidi = at_first;
        self.0.lifetime_bidi = in_all;
        self
    }

    /// The same of unidirectional streams.
    #[must_use]
    pub fn uni_streams(mut self, at_first: u64, in_all: u64) -> Settings {
        self.0.grant_uni = at_first;
        self.0.lifetime_uni = in_all;
        self
    }

    /// The transport parameters for the peer (RFC 9000, section 18.2).
    #[must_use]
    pub fn limits(&self) -> PeerLimits {
        let limits = self.0.limits();
        PeerLimits {
            max_data: limits.max_data,
            bidi_local: limits.bidi_local,
            bidi_remote: limits.bidi_remote,
            uni: limits.uni,
            streams_bidi: limits.streams_bidi,
            streams_uni: limits.streams_uni,
        }
    }

    pub(crate) fn inner(&self) -> calls::Settings {
        self.0
    }
}

impl PeerLimits {
    /// Sets [`max_data`](field@PeerLimits::max_data).
    #[must_use]
    pub fn max_data(mut self, bytes: u64) -> PeerLimits {
        self.max_data = bytes;
        self
    }

    /// Sets [`bidi_local`](field@PeerLimits::bidi_local).
    #[must_use]
    pub fn bidi_local(mut self, bytes: u64) -> PeerLimits {
        self.bidi_local = bytes;
        self
    }

    /// Sets [`bidi_remote`](field@PeerLimits::bidi_remote).
    #[must_use]
    pub fn bidi_remote(mut self, bytes: u64) -> PeerLimits {
        self.bidi_remote = bytes;
        self
    }

    /// Sets [`uni`](field@PeerLimits::uni).
    #[must_use]
    pub fn uni(mut self, bytes: u64) -> PeerLimits {
        self.uni = bytes;
        self
    }

    /// The three limits on bytes of a stream at once.
    #[must_use]
    pub fn stream_data(self, bytes: u64) -> PeerLimits {
        self.bidi_local(bytes).bidi_remote(bytes).uni(bytes)
    }

    /// Sets [`streams_bidi`](field@PeerLimits::streams_bidi).
    #[must_use]
    pub fn streams_bidi(mut self, streams: u64) -> PeerLimits {
        self.streams_bidi = streams;
        self
    }

    /// Sets [`streams_uni`](field@PeerLimits::streams_uni).
    #[must_use]
    pub fn streams_uni(mut self, streams: u64) -> PeerLimits {
        self.streams_uni = streams;
        self
    }

    pub(crate) fn inner(&self) -> calls::PeerLimits {
        calls::PeerLimits {
            max_data: self.max_data,
            bidi_local: self.bidi_local,
            bidi_remote: self.bidi_remote,
            uni: self.uni,
            streams_bidi: self.streams_bidi,
            streams_uni: self.streams_uni,
        }
    }
}
