//! Making an endpoint.

use super::Endpoint;
use super::hearing::Hearing;
use crate::faults::SetupFault;
use crate::ids::Role;
use crate::proved::qs_conn as conn;
use crate::settings::{PeerLimits, Settings};
use crate::shim::alloc::Global;
use crate::tuning::Tuning;

/// # Making one
impl Endpoint {
    /// A new endpoint. `settings` are its own; `peer` is what the other endpoint grants: its transport parameters (RFC 9000, section 18.2).
    /// It takes no memory, so it can't fail for want of it.
    ///
    /// ```
    /// # use gotsavena::{Dir, Endpoint, PeerLimits, Role, Settings};
    /// // The handshake tells the peer's limits.
    /// let peer = PeerLimits::default().max_data(1 << 20).streams_bidi(10);
    /// let client = Endpoint::new(Role::Client, Settings::default(), peer)?;
    /// assert_eq!((client.open_left(Dir::Bidi), client.credit_left()), (10, 1 << 20));
    /// # Ok::<(), Box<dyn std::error::Error>>(())
    /// ```
    ///
    /// # Errors
    ///
    /// `OutOfRange` if a setting or a limit of the peer is out of range; `TooManyStreams` if the peer grants more than 2^60 streams of a
    /// direction, which has an error code of its own (section 4.6).
    pub fn new(role: Role, settings: Settings, peer: PeerLimits) -> Result<Endpoint, SetupFault> {
        Endpoint::with_tuning(role, settings, Tuning::default(), peer)
    }

    /// The same with [`Tuning`]: choices that change when limits move and what calls accept, and no rule of the standard.
    ///
    /// ```
    /// use gotsavena::{Endpoint, Role, Settings, Share, Tuning};
    ///
    /// let settings = Settings::default().stream_windows(1 << 24).conn_window(1 << 24);
    /// let tuning = Tuning::default().credit_step(Share::Eighth);
    /// let end = Endpoint::with_tuning(Role::Server, settings, tuning, settings.limits()).unwrap();
    /// assert_eq!(end.granted(), 1 << 24);
    /// ```
    ///
    /// # Errors
    ///
    /// Those of [`new`](Endpoint::new).
    pub fn with_tuning(
        role: Role,
        settings: Settings,
        tuning: Tuning,
        peer: PeerLimits,
    ) -> Result<Endpoint, SetupFault> {
        let (settings, peer) = (settings.inner(), peer.inner());
        match conn::Endpoint::with_tuning(Global, role.inner(), settings, tuning.inner(), peer) {
            Ok(inner) => Ok(Endpoint {
                inner,
                hearing: Hearing::new(),
            }),
            Err(fault) => Err(SetupFault::of(fault)),
        }
    }
}
