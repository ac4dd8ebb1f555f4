use super::Endpoint;
use crate::answers::{Closing, NotedClose};

/// # Closing
impl Endpoint {
    /// Whether the endpoint is closed, in whichever way: by a fault of the peer's ([`closing`](Endpoint::closing)), by a CONNECTION_CLOSE of
    /// the peer's that it received ([`peer_closed`](Endpoint::peer_closed)), or by one that was noted
    /// ([`noted_close`](Endpoint::noted_close)). It stays so (RFC 9000, section 10.2).
    ///
    /// ```
    /// # use gotsavena::{CloseKind, Closer, Endpoint, NotedClose, Role, Settings};
    /// # let settings = Settings::default();
    /// # let mut client = Endpoint::new(Role::Client, settings, settings.limits())?;
    /// assert!(!client.is_closed());
    /// client.note_closed(NotedClose::new(Closer::Us, CloseKind::Application, 0));
    /// assert!(client.is_closed());
    /// # Ok::<(), Box<dyn std::error::Error>>(())
    /// ```
    #[must_use]
    pub fn is_closed(&self) -> bool {
        self.inner.is_closed()
    }

    /// Why this endpoint closed; `None` while it is open, and if the peer closed (RFC 9000, section 10.2).
    ///
    /// ```
    /// # use gotsavena::{Endpoint, Role, Settings};
    /// # let settings = Settings::default();
    /// # let mut client = Endpoint::new(Role::Client, settings, settings.limits())?;
    /// # let mut server = Endpoint::new(Role::Server, settings, settings.limits())?;
    /// # let mut payload = [0; 1200];
    /// assert_eq!(server.closing(), None);
    /// // No frame has the type 0x1f: FRAME_ENCODING_ERROR (section 12.4).
    /// server.receive(0, &[0x1f]).unwrap_err();
    /// assert_eq!(server.closing().map(|closing| closing.code), Some(0x07));
    /// # Ok::<(), Box<dyn std::error::Error>>(())
    /// ```
    #[must_use]
    pub fn closing(&self) -> Option<Closing> {
        self.inner.closing().map(Closing::of)
    }

    /// Writes the payload for this endpoint's own close and returns its length: a CONNECTION_CLOSE with an empty reason
    /// (RFC 9000, section 10.2). `None` if this endpoint didn't close, or if it doesn't fit;
    /// then nothing is written.
    ///
    /// ```
    /// # use gotsavena::{Endpoint, Received, Role, Settings};
    /// # let settings = Settings::default();
    /// # let mut client = Endpoint::new(Role::Client, settings, settings.limits())?;
    /// # let mut server = Endpoint::new(Role::Server, settings, settings.limits())?;
    /// # let mut payload = [0; 1200];
    /// // No frame has the type 0x1f: FRAME_ENCODING_ERROR (section 12.4).
    /// server.receive(0, &[0x1f]).unwrap_err();
    /// let len = server.close_payload(&mut payload).expect("it closed");
    /// assert_eq!(client.receive(0, &payload[..len])?, Received::PeerClosed(0x07));
    /// # Ok::<(), Box<dyn std::error::Error>>(())
    /// ```
    pub fn close_payload(&self, out: &mut [u8]) -> Option<usize> {
        self.inner.close_payload(out)
    }

    /// The code with which the peer closed by a frame that was received here; `None` if it didn't (RFC 9000, section 10.2).
    ///
    /// ```
    /// # use gotsavena::{Endpoint, Received, Role, Settings};
    /// # let settings = Settings::default();
    /// # let mut client = Endpoint::new(Role::Client, settings, settings.limits())?;
    /// # let mut server = Endpoint::new(Role::Server, settings, settings.limits())?;
    /// # let mut payload = [0; 1200];
    /// // No frame has the type 0x1f: FRAME_ENCODING_ERROR (section 12.4).
    /// server.receive(0, &[0x1f]).unwrap_err();
    /// let len = server.close_payload(&mut payload).expect("it closed");
    /// assert_eq!(client.receive(0, &payload[..len])?, Received::PeerClosed(0x07));
    /// assert_eq!((client.peer_closed(), server.peer_closed()), (Some(0x07), None));
    /// # Ok::<(), Box<dyn std::error::Error>>(())
    /// ```
    #[must_use]
    pub fn peer_closed(&self) -> Option<u64> {
        self.inner.peer_closed()
    }

    /// Notes a close that this endpoint didn't see: the stack's own, the application's, or the peer's if the stack reads CONNECTION_CLOSE
    /// itself (RFC 9000, sections 10.2 and 19.19). Without it streams would go on as if the connection were open.
    ///
    /// The endpoint is then closed as after any close, and [`noted_close`](Endpoint::noted_close) returns what was noted. There is no
    /// [`close_payload`](Endpoint::close_payload): such a stack sends its close itself. `receive` and `take_frame` return it again: a close
    /// of the peer's by its code, one of this side as a [`Closing`](crate::Closing) of frame type 0 at place 0. An endpoint that closed
    /// before stays as it is, since the first close is the one that peers know.
    ///
    /// ```
    /// use gotsavena::{CloseKind, Closer, Endpoint, Role, Settings, NotedClose, UseFault, Dir, OpenFault};
    ///
    /// let own = Settings::small();
    /// let mut end = Endpoint::new(Role::Client, own, own.limits())?;
    /// // H3_NO_ERROR, not a TLS alert.
    /// let close = NotedClose::new(Closer::Peer, CloseKind::Application, 0x100);
    /// end.note_closed(close);
    /// assert_eq!((end.noted_close(), end.peer_closed()), (Some(close), None));
    /// assert_eq!(end.open(Dir::Uni), Err(OpenFault::Closed));
    /// # Ok::<(), gotsavena::SetupFault>(())
    /// ```
    pub fn note_closed(&mut self, close: NotedClose) {
        self.inner.note_closed(close.inner());
    }

    /// The close that [`note_closed`](Endpoint::note_closed) noted; `None` if it is open, or closed in another way.
    ///
    /// ```
    /// # use gotsavena::{CloseKind, Closer, Endpoint, Role, Settings, NotedClose};
    /// # let settings = Settings::default();
    /// # let mut client = Endpoint::new(Role::Client, settings, settings.limits())?;
    /// # let mut payload = [0; 1200];
    /// assert_eq!(client.noted_close(), None);
    /// let close = NotedClose::new(Closer::Us, CloseKind::Transport, 0);
    /// client.note_closed(close);
    /// assert_eq!(client.noted_close(), Some(close));
    /// # Ok::<(), Box<dyn std::error::Error>>(())
    /// ```
    #[must_use]
    pub fn noted_close(&self) -> Option<NotedClose> {
        self.inner.noted_close().map(NotedClose::of)
    }
}
