use super::Endpoint;
use crate::event::Event;
use crate::faults::EventFault;
use crate::proved::qs_ranges::NoMemory;

/// # Events
///
/// What happened, so that the application needn't ask each stream.
impl Endpoint {
    /// Returns the next event, each once; `None` if there is none. There is no queue, which a peer could fill: an event is a condition that
    /// holds now and wasn't reported yet (RFC 9000, sections 2 to 4), or a blocked frame of the peer's that was noted.
    ///
    /// Events come in the order in which [`Event`] lists the kinds (`Finished` and `ResetAcked` are one), and of a kind those of lower
    /// streams first, or of bidirectional ones. A condition that no longer holds isn't reported: bytes that were read meanwhile, or a
    /// stream that was reset before it could be written to again. A blocked frame that was noted is reported though its limit rose
    /// meanwhile. A closed endpoint reports no [`Writable`](Event::Writable), no [`Available`](Event::Available) and no blocked frame,
    /// since none could be acted on. It reports [`Readable`](Event::Readable) only with
    /// [`reads_when_closed`](crate::Tuning::reads_when_closed), and all others.
    ///
    /// Call it after each call that received something, and after reads, writes, resets and changed settings, until it returns `None`. An
    /// application may also begin late, or never: all conditions that still hold are reported then.
    ///
    /// Reported events cost a bit for each stream and kind, up to the highest such stream of its type, and 3.7 KB. An endpoint that is
    /// never asked only notes which streams had a write cut short, so that one who begins late doesn't wait in vain.
    ///
    /// ```
    /// use gotsavena::{Dir, Endpoint, Event, Read, Received, Role, Settings};
    ///
    /// let settings = Settings::default().send_buffer(4);
    /// let mut client = Endpoint::new(Role::Client, settings, settings.limits())?;
    /// let mut server = Endpoint::new(Role::Server, settings, settings.limits())?;
    /// let stream = client.open(Dir::Uni)?;
    /// let mut unsent = &b"hello"[..];
    /// unsent = &unsent[client.write(stream, unsent)?..];
    /// assert_eq!(client.next_event()?, None, "the buffer is full");
    ///
    /// let mut received: Vec<u8> = Vec::new();
    /// while received.len() < 5 {
    ///     let mut payload = [0; 1200];
    ///     if let Some(made) = client.make_packet(&mut payload)? {
    ///         assert_eq!(server.receive(made.number, &payload[..made.len])?, Received::Done);
    ///     }
    ///     while let Some(event) = server.next_event()? {
    ///         if let Event::Readable(stream) = event {
    ///             let mut bytes = [0; 3];
    ///             while let Read::Bytes(count) = server.read(stream, &mut bytes)? {
    ///                 received.extend(&bytes[..count]);
    ///             }
    ///         }
    ///     }
    ///     if let Some(made) = server.make_packet(&mut payload)? {
    ///         assert_eq!(client.receive(made.number, &payload[..made.len])?, Received::Done);
    ///     }
    ///     while let Some(event) = client.next_event()? {
    ///         if event == Event::Writable(stream) {
    ///             unsent = &unsent[client.write(stream, unsent)?..];
    ///         }
    ///     }
    /// }
    /// assert_eq!(received, b"hello");
    /// # Ok::<(), Box<dyn std::error::Error>>(())
    /// ```
    ///
    /// # Errors
    ///
    /// `NoMemory` if there was none for the notes of what is reported. Then nothing changed, and the same event comes again. If there was
    /// none for the first note, the endpoint counts as never asked.
    pub fn next_event(&mut self) -> Result<Option<Event>, EventFault> {
        match self.hearing.next(&self.inner) {
            Ok(news) => Ok(news.map(Event::of)),
            Err(NoMemory) => Err(EventFault::NoMemory),
        }
    }

    /// Chooses whether [`receive`](Endpoint::receive) and [`receive_with_acks`](Endpoint::receive_with_acks) look through each payload for
    /// blocked frames of the peer (RFC 9000, sections 19.12 to 19.14): the events [`DataBlocked`](Event::DataBlocked),
    /// [`StreamDataBlocked`](Event::StreamDataBlocked) and [`StreamsBlocked`](Event::StreamsBlocked). Not by default: it costs a second
    /// reading of each payload, and a third if there is such a frame. [`take_frame`](Endpoint::take_frame) and
    /// [`take_frames`](Endpoint::take_frames), which read nothing twice, note them once an event was asked for, and before that too if this
    /// is chosen.
    ///
    /// A limit that rose before the frame was processed isn't noted, nor one that the same packet moved: the peer isn't blocked any more.
    /// What was noted is reported once, even if the limit rises meanwhile or the stream's length becomes known, and again only if the peer
    /// says it in a later packet. Memory for notes is taken before the payload takes effect. If it is refused, `receive` returns
    /// `NoMemory`, nothing changed, and the same payload may come again. A note may then still wait for the memory of its mark, until an
    /// event is asked for: if the stream's length becomes known first, it is left out.
    ///
    /// ```
    /// use gotsavena::{Dir, Endpoint, Event, Received, Role, Settings};
    ///
    /// let settings = Settings::default().conn_window(4);
    /// let mut client = Endpoint::new(Role::Client, settings, settings.limits())?;
    /// let mut server = Endpoint::new(Role::Server, settings, settings.limits())?;
    /// server.report_blocked(true);
    /// let stream = client.open(Dir::Uni)?;
    /// client.write(stream, b"hello, world")?;
    ///
    /// let mut payload = [0; 1200];
    /// while let Some(made) = client.make_packet(&mut payload)? {
    ///     assert_eq!(server.receive(made.number, &payload[..made.len])?, Received::Done);
    ///     while let Some(event) = server.next_event()? {
    ///         if event == Event::DataBlocked {
    ///             server.set_conn_window(2 * server.granted())?;
    ///         }
    ///     }
    ///     if let Some(made) = server.make_packet(&mut payload)? {
    ///         assert_eq!(client.receive(made.number, &payload[..made.len])?, Received::Done);
    ///     }
    /// }
    /// assert_eq!((server.granted(), server.stored()), (16, 12));
    /// # Ok::<(), Box<dyn std::error::Error>>(())
    /// ```
    pub fn report_blocked(&mut self, is_chosen: bool) {
        self.hearing.looks = is_chosen;
    }
}
