//! One HTTP/3 connection: nghttp3's, with its callbacks as events and its streams over those of the endpoint.
//!
//! All unsafe code of the package stands here, but for one call of the allocator in `memory`. Its reasons: `conn` is made once and freed once; the callbacks get the `Shared` that
//! lives as long as `conn` does, and run only within calls on it, during which no reference to it is held here.

use super::declarations::*;
use super::{CLOSED_CRITICAL_STREAM, INTERNAL_ERROR, NO_ERROR, REQUEST_CANCELLED};
use crate::fault::Close;
use crate::priorities;
use crate::streams::{Body, abandon, write_granted};
use gotsavena::{Dir, Endpoint, OpenFault, Read, Role, StreamId, UseFault};
use std::collections::{BTreeSet, HashMap, VecDeque};
use std::ffi::{CStr, c_int, c_void};
use std::ptr;

pub type Field = (Vec<u8>, Vec<u8>);

#[derive(Debug, PartialEq, Eq)]
pub enum Event {
    Field(StreamId, Field),
    FieldsEnd(StreamId),
    /// More fields came than fit in what was announced: the rest of them is thrown away.
    TooManyFields(StreamId),
    Data(StreamId, Vec<u8>),
    End(StreamId),
    Malformed(StreamId, u64),
    Broken(StreamId, u64),
    /// The peer takes no new request on this connection, and won't answer those on this stream and on higher ones.
    GoAway(StreamId),
}

const TURN: usize = 1 << 14;

/// How much may wait to be sent: more than goes at once.
const MOST_UNSENT: u64 = 1 << 17;

/// How many pieces are made, and not only read, before others have their turn.
const MOST_MADE: usize = 2;

/// As many as a call of the library gives at once.
const PARTS: usize = 16;

/// A bound on what a peer can make this side keep (RFC 9114, section 4.2.2).
const MOST_FIELDS: usize = 1 << 16;

/// What a field takes beside its name and value (RFC 9114, section 4.2.2).
const FIELD_COST: usize = 32;

struct Outgoing {
    body: Body,
    pieces: VecDeque<Vec<u8>>,
    /// A piece that went.
    used: Vec<u8>,
    written: usize,
    is_whole: bool,
}

#[derive(Default)]
struct Shared {
    events: VecDeque<Event>,
    bodies: HashMap<i64, Outgoing>,
    /// How many pieces of them were made.
    made: usize,
    failed: Vec<i64>,
    field_sizes: HashMap<i64, usize>,
    stops: Vec<(i64, u64)>,
    resets: Vec<(i64, u64)>,
}

pub struct Session {
    conn: *mut Conn,
    shared: *mut Shared,
    reading: BTreeSet<StreamId>,
    read: BTreeSet<StreamId>,
    written: BTreeSet<StreamId>,
    closed: BTreeSet<StreamId>,
    refused: BTreeSet<StreamId>,
    own: Vec<StreamId>,
    blocked: Vec<i64>,
    /// There would have been more to write.
    pub was_cut: bool,
}

extern "C" fn on_data(
    _conn: *mut Conn,
    stream: i64,
    bytes: *const u8,
    len: usize,
    shared: *mut c_void,
    _of_stream: *mut c_void,
) -> c_int {
    // Sound: the library gives bytes of that length, and what was registered as user data.
    let (shared, bytes) = unsafe { (shared_of(shared), slice(bytes, len)) };
    shared
        .events
        .push_back(Event::Data(id(stream), bytes.to_vec()));
    0
}

extern "C" fn on_header(
    _conn: *mut Conn,
    stream: i64,
    _token: i32,
    name: *mut RcBuf,
    value: *mut RcBuf,
    _flags: u8,
    shared: *mut c_void,
    _of_stream: *mut c_void,
) -> c_int {
    // Sound: as of `on_data`, and the buffers live during the call.
    let (shared, (name, value)) = unsafe { (shared_of(shared), (bytes_of(name), bytes_of(value))) };
    let size = shared.field_sizes.entry(stream).or_default();
    let had_room = *size <= MOST_FIELDS;
    *size = size.saturating_add(name.len() + value.len() + FIELD_COST);
    if *size <= MOST_FIELDS {
        let field = Event::Field(id(stream), (name, value));
        shared.events.push_back(field);
    } else if had_room {
        shared.events.push_back(Event::TooManyFields(id(stream)));
    }
    0
}

extern "C" fn on_headers_end(
    _conn: *mut Conn,
    stream: i64,
    _fin: c_int,
    shared: *mut c_void,
    _of_stream: *mut c_void,
) -> c_int {
    // Sound: as of `on_data`.
    let shared = unsafe { shared_of(shared) };
    shared.field_sizes.remove(&stream);
    shared.events.push_back(Event::FieldsEnd(id(stream)));
    0
}

extern "C" fn on_end(
    _conn: *mut Conn,
    stream: i64,
    shared: *mut c_void,
    _of_stream: *mut c_void,
) -> c_int {
    // Sound: as of `on_data`.
    unsafe { shared_of(shared) }
        .events
        .push_back(Event::End(id(stream)));
    0
}

extern "C" fn on_stop(
    _conn: *mut Conn,
    stream: i64,
    code: u64,
    shared: *mut c_void,
    _of_stream: *mut c_void,
) -> c_int {
    // Sound: as of `on_data`.
    unsafe { shared_of(shared) }.stops.push((stream, code));
    0
}

extern "C" fn on_reset(
    _conn: *mut Conn,
    stream: i64,
    code: u64,
    shared: *mut c_void,
    _of_stream: *mut c_void,
) -> c_int {
    // Sound: as of `on_data`.
    unsafe { shared_of(shared) }.resets.push((stream, code));
    0
}

extern "C" fn on_shutdown(_conn: *mut Conn, stream: i64, shared: *mut c_void) -> c_int {
    // Sound: as of `on_data`.
    let shared = unsafe { shared_of(shared) };
    shared.events.push_back(Event::GoAway(id(stream)));
    0
}

extern "C" fn on_written(
    _conn: *mut Conn,
    stream: i64,
    count: u64,
    shared: *mut c_void,
    _of_stream: *mut c_void,
) -> c_int {
    // Sound: as of `on_data`.
    let shared = unsafe { shared_of(shared) };
    if let Some(outgoing) = shared.bodies.get_mut(&stream) {
        outgoing.drop_written(count as usize);
    }
    0
}

impl Outgoing {
    fn new(body: Body, is_whole: bool) -> Outgoing {
        Outgoing {
            body,
            pieces: VecDeque::new(),
            used: Vec::new(),
            written: 0,
            is_whole,
        }
    }

    fn drop_written(&mut self, count: usize) {
        self.written += count;
        while let Some(first) = self.pieces.pop_front() {
            if first.len() > self.written {
                self.pieces.push_front(first);
                break;
            }
            self.written -= first.len();
            self.used = first;
        }
    }
}

extern "C" fn read_data(
    _conn: *mut Conn,
    stream: i64,
    parts: *mut Bytes,
    count: usize,
    flags: *mut u32,
    shared: *mut c_void,
    _of_stream: *mut c_void,
) -> isize {
    // Sound: as of `on_data`.
    let shared = unsafe { shared_of(shared) };
    let Some(outgoing) = shared.bodies.get_mut(&stream).filter(|_| count > 0) else {
        return ERR_WOULDBLOCK;
    };
    shared.made += usize::from(outgoing.body.is_made());
    let used = std::mem::take(&mut outgoing.used);
    let Ok(piece) = outgoing.body.next_piece(used) else {
        shared.failed.push(stream);
        return ERR_WOULDBLOCK;
    };
    if piece.is_empty() && !outgoing.is_whole {
        return ERR_WOULDBLOCK;
    }
    let (base, len) = (piece.as_ptr().cast_mut(), piece.len());
    let given = isize::from(len > 0);
    outgoing.pieces.extend((len > 0).then_some(piece));
    // Sound: there is at least one part, and the flags are the library's. The bytes stay until they are acknowledged to it or the
    // stream is closed, and the library only reads them.
    unsafe {
        *parts = Bytes { base, len };
        if outgoing.is_whole && outgoing.body.is_over() {
            *flags |= DATA_FLAG_EOF;
        }
    }
    given
}

/// # Safety
unsafe fn shared_of<'a>(shared: *mut c_void) -> &'a mut Shared {
    unsafe { &mut *shared.cast() }
}

/// # Safety
///
/// So many bytes stand there, if any.
unsafe fn slice<'a>(bytes: *const u8, len: usize) -> &'a [u8] {
    match len {
        0 => &[],
        _ => unsafe { std::slice::from_raw_parts(bytes, len) },
    }
}

/// # Safety
///
/// The buffer is one of the library's.
unsafe fn bytes_of(buffer: *mut RcBuf) -> Vec<u8> {
    unsafe {
        let bytes = nghttp3_rcbuf_get_buf(buffer);
        slice(bytes.base, bytes.len).to_vec()
    }
}

// The library names only streams that it was given.
fn id(stream: i64) -> StreamId {
    StreamId::new(stream as u64).expect("the library names a stream that it was given")
}

fn number(stream: StreamId) -> i64 {
    stream.value() as i64
}

fn check(error: c_int) -> Result<(), Close> {
    match error {
        0.. => Ok(()),
        _ => Err(close_of(error)),
    }
}

fn close_of(error: c_int) -> Close {
    // Sound: both take any number; the text is static.
    let (code, text) = unsafe {
        (
            nghttp3_err_infer_quic_app_error_code(error),
            CStr::from_ptr(nghttp3_strerror(error)),
        )
    };
    Close::new(code, &text.to_string_lossy())
}

fn internal(fault: UseFault) -> Close {
    Close::new(INTERNAL_ERROR, &fault.to_string())
}

/// The library's version, where it isn't that of the declarations.
pub fn other_version() -> Option<String> {
    // Sound: the library has one of at least 0, and it is static.
    let (number, text) = unsafe {
        let info = &*nghttp3_version(0);
        (info.number, CStr::from_ptr(info.text))
    };
    (number >> 8 != VERSION).then(|| text.to_string_lossy().into_owned())
}

const SETTINGS: Settings = Settings {
    max_field_section_size: MOST_FIELDS as u64,
    qpack_max_dtable_capacity: 4096,
    // No field waits for the encoder's stream: the stream layer sends lower streams first, so that a body could use up the
    // connection's credit before the instructions went on which its own fields depend (RFC 9204, section 2.1.3).
    qpack_encoder_max_dtable_capacity: 0,
    qpack_blocked_streams: 100,
    enable_connect_protocol: 0,
};

// A connection of the library, which is null where an error is told.
fn new_conn(role: Role, shared: *mut Shared) -> (*mut Conn, c_int) {
    let callbacks = Callbacks {
        acked_stream_data: Some(on_written),
        recv_data: Some(on_data),
        recv_header: Some(on_header),
        end_headers: Some(on_headers_end),
        end_stream: Some(on_end),
        stop_sending: Some(on_stop),
        reset_stream: Some(on_reset),
        shutdown: Some(on_shutdown),
        ..Callbacks::default()
    };
    let mut conn = ptr::null_mut();
    // Sound: the versions are those of the declarations, and the library copies callbacks and settings.
    let error = unsafe {
        let make = match role {
            Role::Client => nghttp3_conn_client_new_versioned,
            Role::Server => nghttp3_conn_server_new_versioned,
        };
        make(
            &mut conn,
            CALLBACKS_VERSION,
            &callbacks,
            SETTINGS_VERSION,
            &SETTINGS,
            nghttp3_mem_default(),
            shared.cast(),
        )
    };
    (conn, error)
}

impl Session {
    /// A session, whose three streams for itself are opened.
    pub fn new(role: Role, end: &mut Endpoint) -> Result<Session, Close> {
        let shared = Box::into_raw(Box::<Shared>::default());
        let (conn, error) = new_conn(role, shared);
        let mut session = Session {
            conn,
            shared,
            reading: BTreeSet::new(),
            read: BTreeSet::new(),
            written: BTreeSet::new(),
            closed: BTreeSet::new(),
            refused: BTreeSet::new(),
            own: Vec::new(),
            blocked: Vec::new(),
            was_cut: false,
        };
        check(error)?;
        session.bind(role, end)?;
        Ok(session)
    }

    fn bind(&mut self, role: Role, end: &mut Endpoint) -> Result<(), Close> {
        for _ in 0..3 {
            let opened = end.open(Dir::Uni);
            let stream = opened.map_err(|fault| Close::new(INTERNAL_ERROR, &fault.to_string()))?;
            self.own.push(stream);
        }
        let [control, encoder, decoder] = [0, 1, 2].map(|place| number(self.own[place]));
        // Sound: `conn` is alive, here and below.
        check(unsafe { nghttp3_conn_bind_control_stream(self.conn, control) })?;
        check(unsafe { nghttp3_conn_bind_qpack_streams(self.conn, encoder, decoder) })?;
        if role == Role::Server {
            // (all that there can be: how many are open at a time is the endpoint's to say)
            unsafe { nghttp3_conn_set_max_client_streams_bidi(self.conn, 1 << 60) };
        }
        Ok(())
    }

    fn shared(&mut self) -> &mut Shared {
        unsafe { &mut *self.shared }
    }

    pub fn next_event(&mut self) -> Option<Event> {
        self.shared().events.pop_front()
    }

    /// Opens a stream with a request: without a body, or with one that begins with this one and doesn't end. `None` where the
    /// peer allows no more for now.
    pub fn request(
        &mut self,
        end: &mut Endpoint,
        fields: &[Field],
        begun: Option<Body>,
    ) -> Result<Option<StreamId>, Close> {
        let stream = match end.open(Dir::Bidi) {
            Ok(stream) => stream,
            Err(OpenFault::Blocked(_)) => return Ok(None),
            Err(fault) => return Err(Close::new(INTERNAL_ERROR, &fault.to_string())),
        };
        self.reading.insert(stream);
        let reader = DataReader { read_data };
        let source = match begun {
            Some(_) => &raw const reader,
            None => ptr::null(),
        };
        self.keep_body(stream, begun, false);
        let fields = name_values(fields);
        // Sound: the library copies fields and reader.
        let error = unsafe {
            let (at, count) = (fields.as_ptr(), fields.len());
            let stream = number(stream);
            nghttp3_conn_submit_request(self.conn, stream, at, count, source, ptr::null_mut())
        };
        check(error)?;
        Ok(Some(stream))
    }

    pub fn respond(
        &mut self,
        stream: StreamId,
        fields: &[Field],
        body: Option<Body>,
    ) -> Result<(), Close> {
        let reader = DataReader { read_data };
        let source = match body {
            Some(_) => &raw const reader,
            None => ptr::null(),
        };
        self.keep_body(stream, body, true);
        let fields = name_values(fields);
        // Sound: the library copies fields and reader.
        let error = unsafe {
            let (at, count) = (fields.as_ptr(), fields.len());
            nghttp3_conn_submit_response(self.conn, number(stream), at, count, source)
        };
        match error {
            // The peer gave up meanwhile.
            ERR_STREAM_NOT_FOUND => {
                self.shared().bodies.remove(&number(stream));
                Ok(())
            }
            error => check(error),
        }
    }

    /// How soon the answer on a stream is to go, as the client told last; `None` once it went to the end.
    pub fn priority(&self, stream: StreamId) -> Option<priorities::Priority> {
        let mut told = Priority::default();
        // Sound: as above, and this end is a server's.
        let error =
            unsafe { nghttp3_conn_get_stream_priority(self.conn, &mut told, number(stream)) };
        (error == 0).then_some(priorities::Priority {
            urgency: told.urgency as u8,
            is_incremental: told.incremental != 0,
        })
    }

    pub fn own(&self) -> &[StreamId] {
        &self.own
    }

    fn keep_body(&mut self, stream: StreamId, body: Option<Body>, is_whole: bool) {
        let outgoing = body.map(|body| (number(stream), Outgoing::new(body, is_whole)));
        self.shared().bodies.extend(outgoing);
    }

    pub fn refuse_rest(&mut self, end: &mut Endpoint, stream: StreamId) -> Result<(), Close> {
        if self.read.contains(&stream) || self.closed.contains(&stream) {
            return Ok(());
        }
        end.stop(stream, NO_ERROR).map_err(internal)?;
        self.refused.insert(stream);
        self.read_no_more(stream)
    }

    pub fn go_away(&mut self) -> Result<(), Close> {
        // Sound: `conn` is alive.
        check(unsafe { nghttp3_conn_submit_shutdown_notice(self.conn) })
    }

    pub fn refuse_more(&mut self) -> Result<(), Close> {
        // Sound: as above.
        check(unsafe { nghttp3_conn_shutdown(self.conn) })
    }

    pub fn has_no_request(&self) -> bool {
        !self.reading.iter().any(|stream| stream.dir() == Dir::Bidi)
    }

    /// Its window then bounds what the peer can send, which a test wants.
    pub fn leave_unread(&mut self, stream: StreamId) {
        self.reading.remove(&stream);
    }

    pub fn progress(&mut self, end: &mut Endpoint) -> Result<(), Close> {
        // The peer doesn't ask for that (RFC 9114, section 6.2.1; RFC 9204, section 4.2).
        if self.own.iter().any(|own| end.stopped_with(*own).is_some()) {
            let reason = "a stream that a connection needs was stopped";
            return Err(Close::new(CLOSED_CRITICAL_STREAM, reason));
        }
        while let Some(stream) = end.accept() {
            self.reading.insert(stream);
        }
        for stream in std::mem::take(&mut self.reading) {
            if self.read_stream(end, stream)? {
                self.reading.insert(stream);
            }
        }
        Ok(())
    }

    fn read_stream(&mut self, end: &mut Endpoint, stream: StreamId) -> Result<bool, Close> {
        let mut buffer = [0; TURN];
        loop {
            let (bytes, fin) = match end.read(stream, &mut buffer).map_err(internal)? {
                Read::Bytes(count) => (&buffer[..count], false),
                Read::End => (&[][..], true),
                Read::Reset(code) => {
                    self.broken(end, stream, code)?;
                    return Ok(false);
                }
                Read::Wait => return Ok(true),
            };
            if !self.closed.contains(&stream) {
                // Sound: the library copies what it keeps.
                let (at, len) = (bytes.as_ptr(), bytes.len());
                let taken = unsafe {
                    nghttp3_conn_read_stream(self.conn, number(stream), at, len, c_int::from(fin))
                };
                check(taken.try_into().unwrap_or(0))?;
                self.take_orders(end)?;
            }
            if fin {
                if !self.closed.remove(&stream) {
                    self.read.insert(stream);
                    self.close_if_over(stream)?;
                }
                return Ok(false);
            }
        }
    }

    // What the library asks for itself: streams to stop and to reset.
    fn take_orders(&mut self, end: &mut Endpoint) -> Result<(), Close> {
        for (stream, code) in std::mem::take(&mut self.shared().stops) {
            end.stop(id(stream), code).map_err(internal)?;
        }
        for (stream, code) in std::mem::take(&mut self.shared().resets) {
            abandon(end, id(stream), code).map_err(internal)?;
            let event = Event::Malformed(id(stream), code);
            self.shared().events.push_back(event);
        }
        Ok(())
    }

    // The peer broke a stream off: what it still waits for is broken off, too.
    fn broken(&mut self, end: &mut Endpoint, stream: StreamId, code: u64) -> Result<(), Close> {
        if self.closed.remove(&stream) {
            return Ok(());
        }
        self.read.insert(stream);
        if self.refused.remove(&stream) {
            return self.close_if_over(stream);
        }
        if stream.dir() == Dir::Bidi {
            abandon(end, stream, REQUEST_CANCELLED).map_err(internal)?;
            self.read_no_more(stream)?;
        }
        self.shared().events.push_back(Event::Broken(stream, code));
        self.close(stream, code)
    }

    // What a stream's fields refer to needn't be kept for it (RFC 9204, section 2.2.2.2).
    fn read_no_more(&mut self, stream: StreamId) -> Result<(), Close> {
        // Sound: as above.
        check(unsafe { nghttp3_conn_shutdown_stream_read(self.conn, number(stream)) })
    }

    pub fn cancel(&mut self, end: &mut Endpoint, stream: StreamId) -> Result<(), Close> {
        end.stop(stream, REQUEST_CANCELLED).map_err(internal)?;
        abandon(end, stream, REQUEST_CANCELLED).map_err(internal)?;
        self.read_no_more(stream)?;
        self.close(stream, REQUEST_CANCELLED)
    }

    pub fn write(&mut self, end: &mut Endpoint) -> Result<(), Close> {
        self.was_cut = false;
        if self.is_full(end) {
            return Ok(());
        }
        self.shared().made = 0;
        for stream in std::mem::take(&mut self.blocked) {
            // Sound: as above. A stream that is closed is unknown, which is no fault.
            unsafe { nghttp3_conn_unblock_stream(self.conn, stream) };
        }
        // (where no more is taken, no more of the files is read)
        while !self.is_full(end) {
            if self.shared().made == MOST_MADE {
                self.was_cut = true;
                break;
            }
            let (mut stream, mut fin) = (-1, 0);
            let mut parts = [Bytes {
                base: ptr::null_mut(),
                len: 0,
            }; PARTS];
            // Sound: there is room for so many parts.
            let count = unsafe {
                nghttp3_conn_writev_stream(
                    self.conn,
                    &mut stream,
                    &mut fin,
                    parts.as_mut_ptr(),
                    PARTS,
                )
            };
            if count < 0 {
                return Err(close_of(count as c_int));
            }
            if stream < 0 {
                return self.break_failed(end);
            }
            self.write_parts(end, stream, &parts[..count as usize], fin != 0)?;
        }
        Ok(())
    }

    // Whether the connection takes nothing for now: not even its control stream does, on which next to nothing goes; or enough waits to
    // be sent, before which what comes to be more urgent couldn't go.
    fn is_full(&self, end: &Endpoint) -> bool {
        let waits = end.unsent_sum();
        let is_blocked = end.credit_left() == 0 && waits > 0;
        is_blocked || end.room(self.own[0]) == 0 || waits >= MOST_UNSENT
    }

    // A file that can't be read any more breaks its stream off.
    fn break_failed(&mut self, end: &mut Endpoint) -> Result<(), Close> {
        for stream in std::mem::take(&mut self.shared().failed) {
            abandon(end, id(stream), INTERNAL_ERROR).map_err(internal)?;
            self.stopped(stream)?;
        }
        Ok(())
    }

    fn write_parts(
        &mut self,
        end: &mut Endpoint,
        stream: i64,
        parts: &[Bytes],
        fin: bool,
    ) -> Result<(), Close> {
        let mut written = 0;
        for part in parts {
            // Sound: the library's bytes stay until they are acknowledged to it, below.
            let bytes = unsafe { slice(part.base, part.len) };
            match write_granted(end, id(stream), bytes) {
                Ok(count) => written += count,
                Err(UseFault::WasReset) => return self.stopped(stream),
                Err(fault) => return Err(internal(fault)),
            }
        }
        // The stream layer keeps the bytes itself, so to the library they are acknowledged at once.
        // Sound: as above.
        unsafe {
            check(nghttp3_conn_add_write_offset(self.conn, stream, written))?;
            check(nghttp3_conn_add_ack_offset(
                self.conn,
                stream,
                written as u64,
            ))?;
        }
        if written < parts.iter().map(|part| part.len).sum() {
            // Sound: as above.
            unsafe { nghttp3_conn_block_stream(self.conn, stream) };
            self.blocked.push(stream);
        } else if fin {
            end.finish(id(stream)).map_err(internal)?;
            self.written.insert(id(stream));
            self.close_if_over(id(stream))?;
        }
        Ok(())
    }

    // The peer asked to stop (RFC 9114, section 4.1.1): the stream layer has reset the sending half.
    fn stopped(&mut self, stream: i64) -> Result<(), Close> {
        // Sound: as above.
        unsafe { nghttp3_conn_shutdown_stream_write(self.conn, stream) };
        let stream = id(stream);
        self.shared()
            .events
            .push_back(Event::Broken(stream, REQUEST_CANCELLED));
        self.close(stream, REQUEST_CANCELLED)
    }

    fn close_if_over(&mut self, stream: StreamId) -> Result<(), Close> {
        let is_written = stream.dir() == Dir::Uni || self.written.contains(&stream);
        match is_written && self.read.contains(&stream) {
            true => self.close(stream, NO_ERROR),
            false => Ok(()),
        }
    }

    // The library forgets the stream. What it told before stays.
    fn close(&mut self, stream: StreamId, code: u64) -> Result<(), Close> {
        self.written.remove(&stream);
        self.refused.remove(&stream);
        if !self.read.remove(&stream) {
            self.closed.insert(stream);
        }
        // Sound: as above.
        let error = unsafe { nghttp3_conn_close_stream(self.conn, number(stream), code) };
        self.shared().bodies.remove(&number(stream));
        self.shared().field_sizes.remove(&number(stream));
        match error {
            ERR_STREAM_NOT_FOUND => Ok(()),
            error => check(error),
        }
    }
}

fn name_values(fields: &[Field]) -> Vec<NameValue> {
    let each = fields.iter().map(|(name, value)| NameValue {
        name: name.as_ptr(),
        value: value.as_ptr(),
        name_len: name.len(),
        value_len: value.len(),
        flags: 0,
    });
    each.collect()
}

impl Drop for Session {
    fn drop(&mut self) {
        // Sound: each was made once and is freed once, the library's first, since it may call back.
        unsafe {
            if !self.conn.is_null() {
                nghttp3_conn_del(self.conn);
            }
            drop(Box::from_raw(self.shared));
        }
    }
}
