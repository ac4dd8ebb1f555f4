//! What a connection did, as qlog 0.4 in a JSON text sequence, with the events of the traces that `qstream --qlog` writes: packets sent,
//! received, dropped and lost, bytes of streams that moved, the close; and parameters and recovery, which those have not. Times are
//! milliseconds since the connection began, which the reference time tells.

use crate::fault::Outcome;
use crate::log::tell;
use crate::packet::{ConnectionId, Level};
use crate::parameters::Parameters;
use gotsavena::{AckRanges, Dir, Endpoint, Frame, Role, StreamId, frames};
use std::collections::BTreeMap;
use std::fmt::Write as _;
use std::fs::File;
use std::io::{self, Write as _};
use std::path::{Path, PathBuf};
use std::sync::OnceLock;
use std::time::{Duration, Instant, SystemTime, UNIX_EPOCH};

static FOLDER: OnceLock<PathBuf> = OnceLock::new();

/// A file for each connection that begins from now on, by its first identifier and its role, so that two programs may share a folder.
///
/// # Errors
///
/// Of a folder into which nothing can be written.
pub fn write_into(folder: &str) -> io::Result<()> {
    let folder = PathBuf::from(folder);
    let tried = folder.join(format!("tried-by-{}", std::process::id()));
    File::create(&tried)?;
    std::fs::remove_file(&tried)?;
    // Asked for twice, the first one stands.
    _ = FOLDER.set(folder);
    Ok(())
}

pub struct Trace {
    file: Option<File>,
    begin: Instant,
    moved: BTreeMap<StreamId, Moved>,
    metrics: Vec<(&'static str, String)>,
}

pub struct Packet<'a> {
    pub level: Level,
    pub number: u64,
    pub len: usize,
    pub payload: &'a [u8],
}

pub struct Metrics {
    pub round_trips: Option<RoundTrips>,
    pub probes: u32,
    pub window: usize,
    pub in_flight: usize,
}

pub struct RoundTrips {
    pub smoothed: Duration,
    pub least: Duration,
    pub latest: Duration,
    pub variation: Duration,
}

#[derive(Clone, Copy, Default)]
struct Moved {
    written: u64,
    read: u64,
    /// How many bytes come in all, where the peer told, and didn't break the stream off.
    whole: Option<u64>,
    is_gone: bool,
}

/// Why a packet had no effect, in the words of qlog.
#[derive(Clone, Copy, Debug)]
pub enum Dropped {
    Duplicate,
    BelowFloor,
    NoMemory,
}

impl Trace {
    /// Nothing without a folder: the usual run pays one look.
    pub fn begin(role: Role, first_id: ConnectionId, now: Instant) -> Option<Trace> {
        let end = match role {
            Role::Client => "client",
            Role::Server => "server",
        };
        let path = FOLDER.get()?.join(format!("{first_id:?}.{end}.sqlog"));
        let mut trace = Trace {
            file: open(&path),
            begin: now,
            moved: BTreeMap::new(),
            metrics: Vec::new(),
        };
        let since = SystemTime::now().duration_since(UNIX_EPOCH);
        let reference = millis(since.unwrap_or_default());
        let common = format!(
            r#"{{"protocol_type":["QUIC"],"time_format":"relative","reference_time":{reference}}}"#
        );
        let vantage = format!(r#"{{"type":"{end}"}}"#);
        trace.put(&format!(
            r#"{{"qlog_version":"0.4","qlog_format":"JSON-SEQ","trace":{{"common_fields":{common},"vantage_point":{vantage}}}}}"#
        ));
        Some(trace)
    }

    fn put(&mut self, text: &str) {
        let record = format!("\u{1e}{text}\n");
        let written = self
            .file
            .as_mut()
            .map(|file| file.write_all(record.as_bytes()));
        if let Some(Err(error)) = written {
            tell(format_args!("a trace can't be written further: {error}"));
            self.file = None;
        }
    }

    fn event(&mut self, now: Instant, name: &str, data: &str) {
        let time = millis(now.saturating_duration_since(self.begin));
        self.put(&format!(
            r#"{{"time":{time},"name":"{name}","data":{{{data}}}}}"#
        ));
    }

    pub fn sent(&mut self, packet: &Packet<'_>, now: Instant) {
        self.event(now, "transport:packet_sent", &packet.members());
        self.note_streams(packet.payload, false);
    }

    pub fn received(&mut self, packet: &Packet<'_>, now: Instant) {
        self.event(now, "transport:packet_received", &packet.members());
        self.note_streams(packet.payload, true);
    }

    pub fn parameters(&mut self, owner: &str, told: &Parameters, now: Instant) {
        let mut data = format!(r#""owner":"{owner}""#);
        for (name, id) in [
            (
                "original_destination_connection_id",
                told.original_destination,
            ),
            ("initial_source_connection_id", told.initial_source),
            ("retry_source_connection_id", told.retry_source),
        ] {
            if let Some(id) = id {
                word(&mut data, name, &format!("{id:?}"));
            }
        }
        _ = write!(data, r#","disable_active_migration":{}"#, told.stays);
        let limits = &told.limits;
        for (name, value) in [
            ("max_idle_timeout", told.idle.as_millis() as u64),
            ("max_udp_payload_size", told.max_datagram),
            ("ack_delay_exponent", told.ack_delay_exponent),
            ("max_ack_delay", told.max_ack_delay.as_millis() as u64),
            ("active_connection_id_limit", told.active_ids),
            ("initial_max_data", limits.max_data),
            ("initial_max_stream_data_bidi_local", limits.bidi_local),
            ("initial_max_stream_data_bidi_remote", limits.bidi_remote),
            ("initial_max_stream_data_uni", limits.uni),
            ("initial_max_streams_bidi", limits.streams_bidi),
            ("initial_max_streams_uni", limits.streams_uni),
        ] {
            number(&mut data, name, value);
        }
        self.event(now, "transport:parameters_set", &data);
    }

    pub fn metrics(&mut self, metrics: &Metrics, now: Instant) {
        let told = metrics.members();
        let new = told.iter().filter(|member| !self.metrics.contains(member));
        let new: Vec<String> = new
            .map(|(name, value)| format!(r#""{name}":{value}"#))
            .collect();
        if !new.is_empty() {
            self.event(now, "recovery:metrics_updated", &new.join(","));
            self.metrics = told;
        }
    }

    pub fn dropped(&mut self, level: Level, number: u64, why: Dropped, now: Instant) {
        let trigger = match why {
            Dropped::Duplicate => "duplicate",
            Dropped::BelowFloor => "general",
            Dropped::NoMemory => "internal_error",
        };
        let header = header(level, number);
        let data = format!(r#"{header},"trigger":"{trigger}""#);
        self.event(now, "transport:packet_dropped", &data);
    }

    pub fn lost(&mut self, level: Level, number: u64, now: Instant) {
        self.event(now, "recovery:packet_lost", &header(level, number));
    }

    /// How the connection ended. A silence has no code.
    pub fn closed(&mut self, outcome: &Outcome, now: Instant) {
        let (code, owner) = match outcome {
            Outcome::Closed(close) => (close.code, "local"),
            Outcome::Failed(fault) => (fault.code, "local"),
            Outcome::PeerClosed { code, .. } => (*code, "remote"),
            _ => return,
        };
        let data = format!(r#""connection_code":{code},"owner":"{owner}""#);
        self.event(now, "connectivity:connection_closed", &data);
    }

    // Streams are looked at only from their first frame on, since a connection may have many.
    fn note_streams(&mut self, payload: &[u8], is_received: bool) {
        for placed in frames(payload).flatten() {
            match placed.frame {
                Frame::Stream {
                    stream,
                    offset,
                    fin,
                    bytes,
                } => {
                    let moved = self.moved.entry(stream).or_default();
                    if fin && is_received {
                        moved.whole = Some(offset + bytes.len() as u64);
                    }
                }
                Frame::ResetStream { stream, .. } if is_received => {
                    self.moved.entry(stream).or_default().whole = None;
                }
                _ => {}
            }
        }
    }

    pub fn moves(&mut self, end: &Endpoint, now: Instant) {
        for (stream, told) in self.moved.clone() {
            if told.is_gone {
                continue;
            }
            let mut moved = told;
            match end.report(stream) {
                Some(report) => {
                    moved.written = report.send.map_or(0, |half| half.written);
                    moved.read = report.recv.map_or(0, |half| half.read_count);
                }
                // A stream goes as its end is read: so all was.
                None => {
                    moved.read = told.whole.unwrap_or(told.read).max(told.read);
                    moved.is_gone = true;
                }
            }
            let (written, read) = (moved.written - told.written, moved.read - told.read);
            self.move_bytes(stream, written, ["application", "transport"], now);
            self.move_bytes(stream, read, ["transport", "application"], now);
            self.moved.insert(stream, moved);
        }
    }

    fn move_bytes(&mut self, stream: StreamId, count: u64, way: [&str; 2], now: Instant) {
        if count > 0 {
            let (id, [from, to]) = (stream.value(), way);
            let data = format!(r#""stream_id":{id},"length":{count},"from":"{from}","to":"{to}""#);
            self.event(now, "transport:data_moved", &data);
        }
    }
}

impl<'a> Packet<'a> {
    pub fn new(level: Level, number: u64, len: usize, payload: &'a [u8]) -> Packet<'a> {
        Packet {
            level,
            number,
            len,
            payload,
        }
    }

    fn members(&self) -> String {
        let mut data = header(self.level, self.number);
        let (len, payload_len) = (self.len, self.payload.len());
        _ = write!(
            data,
            r#","raw":{{"length":{len},"payload_length":{payload_len}}},"frames":["#
        );
        put_frames(&mut data, self.payload);
        data.push(']');
        data
    }
}

impl Metrics {
    fn members(&self) -> Vec<(&'static str, String)> {
        let mut members = vec![
            ("pto_count", self.probes.to_string()),
            ("congestion_window", self.window.to_string()),
            ("bytes_in_flight", self.in_flight.to_string()),
        ];
        if let Some(times) = &self.round_trips {
            members.extend([
                ("smoothed_rtt", millis(times.smoothed)),
                ("min_rtt", millis(times.least)),
                ("latest_rtt", millis(times.latest)),
                ("rtt_variance", millis(times.variation)),
            ]);
        }
        members
    }
}

// A time in milliseconds, to the microsecond.
fn millis(time: Duration) -> String {
    let micros = time.as_micros();
    format!("{}.{:03}", micros / 1000, micros % 1000)
}

fn open(path: &Path) -> Option<File> {
    File::create(path)
        .inspect_err(|error| tell(format_args!("{} can't be written: {error}", path.display())))
        .ok()
}

fn header(level: Level, number: u64) -> String {
    let kind = match level {
        Level::Initial => "initial",
        Level::Handshake => "handshake",
        Level::Data => "1RTT",
    };
    format!(r#""header":{{"packet_number":{number},"packet_type":"{kind}"}}"#)
}

// PADDING is written once, whatever its length, or a padded packet would fill a page.
fn put_frames(out: &mut String, payload: &[u8]) {
    let mut was_padding = false;
    let mut is_first = true;
    for placed in frames(payload).flatten() {
        let is_padding = placed.frame == Frame::Padding;
        if !(is_padding && was_padding) {
            if !is_first {
                out.push(',');
            }
            is_first = false;
            _ = write!(out, r#"{{"frame_type":"{}""#, frame_name(&placed.frame));
            put_stream_members(out, &placed.frame);
            put_credit_members(out, &placed.frame);
            put_other_members(out, &placed.frame);
            out.push('}');
        }
        was_padding = is_padding;
    }
}

fn frame_name(frame: &Frame<'_>) -> &'static str {
    match frame {
        Frame::Padding => "padding",
        Frame::Ping => "ping",
        Frame::Ack { .. } => "ack",
        Frame::ResetStream { .. } => "reset_stream",
        Frame::StopSending { .. } => "stop_sending",
        Frame::Crypto { .. } => "crypto",
        Frame::NewToken { .. } => "new_token",
        Frame::Stream { .. } => "stream",
        Frame::MaxData { .. } => "max_data",
        Frame::MaxStreamData { .. } => "max_stream_data",
        Frame::MaxStreams { .. } => "max_streams",
        Frame::DataBlocked { .. } => "data_blocked",
        Frame::StreamDataBlocked { .. } => "stream_data_blocked",
        Frame::StreamsBlocked { .. } => "streams_blocked",
        Frame::NewConnectionId { .. } => "new_connection_id",
        Frame::RetireConnectionId { .. } => "retire_connection_id",
        Frame::PathChallenge { .. } => "path_challenge",
        Frame::PathResponse { .. } => "path_response",
        Frame::ConnectionClose { .. } | Frame::ApplicationClose { .. } => "connection_close",
        Frame::HandshakeDone => "handshake_done",
        _ => "unknown",
    }
}

fn number(out: &mut String, name: &str, value: u64) {
    _ = write!(out, r#","{name}":{value}"#);
}

fn word(out: &mut String, name: &str, value: &str) {
    _ = write!(out, r#","{name}":"{value}""#);
}

fn dir_name(dir: Dir) -> &'static str {
    match dir {
        Dir::Bidi => "bidirectional",
        Dir::Uni => "unidirectional",
    }
}

fn put_stream_members(out: &mut String, frame: &Frame<'_>) {
    match *frame {
        Frame::ResetStream {
            stream,
            code,
            final_size,
        } => {
            number(out, "stream_id", stream.value());
            number(out, "error_code", code);
            number(out, "final_size", final_size);
        }
        Frame::StopSending { stream, code } => {
            number(out, "stream_id", stream.value());
            number(out, "error_code", code);
        }
        Frame::Stream {
            stream,
            offset,
            fin,
            bytes,
        } => {
            number(out, "stream_id", stream.value());
            number(out, "offset", offset);
            number(out, "length", bytes.len() as u64);
            _ = write!(out, r#","fin":{fin}"#);
        }
        _ => {}
    }
}

fn put_credit_members(out: &mut String, frame: &Frame<'_>) {
    match *frame {
        Frame::MaxData { maximum } => number(out, "maximum", maximum),
        Frame::MaxStreamData { stream, maximum } => {
            number(out, "stream_id", stream.value());
            number(out, "maximum", maximum);
        }
        Frame::MaxStreams { dir, count } => {
            word(out, "stream_type", dir_name(dir));
            number(out, "maximum", count);
        }
        Frame::DataBlocked { limit } => number(out, "limit", limit),
        Frame::StreamDataBlocked { stream, limit } => {
            number(out, "stream_id", stream.value());
            number(out, "limit", limit);
        }
        Frame::StreamsBlocked { dir, count } => {
            word(out, "stream_type", dir_name(dir));
            number(out, "limit", count);
        }
        _ => {}
    }
}

fn put_other_members(out: &mut String, frame: &Frame<'_>) {
    match *frame {
        Frame::Ack {
            largest,
            delay,
            ranges,
            ..
        } => put_ack(
            out,
            delay,
            AckRanges::new(largest, ranges).into_iter().flatten(),
        ),
        Frame::Crypto { offset, bytes } => {
            number(out, "offset", offset);
            number(out, "length", bytes.len() as u64);
        }
        Frame::NewConnectionId {
            sequence, retire, ..
        } => {
            number(out, "sequence_number", sequence);
            number(out, "retire_prior_to", retire);
        }
        Frame::RetireConnectionId { sequence } => number(out, "sequence_number", sequence),
        Frame::ConnectionClose {
            code, frame_type, ..
        } => {
            word(out, "error_space", "transport");
            number(out, "error_code", code);
            number(out, "trigger_frame_type", frame_type);
        }
        Frame::ApplicationClose { code, .. } => {
            word(out, "error_space", "application");
            number(out, "error_code", code);
        }
        _ => {}
    }
}

fn put_ack(out: &mut String, delay: u64, ranges: impl IntoIterator<Item = (u64, u64)>) {
    number(out, "gotsavena:delay_field", delay);
    let ranges = ranges.into_iter();
    let ranges: Vec<String> = ranges
        .map(|(low, high)| format!("[{low},{high}]"))
        .collect();
    _ = write!(out, r#","acked_ranges":[{}]"#, ranges.join(","));
}

#[cfg(test)]
mod tests {
    use super::*;

    #[test]
    fn a_packet_is_told_as_the_schema_has_it() {
        let packet = Packet {
            level: Level::Data,
            number: 7,
            len: 30,
            payload: &[0x01],
        };
        let wanted = concat!(
            r#""header":{"packet_number":7,"packet_type":"1RTT"},"#,
            r#""raw":{"length":30,"payload_length":1},"frames":[{"frame_type":"ping"}]"#
        );
        assert_eq!(packet.members(), wanted);
    }

    #[test]
    fn round_trips_are_told_once_they_are_known() {
        let mut metrics = Metrics {
            round_trips: None,
            probes: 1,
            window: 12_000,
            in_flight: 2_400,
        };
        assert_eq!(metrics.members().len(), 3);
        metrics.round_trips = Some(RoundTrips {
            smoothed: Duration::from_micros(1_234),
            least: Duration::from_millis(1),
            latest: Duration::from_millis(2),
            variation: Duration::ZERO,
        });
        assert!(
            metrics
                .members()
                .contains(&("smoothed_rtt", "1.234".to_owned()))
        );
    }

    #[test]
    fn frames_are_told_as_the_schema_has_them() {
        // An ACK of 4 and 5 with a delay of 7, a STREAM of three bytes with an end, PING and two of PADDING (RFC 9000, section 19).
        let payload = [
            0x02, 5, 7, 0, 1, 0x0b, 0, 3, b'a', b'b', b'c', 0x01, 0x00, 0x00,
        ];
        let mut text = String::new();
        put_frames(&mut text, &payload);
        let wanted = [
            r#"{"frame_type":"ack","gotsavena:delay_field":7,"acked_ranges":[[4,5]]}"#,
            r#"{"frame_type":"stream","stream_id":0,"offset":0,"length":3,"fin":true}"#,
            r#"{"frame_type":"ping"}"#,
            r#"{"frame_type":"padding"}"#,
        ];
        assert_eq!(text, wanted.join(","));
    }
}
