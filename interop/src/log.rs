//! A server's log: a line on standard output for each request, once it is over. What is said goes by a queue, so that a server goes on
//! where no one reads it.

use crate::fault::Outcome;
use crate::queue::{ERR, OUT};
use std::any::Any;
use std::fmt::Display;
use std::net::SocketAddr;
use std::time::{Duration, SystemTime, UNIX_EPOCH};

/// How much of a path is told.
const MOST_PATH: usize = 500;

pub struct Entry {
    request: String,
    status: &'static str,
    len: u64,
}

impl Entry {
    pub fn new(
        peer: SocketAddr,
        method: &[u8],
        path: &[u8],
        status: &'static str,
        len: u64,
    ) -> Entry {
        let time = utc(SystemTime::now());
        let path = &path[..path.len().min(MOST_PATH)];
        let [method, path] = [method, path].map(|text| match text {
            [] => "-".to_owned(),
            text => text.escape_ascii().to_string(),
        });
        Entry {
            request: format!("{time} {peer} {method} {path}"),
            status,
            len,
        }
    }

    pub fn body_len(&self) -> u64 {
        self.len
    }

    pub fn whole(&self, written: u64) {
        self.write(self.len.min(written), "whole");
    }

    /// A half of the stream was broken off, by whichever end, after so many bytes of the answer.
    pub fn broken(&self, code: u64, written: u64) {
        self.write(
            self.len.min(written),
            format_args!("broken off: code {code:#x}"),
        );
    }

    /// The request breaks a rule, and is answered by a reset.
    pub fn malformed(&self, code: u64) {
        self.write(0, format_args!("malformed: code {code:#x}"));
    }

    pub fn cut(&self, all_was_sent: bool, written: u64, outcome: &Outcome) {
        let how = match all_was_sent {
            true => "sent whole",
            false => "cut off",
        };
        let bytes = self.len.min(written);
        self.write(bytes, format_args!("{how}, then the connection: {outcome}"));
    }

    fn write(&self, bytes: u64, how: impl Display) {
        say(format_args!(
            "{} {} {bytes} {how}",
            self.request, self.status
        ));
    }
}

pub fn trouble(peer: SocketAddr, what: &str, outcome: &Outcome) {
    let time = utc(SystemTime::now());
    say(format_args!("{time} {peer} {what}: {outcome}"));
}

/// A fault of this program showed as it worked for a peer.
pub fn fault(peer: SocketAddr, panic: &(dyn Any + Send)) {
    let time = utc(SystemTime::now());
    let text = panic.downcast_ref::<&str>().copied();
    let text = text.or_else(|| panic.downcast_ref().map(String::as_str));
    let text = text.unwrap_or("a panic without a reason");
    say(format_args!("{time} {peer} the server has a fault: {text}"));
}

#[cfg(test)]
thread_local! {
    pub static SAID: std::cell::RefCell<Vec<String>> = const { std::cell::RefCell::new(Vec::new()) };
}

/// Writes a line on standard output.
pub fn say(line: impl Display) {
    #[cfg(test)]
    SAID.with_borrow_mut(|said| said.push(line.to_string()));
    #[cfg(not(test))]
    OUT.say(line.to_string());
}

/// Writes a line on standard error.
pub fn tell(line: impl Display) {
    #[cfg(test)]
    eprintln!("{line}");
    #[cfg(not(test))]
    ERR.say(line.to_string());
}

/// Waits until what was said is written, as long as someone reads it.
pub fn flush() {
    OUT.flush();
    ERR.flush();
}

// A time of the world's clock (RFC 3339), by the Gregorian calendar: years are counted from March on, so that a leap day ends one.
fn utc(time: SystemTime) -> String {
    let since = time.duration_since(UNIX_EPOCH).unwrap_or(Duration::ZERO);
    let seconds = since.as_secs();
    let (days, second) = (seconds / 86_400 + 719_468, seconds % 86_400);
    let (era, day) = (days / 146_097, days % 146_097);
    let year = (day - day / 1460 + day / 36_524 - day / 146_096) / 365;
    let day = day - (365 * year + year / 4 - year / 100);
    let month = (5 * day + 2) / 153;
    let day = day - (153 * month + 2) / 5 + 1;
    let (month, after) = if month < 10 {
        (month + 3, 0)
    } else {
        (month - 9, 1)
    };
    let year = era * 400 + year + after;
    let (hour, minute, second) = (second / 3600, second / 60 % 60, second % 60);
    let milli = since.subsec_millis();
    format!("{year:04}-{month:02}-{day:02}T{hour:02}:{minute:02}:{second:02}.{milli:03}Z")
}

#[cfg(test)]
mod tests {
    use super::utc;
    use std::time::{Duration, UNIX_EPOCH};

    #[test]
    fn a_time_is_told_as_the_calendar_has_it() {
        // By `date -u -d @SECONDS`.
        for (seconds, told) in [
            (0, "1970-01-01T00:00:00.000Z"),
            (951_782_400, "2000-02-29T00:00:00.000Z"),
            (1_709_251_199, "2024-02-29T23:59:59.000Z"),
            (1_735_689_599, "2024-12-31T23:59:59.000Z"),
            (1_795_719_910, "2026-11-26T19:05:10.000Z"),
            (4_107_542_400, "2100-03-01T00:00:00.000Z"),
        ] {
            assert_eq!(utc(UNIX_EPOCH + Duration::from_secs(seconds)), told);
        }
    }
}
