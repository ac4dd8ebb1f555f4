//! Loss detection (RFC 9002, sections 5 and 6): which packets are in flight, which are acknowledged or lost, the round trip's
//! time, and when to probe.

use crate::congestion::{Cubic, first_window};
use crate::pacing::Pacer;
use crate::packet::{ConnectionId, Level};
use crate::path_size::PathSize;
use crate::qlog::{Metrics, RoundTrips};
use std::collections::{BTreeMap, BTreeSet};
use std::ops::Range;
use std::time::{Duration, Instant};

const PACKET_THRESHOLD: u64 = 3;
const GRANULARITY: Duration = Duration::from_millis(1);
/// Only then much goes, and a larger datagram is worth a lost probe.
const BUSY: usize = 3;
const FIRST_ROUND_TRIP: Duration = Duration::from_millis(333);
/// Where no round trip was measured.
pub const FIRST_PROBE_TIMEOUT: Duration = Duration::from_millis(999);

/// What of the transport's own goes again if its packet is lost.
#[derive(Clone, Debug, PartialEq, Eq)]
pub enum Control {
    HandshakeDone,
    RetireId(u64),
    NewId {
        sequence: u64,
        id: ConnectionId,
        token: [u8; 16],
    },
}

#[derive(Clone, Debug)]
pub struct Sent {
    pub at: Instant,
    pub size: usize,
    pub asks: bool,
    pub crypto: Vec<Range<usize>>,
    pub controls: Vec<Control>,
}

#[derive(Debug, Default)]
pub struct News {
    pub acked: Vec<(u64, Sent)>,
    pub lost: Vec<(u64, Sent)>,
}

#[derive(Debug)]
pub enum Due {
    Lost(Level, Vec<(u64, Sent)>),
    Probe(Level),
}

#[derive(Debug, Default)]
struct Space {
    sent: BTreeMap<u64, Sent>,
    asking: usize,
    largest_acked: Option<u64>,
    last_asked: Option<Instant>,
    lost_at: Option<Instant>,
    acked: BTreeSet<u64>,
}

#[derive(Clone, Copy, Debug)]
pub struct Standing {
    pub has_handshake_keys: bool,
    pub is_confirmed: bool,
    /// Whether the peer knows that this end's address is its own (RFC 9002, section 6.2.2.1).
    pub peer_validated: bool,
    /// Whether a server's limit for an unvalidated address is reached.
    pub is_held_back: bool,
}

#[derive(Debug)]
pub struct Recovery {
    spaces: [Space; 3],
    pub congestion: Cubic,
    pacer: Pacer,
    pub path: PathSize,
    latest: Duration,
    smoothed: Duration,
    variation: Duration,
    least: Option<Duration>,
    pub max_ack_delay: Duration,
    probes: u32,
    first_sample: Option<Instant>,
}

impl Space {
    fn take_acked(
        &mut self,
        ranges: impl Iterator<Item = (u64, u64)>,
        news: &mut News,
    ) -> Option<u64> {
        let mut largest = None;
        for (low, high) in ranges {
            largest = largest.max(Some(high));
            let numbers: Vec<u64> = self.sent.range(low..=high).map(|(n, _)| *n).collect();
            for number in numbers {
                if let Some(sent) = self.sent.remove(&number) {
                    self.asking -= usize::from(sent.asks);
                    self.acked.insert(number);
                    news.acked.push((number, sent));
                }
            }
        }
        self.largest_acked = self.largest_acked.max(largest);
        largest
    }

    fn let_acked_go(&mut self) {
        self.acked = match self.sent.keys().next() {
            Some(lowest) => self.acked.split_off(lowest),
            None => BTreeSet::new(),
        };
    }
}

impl Recovery {
    pub fn new(datagram: usize) -> Recovery {
        Recovery {
            spaces: Default::default(),
            congestion: Cubic::new(datagram),
            pacer: Pacer::new(datagram, first_window(datagram)),
            path: PathSize::new(),
            latest: Duration::ZERO,
            smoothed: FIRST_ROUND_TRIP,
            variation: FIRST_ROUND_TRIP / 2,
            least: None,
            max_ack_delay: Duration::ZERO,
            probes: 0,
            first_sample: None,
        }
    }

    /// Without back-off: a first probe goes soon, and later ones wait longer (section 6.2.1).
    pub fn probe_timeout(&self, level: Level) -> Duration {
        let delay = match level {
            Level::Data => self.max_ack_delay,
            _ => Duration::ZERO,
        };
        self.smoothed + (4 * self.variation).max(GRANULARITY) + delay
    }

    pub fn metrics(&self) -> Metrics {
        let round_trips = self.least.map(|least| RoundTrips {
            smoothed: self.smoothed,
            least,
            latest: self.latest,
            variation: self.variation,
        });
        Metrics {
            round_trips,
            probes: self.probes,
            window: self.congestion.window(),
            in_flight: self.congestion.in_flight(),
        }
    }

    pub fn smoothed(&self) -> Duration {
        self.smoothed
    }

    pub fn sent(&mut self, level: Level, number: u64, sent: Sent) {
        let space = &mut self.spaces[level as usize];
        if sent.asks {
            space.asking += 1;
            space.last_asked = Some(sent.at);
        }
        self.congestion.sent(sent.size);
        self.pacer.sent(sent.size);
        space.sent.insert(number, sent);
    }

    pub fn in_flight(&self, level: Level) -> impl Iterator<Item = (u64, &Sent)> {
        let sent = self.spaces[level as usize].sent.iter();
        sent.map(|(number, sent)| (*number, sent))
    }

    /// An ACK came: ranges of smallest and largest numbers, the highest first.
    pub fn acked(
        &mut self,
        level: Level,
        ranges: impl Iterator<Item = (u64, u64)>,
        delay: Duration,
        standing: Standing,
        now: Instant,
    ) -> News {
        let mut news = News::default();
        let largest = self.spaces[level as usize].take_acked(ranges, &mut news);
        if news.acked.is_empty() {
            return news;
        }
        self.take_sample(level, &news, largest, delay, now);
        news.lost = self.detect(level, now);
        for (_, sent) in &news.acked {
            self.congestion
                .acked(sent.size, sent.at, now, self.smoothed);
        }
        self.spaces[level as usize].let_acked_go();
        if level == Level::Data
            && news
                .acked
                .iter()
                .any(|(number, _)| self.path.is_probe(*number))
        {
            self.path.came();
            self.resize();
        }
        // Its Initial's ACK doesn't tell a client that the server knows its address (section 6.2.1).
        if standing.peer_validated {
            self.probes = 0;
        }
        news
    }

    // The round trip's time (section 5.3), where the largest number is new and a packet asked for the ACK.
    fn take_sample(
        &mut self,
        level: Level,
        news: &News,
        largest: Option<u64>,
        delay: Duration,
        now: Instant,
    ) {
        let newest = news
            .acked
            .iter()
            .find(|(number, _)| Some(*number) == largest);
        let (Some((_, newest)), true) = (newest, news.acked.iter().any(|(_, sent)| sent.asks))
        else {
            return;
        };
        self.latest = now.saturating_duration_since(newest.at);
        let least = self
            .least
            .map_or(self.latest, |least| least.min(self.latest));
        if self.least.replace(least).is_none() {
            self.first_sample = Some(now);
            self.smoothed = self.latest;
            self.variation = self.latest / 2;
            return;
        }
        let delay = match level {
            Level::Data => delay.min(self.max_ack_delay),
            _ => Duration::ZERO,
        };
        let adjusted = match self.latest >= least + delay {
            true => self.latest - delay,
            false => self.latest,
        };
        self.variation = (3 * self.variation + self.smoothed.abs_diff(adjusted)) / 4;
        self.smoothed = (7 * self.smoothed + adjusted) / 8;
    }

    // By later packets that were acknowledged, since reordering is short; or by time (section 6.1).
    fn detect(&mut self, level: Level, now: Instant) -> Vec<(u64, Sent)> {
        let delay = (self.latest.max(self.smoothed) * 9 / 8).max(GRANULARITY);
        let space = &mut self.spaces[level as usize];
        space.lost_at = None;
        let Some(largest) = space.largest_acked else {
            return Vec::new();
        };
        let mut lost = Vec::new();
        for (number, sent) in space.sent.range(..=largest) {
            if number + PACKET_THRESHOLD <= largest || sent.at + delay <= now {
                lost.push(*number);
            } else {
                let at = sent.at + delay;
                space.lost_at = Some(space.lost_at.map_or(at, |other| other.min(at)));
            }
        }
        let mut out = Vec::new();
        for number in lost {
            if let Some(sent) = space.sent.remove(&number) {
                space.asking -= usize::from(sent.asks);
                out.push((number, sent));
            }
        }
        self.count_losses(level, &out, now);
        out
    }

    fn count_losses(&mut self, level: Level, lost: &[(u64, Sent)], now: Instant) {
        for (_, sent) in lost {
            self.congestion.forget(sent.size);
        }
        let is_probe = |number| level == Level::Data && self.path.is_probe(number);
        let told = lost.iter().filter(|(number, _)| !is_probe(*number));
        let last = told.map(|(_, sent)| sent.at).max();
        if lost.iter().any(|(number, _)| is_probe(*number)) {
            self.path.was_lost();
        }
        let Some(last) = last else {
            return;
        };
        self.congestion.lost(last, now);
        if self.is_persistent(level, lost) {
            self.congestion.collapse();
            self.path.narrow();
            self.resize();
            // Where the path is another one now, so is its least round trip (section 5.2).
            self.least = Some(self.latest);
        }
    }

    /// The link doesn't take a datagram of this size: that was a probe of the path, or the path is another one now.
    pub fn was_too_large(&mut self, size: usize) {
        if size <= self.path.size() {
            self.path.narrow();
            return self.resize();
        }
        let space = &mut self.spaces[Level::Data as usize];
        let probe = self.path.was_refused();
        if let Some(sent) = probe.and_then(|number| space.sent.remove(&number)) {
            space.asking -= usize::from(sent.asks);
            self.congestion.forget(sent.size);
        }
    }

    // Windows and pacing count datagrams of the size that the path has now.
    fn resize(&mut self) {
        self.congestion.resize(self.path.size());
        self.pacer.resize(self.path.size());
    }

    /// The size of a probe of the path, where one is due and much goes.
    pub fn path_probe(&self) -> Option<usize> {
        let is_busy = self.congestion.in_flight() >= BUSY * self.path.size();
        self.path.due().filter(|_| is_busy)
    }

    // Whether packets that ask for ACKs are lost over a long time, with none between them that came (section 7.6).
    fn is_persistent(&self, level: Level, lost: &[(u64, Sent)]) -> bool {
        let Some(first_sample) = self.first_sample else {
            return false;
        };
        let acked = &self.spaces[level as usize].acked;
        let long = 3 * (self.smoothed + (4 * self.variation).max(GRANULARITY) + self.max_ack_delay);
        let mut began: Option<Instant> = None;
        let mut before = 0;
        for (number, sent) in lost.iter().filter(|(_, sent)| sent.at > first_sample) {
            if acked.range(before..*number).next().is_some() {
                began = None;
            }
            if sent.at - *began.get_or_insert(sent.at) > long {
                return true;
            }
            before = *number;
        }
        false
    }

    pub fn discard(&mut self, level: Level) {
        let space = std::mem::take(&mut self.spaces[level as usize]);
        for sent in space.sent.values() {
            self.congestion.forget(sent.size);
        }
        self.probes = 0;
    }

    /// A client begins anew: what it sent the server has forgotten.
    pub fn forget_all(&mut self) {
        Level::ALL.into_iter().for_each(|level| self.discard(level));
    }

    /// When time is up next (section 6.2 and A.8).
    pub fn timer(&self, standing: Standing, now: Instant) -> Option<Instant> {
        let timer = self.own_timer(standing, now).into_iter();
        timer.chain(self.pacer.held()).min()
    }

    fn own_timer(&self, standing: Standing, now: Instant) -> Option<Instant> {
        if let Some((at, _)) = self.loss_time() {
            return Some(at);
        }
        if standing.is_held_back {
            return None;
        }
        self.probe_time(standing, now).map(|(at, _)| at)
    }

    fn loss_time(&self) -> Option<(Instant, Level)> {
        let times = Level::ALL.into_iter();
        times
            .filter_map(|level| Some((self.spaces[level as usize].lost_at?, level)))
            .min()
    }

    fn probe_time(&self, standing: Standing, now: Instant) -> Option<(Instant, Level)> {
        let back_off = 1u32 << self.probes.min(16);
        let mut times = Vec::new();
        for level in Level::ALL {
            let space = &self.spaces[level as usize];
            let waits = level == Level::Data && !standing.is_confirmed;
            if let (Some(last), false, false) = (space.last_asked, space.asking == 0, waits) {
                times.push((last + self.probe_timeout(level) * back_off, level));
            }
        }
        if times.is_empty() && !standing.peer_validated {
            let level = match standing.has_handshake_keys {
                true => Level::Handshake,
                false => Level::Initial,
            };
            // The time of the last packet, or now: with nothing in flight it is a fallback against a deadlock.
            let last = self
                .spaces
                .iter()
                .filter_map(|space| space.last_asked)
                .max();
            let from = last.unwrap_or(now);
            times.push((from + self.probe_timeout(level) * back_off, level));
        }
        times.into_iter().min()
    }

    /// Whether a packet that asks for an ACK may go now. Where pacing holds it back, the timer tells until when.
    pub fn allows(&mut self, now: Instant) -> bool {
        self.pacer.release();
        let congestion = &self.congestion;
        congestion.allows() && self.pacer.allows(congestion.window(), self.smoothed, now)
    }

    pub fn rest(&mut self) {
        self.congestion.leave_unused();
        if self.congestion.in_flight() == 0 {
            self.pacer.rest();
        }
    }

    /// Time may be up: what is lost by it, or which level is to be probed.
    pub fn time_is_up(&mut self, standing: Standing, now: Instant) -> Option<Due> {
        self.pacer.release();
        if let Some((at, level)) = self.loss_time() {
            return (at <= now).then(|| Due::Lost(level, self.detect(level, now)));
        }
        if standing.is_held_back {
            return None;
        }
        let (at, level) = self.probe_time(standing, now)?;
        if at > now {
            return None;
        }
        self.probes += 1;
        Some(Due::Probe(level))
    }
}

#[cfg(test)]
mod tests {
    use super::*;
    use std::ops::RangeInclusive;

    fn sent(at: Instant) -> Sent {
        Sent {
            at,
            size: 1200,
            asks: true,
            crypto: Vec::new(),
            controls: Vec::new(),
        }
    }

    const CONFIRMED: Standing = Standing {
        has_handshake_keys: true,
        is_confirmed: true,
        peer_validated: true,
        is_held_back: false,
    };

    fn acked(
        recovery: &mut Recovery,
        level: Level,
        numbers: RangeInclusive<u64>,
        now: Instant,
    ) -> News {
        let ranges = [(*numbers.start(), *numbers.end())].into_iter();
        recovery.acked(level, ranges, Duration::ZERO, CONFIRMED, now)
    }

    #[test]
    fn packets_are_lost_by_number_and_by_time() {
        let begin = Instant::now();
        let after = |millis| begin + Duration::from_millis(millis);
        let mut recovery = Recovery::new(1200);
        (0..6).for_each(|number| recovery.sent(Level::Data, number, sent(begin)));
        let news = acked(&mut recovery, Level::Data, 4..=4, after(8));
        assert_eq!(news.acked.len(), 1);
        let lost: Vec<u64> = news.lost.iter().map(|(number, _)| *number).collect();
        assert_eq!(lost, [0, 1]);
        assert_eq!(recovery.timer(CONFIRMED, after(8)), Some(after(9)));
        let Some(Due::Lost(Level::Data, lost)) = recovery.time_is_up(CONFIRMED, after(9)) else {
            panic!("nothing is lost");
        };
        assert_eq!(lost.len(), 2);
        assert_eq!(recovery.congestion.in_flight(), 1200);
    }

    #[test]
    fn probes_back_off() {
        let begin = Instant::now();
        let mut recovery = Recovery::new(1200);
        recovery.sent(Level::Initial, 0, sent(begin));
        let first = recovery.timer(CONFIRMED, begin).unwrap() - begin;
        assert_eq!(first, Duration::from_millis(999));
        assert!(matches!(
            recovery.time_is_up(CONFIRMED, begin + first),
            Some(Due::Probe(Level::Initial))
        ));
        assert_eq!(recovery.timer(CONFIRMED, begin), Some(begin + 2 * first));
    }

    // Packets go every 100 ms, of which some come, and the last one. Answers the window then.
    fn window_after_silence(came_between: &[u64], last: u64) -> usize {
        let begin = Instant::now();
        let after = |millis| begin + Duration::from_millis(millis);
        let mut recovery = Recovery::new(1200);
        recovery.sent(Level::Data, 0, sent(begin));
        acked(&mut recovery, Level::Data, 0..=0, after(50));
        for number in 1..=last {
            recovery.sent(Level::Data, number, sent(after(100 * number)));
            if number == last || came_between.contains(&number) {
                acked(
                    &mut recovery,
                    Level::Data,
                    number..=number,
                    after(100 * number + 50),
                );
            }
        }
        recovery.congestion.window()
    }

    #[test]
    fn a_long_time_without_an_ack_collapses_the_window() {
        // The round trip is 50 ms and its variation 25 ms at first: longer than 3 * (50 + 4 * 25) ms is persistent (section 7.6.1).
        // The least window has two datagrams, and what the ACK names is added.
        assert_eq!(window_after_silence(&[], 10), 3600);
        // 300 ms between the first and the last one that are lost is not: 0.7 of 11 datagrams and more stay.
        assert!(window_after_silence(&[], 5) >= 9240);
        // One that came between parts them: 0.49 of 11 datagrams and more.
        assert!(window_after_silence(&[5], 10) >= 6468);
    }

    #[test]
    fn an_ack_of_an_initial_does_not_end_the_back_off_of_a_client_whose_address_is_not_known() {
        let begin = Instant::now();
        let mut recovery = Recovery::new(1200);
        let unknown = Standing {
            has_handshake_keys: false,
            is_confirmed: false,
            peer_validated: false,
            is_held_back: false,
        };
        recovery.sent(Level::Initial, 0, sent(begin));
        assert!(matches!(
            recovery.time_is_up(unknown, begin + Duration::from_millis(999)),
            Some(Due::Probe(Level::Initial))
        ));
        let now = begin + Duration::from_secs(1);
        recovery.acked(
            Level::Initial,
            [(0, 0)].into_iter(),
            Duration::ZERO,
            unknown,
            now,
        );
        // A round trip of 1 s, 4 * 0.5 s of variation, doubled once, from the time of the last packet on (sections 5.3 and 6.2.1).
        let timer = recovery.timer(unknown, now);
        assert_eq!(timer, Some(begin + Duration::from_secs(6)));
    }

    #[test]
    fn pacing_sets_the_timer_where_packets_wait() {
        let begin = Instant::now();
        let mut recovery = Recovery::new(1200);
        for number in 0..10 {
            assert!(recovery.allows(begin));
            recovery.sent(Level::Data, number, sent(begin));
        }
        let now = begin + Duration::from_millis(100);
        acked(&mut recovery, Level::Data, 0..=4, now);
        // 15,000 bytes of window in 100 ms, a quarter faster, are 7.68 ms a packet (section 7.7): two are due by now.
        for number in 10..12 {
            assert!(recovery.allows(now));
            recovery.sent(Level::Data, number, sent(now));
        }
        assert!(!recovery.allows(now));
        let wait = recovery.timer(CONFIRMED, now).unwrap() - now;
        assert!(
            wait.abs_diff(Duration::from_micros(5333)) < Duration::from_micros(10),
            "{wait:?}"
        );
        recovery.rest();
        assert!(recovery.time_is_up(CONFIRMED, now + wait).is_none());
        assert!(recovery.allows(now + wait));
    }
}
