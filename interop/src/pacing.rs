//! Pacing (RFC 9002, section 7.7): the packets of a window go spread over the round trip.

use std::time::{Duration, Instant};

/// Faster than a window in each round trip, so that pacing itself holds nothing back (RFC 9002, section 7.7).
const AHEAD: f64 = 1.25;

/// Two at once spare every second wait, and queue little.
const BURST: usize = 2;

/// What is due in so short a time goes at once: a program can hardly wait for less.
const GRAIN: Duration = Duration::from_millis(1);

#[derive(Clone, Debug)]
pub struct Pacer {
    datagram: usize,
    first_window: usize,
    credit: f64,
    since: Option<Instant>,
    held: Option<Instant>,
}

impl Pacer {
    /// At first a whole window may go at once.
    pub fn new(datagram: usize, first_window: usize) -> Pacer {
        Pacer {
            datagram,
            first_window,
            credit: first_window as f64,
            since: None,
            held: None,
        }
    }

    pub fn allows(&mut self, window: usize, round_trip: Duration, now: Instant) -> bool {
        let rate = AHEAD * window as f64 / round_trip.as_secs_f64().max(1e-6);
        let since = self.since.replace(now).unwrap_or(now);
        let gain = rate * now.saturating_duration_since(since).as_secs_f64();
        let most = (rate * GRAIN.as_secs_f64()).max((BURST * self.datagram) as f64);
        self.credit = (self.credit + gain).min(most.max(self.credit));
        let lacks = self.datagram as f64 - self.credit;
        let wait = Duration::from_secs_f64((lacks / rate).max(1e-6));
        self.held = (lacks > 1.0).then_some(now + wait);
        self.held.is_none()
    }

    pub fn resize(&mut self, datagram: usize) {
        self.datagram = datagram;
    }

    pub fn sent(&mut self, size: usize) {
        self.credit -= size as f64;
    }

    /// Where nothing is in flight and nothing waits, a first window may go at once again.
    pub fn rest(&mut self) {
        self.credit = self.credit.max(self.first_window as f64);
    }

    pub fn held(&self) -> Option<Instant> {
        self.held
    }

    pub fn release(&mut self) {
        self.held = None;
    }
}

#[cfg(test)]
mod tests {
    use super::*;

    const DATAGRAM: usize = 1200;

    fn sendings(
        pacer: &mut Pacer,
        window: usize,
        round_trip: Duration,
        begin: Instant,
    ) -> Vec<u128> {
        let mut now = begin;
        let mut times = Vec::new();
        while times.len() < 40 {
            if pacer.allows(window, round_trip, now) {
                pacer.sent(DATAGRAM);
                times.push((now - begin).as_micros());
            } else {
                now = pacer.held().unwrap();
            }
        }
        times
    }

    #[test]
    fn datagrams_go_so_far_apart_behind_a_first_window() {
        let mut pacer = Pacer::new(DATAGRAM, 10 * DATAGRAM);
        let round_trip = Duration::from_millis(50);
        let times = sendings(&mut pacer, 16 * DATAGRAM, round_trip, Instant::now());
        // Section 7.7: 50 ms * 1 / 16 / 1.25 = 2.5 ms.
        for (place, at) in times.into_iter().enumerate() {
            let wanted = 2500 * (place as u128).saturating_sub(9);
            assert!(at.abs_diff(wanted) < 100, "{place}: {at}");
        }
    }

    #[test]
    fn after_a_pause_two_go_at_once_and_after_rest_a_window() {
        let mut pacer = Pacer::new(DATAGRAM, 10 * DATAGRAM);
        let round_trip = Duration::from_millis(50);
        let mut begin = Instant::now();
        sendings(&mut pacer, 16 * DATAGRAM, round_trip, begin);
        for at_once in [2, 10] {
            begin += Duration::from_secs(1);
            if at_once == 10 {
                pacer.rest();
            }
            let times = sendings(&mut pacer, 16 * DATAGRAM, round_trip, begin);
            assert_eq!(times.iter().filter(|at| **at == 0).count(), at_once);
        }
    }

    #[test]
    fn a_window_goes_at_once_where_the_round_trip_is_short() {
        let mut pacer = Pacer::new(DATAGRAM, 10 * DATAGRAM);
        let begin = Instant::now();
        sendings(&mut pacer, 40 * DATAGRAM, Duration::from_micros(500), begin);
        let later = begin + Duration::from_millis(1);
        let round_trip = Duration::from_micros(500);
        let times = sendings(&mut pacer, 40 * DATAGRAM, round_trip, later);
        assert_eq!(times.last(), Some(&0));
    }
}
