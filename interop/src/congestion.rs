//! How much may be in flight: CUBIC (RFC 9438), in the frame of RFC 9002, section 7.

use std::time::{Duration, Instant};

/// What a loss leaves of the window: more than Reno, since the curve finds back (RFC 9438, section 4.6).
const BETA: f64 = 0.7;

/// How fast the curve rises, in datagrams per cubic second (section 5.1).
const C: f64 = 0.4;

/// The least window, in datagrams (RFC 9002, section 7.2).
const LEAST: f64 = 2.0;

/// The congestion window, and what is in flight. Windows are counted in datagrams of full length, as RFC 9438 does.
#[derive(Clone, Debug)]
pub struct Cubic {
    datagram: usize,
    in_flight: usize,
    window: f64,
    /// Below it is slow start.
    threshold: f64,
    /// Where the curve is flat: W_max.
    plateau: f64,
    /// The window before it was reduced last: cwnd_prior.
    before: f64,
    recovery_began: Option<Instant>,
    stage: Option<Stage>,
    is_used: bool,
    /// As recovery begins one packet may go whatever is in flight, so that what was lost goes soon (RFC 9002, section 7.3.2).
    may_exceed: bool,
}

#[derive(Clone, Debug)]
struct Stage {
    /// When it began, later by all time in which the window wasn't used (section 5.8).
    began: Instant,
    unused_since: Option<Instant>,
    /// How long after that the curve is flat, in seconds: K.
    flat_after: f64,
    plateau: f64,
    /// What a sender as Reno would have: W_est.
    friendly: f64,
}

/// The window with which a connection begins, in bytes (RFC 9002, section 7.2).
pub fn first_window(datagram: usize) -> usize {
    (10 * datagram).min(14_720.max(2 * datagram))
}

impl Cubic {
    pub fn new(datagram: usize) -> Cubic {
        Cubic {
            datagram,
            in_flight: 0,
            window: first_window(datagram) as f64 / datagram as f64,
            threshold: f64::INFINITY,
            plateau: 0.0,
            before: f64::INFINITY,
            recovery_began: None,
            stage: None,
            is_used: false,
            may_exceed: false,
        }
    }

    pub fn window(&self) -> usize {
        (self.window * self.datagram as f64).round() as usize
    }

    pub fn in_flight(&self) -> usize {
        self.in_flight
    }

    /// Whether a datagram may go. Part of one can't: so whole ones are counted, to the nearest. Of a window of six and a half a part
    /// that is always cut off would cost as much as a loss in ten.
    pub fn allows(&self) -> bool {
        let whole = self.window.round() as usize * self.datagram;
        self.may_exceed || self.in_flight + self.datagram <= whole
    }

    /// What may be in flight stays as many bytes: the path hasn't changed, only its packets.
    pub fn resize(&mut self, datagram: usize) {
        let scale = self.datagram as f64 / datagram as f64;
        self.datagram = datagram;
        self.window = (self.window * scale).max(LEAST);
        self.threshold *= scale;
        self.plateau *= scale;
        self.before *= scale;
        self.stage = None;
    }

    pub fn sent(&mut self, size: usize) {
        self.in_flight += size;
        self.is_used = true;
        self.may_exceed = false;
    }

    /// Nothing goes though it might: a window that isn't used doesn't grow (RFC 9002, section 7.8).
    pub fn leave_unused(&mut self) {
        self.is_used = false;
        self.may_exceed = false;
    }

    pub fn forget(&mut self, size: usize) {
        self.in_flight = self.in_flight.saturating_sub(size);
    }

    fn is_recovering(&self, sent_at: Instant) -> bool {
        self.recovery_began.is_some_and(|began| sent_at <= began)
    }

    pub fn acked(&mut self, size: usize, sent_at: Instant, now: Instant, round_trip: Duration) {
        self.forget(size);
        if self.is_recovering(sent_at) {
            return;
        }
        let count = size as f64 / self.datagram as f64;
        if !self.is_used {
            if let Some(stage) = &mut self.stage {
                stage.unused_since.get_or_insert(now);
            }
        } else if self.window < self.threshold {
            self.window += count;
        } else {
            self.avoid(count, now, round_trip);
        }
    }

    // Congestion avoidance (RFC 9438, sections 4.2 to 4.5).
    fn avoid(&mut self, count: f64, now: Instant, round_trip: Duration) {
        let stage = self
            .stage
            .get_or_insert_with(|| Stage::new(self.window, self.plateau, now));
        let alpha = match stage.friendly < self.before {
            true => 3.0 * (1.0 - BETA) / (1.0 + BETA),
            false => 1.0,
        };
        stage.friendly += alpha * count / self.window;
        let at = stage.age(now);
        if stage.curve(at) < stage.friendly {
            self.window = self.window.max(stage.friendly);
            return;
        }
        let target = stage.curve(at + round_trip.as_secs_f64());
        let target = target.clamp(self.window, 1.5 * self.window);
        self.window += (target - self.window) / self.window * count;
    }

    /// Once for all losses of a round trip: what was sent before the reduction reduces nothing more (RFC 9438, sections 4.6 and 4.7).
    pub fn lost(&mut self, last_sent_at: Instant, now: Instant) {
        if self.is_recovering(last_sent_at) {
            return;
        }
        self.recovery_began = Some(now);
        self.may_exceed = true;
        self.plateau = match self.window < self.plateau {
            true => self.window * (1.0 + BETA) / 2.0,
            false => self.window,
        };
        self.before = self.window;
        self.threshold = (BETA * self.window).max(LEAST);
        self.window = self.threshold;
        self.stage = None;
    }

    /// All packets of a long time are lost, so nothing is known of the path any more (RFC 9002, section 7.6; RFC 9438, section 4.8).
    pub fn collapse(&mut self) {
        self.window = LEAST;
        self.plateau = 0.0;
        self.stage = None;
        self.recovery_began = None;
    }
}

impl Stage {
    // A stage that begins above the plateau begins on a new one (section 4.8).
    fn new(window: f64, plateau: f64, now: Instant) -> Stage {
        let plateau = plateau.max(window);
        Stage {
            began: now,
            unused_since: None,
            flat_after: ((plateau - window) / C).cbrt(),
            plateau,
            friendly: window,
        }
    }

    fn age(&mut self, now: Instant) -> f64 {
        if let Some(since) = self.unused_since.take() {
            self.began += now.saturating_duration_since(since);
        }
        now.saturating_duration_since(self.began).as_secs_f64()
    }

    fn curve(&self, at: f64) -> f64 {
        C * (at - self.flat_after).powi(3) + self.plateau
    }
}

#[cfg(test)]
mod tests {
    use super::*;

    const DATAGRAM: usize = 1200;
    const ROUND_TRIP: Duration = Duration::from_millis(100);

    // A window of so many datagrams, in use, of which a loss was just told: W_max has so many then.
    fn after_loss(datagrams: usize, now: Instant) -> Cubic {
        let mut cubic = Cubic::new(DATAGRAM);
        cubic.sent(datagrams * DATAGRAM);
        let before = now - ROUND_TRIP;
        (10..datagrams).for_each(|_| cubic.acked(DATAGRAM, before, before, ROUND_TRIP));
        cubic.sent((datagrams - 10) * DATAGRAM);
        assert_eq!(cubic.window(), datagrams * DATAGRAM);
        cubic.lost(before, now);
        cubic
    }

    fn is_near(cubic: &Cubic, datagrams: f64) {
        let window = cubic.window() as f64 / DATAGRAM as f64;
        assert!((window - datagrams).abs() < 0.002, "{window}, {datagrams}");
    }

    #[test]
    fn slow_start_adds_what_is_acknowledged_and_a_loss_leaves_seven_tenths_once() {
        let begin = Instant::now();
        let later = begin + Duration::from_millis(10);
        let mut cubic = Cubic::new(DATAGRAM);
        assert_eq!(cubic.window(), 12_000);
        cubic.sent(12_000);
        assert!(!cubic.allows());
        cubic.acked(1200, begin, later, ROUND_TRIP);
        assert_eq!((cubic.window(), cubic.in_flight()), (13_200, 10_800));
        assert!(cubic.allows());
        // 0.7 * 13,200 (RFC 9438, section 4.6); what was sent before the loss was seen reduces it no more (RFC 9002, section 7.3.2).
        cubic.lost(begin, later);
        cubic.lost(later, later);
        assert_eq!(cubic.window(), 9_240);
        // Nor does it raise it.
        cubic.acked(1200, later, later, ROUND_TRIP);
        assert_eq!(cubic.window(), 9_240);
        // One packet goes nevertheless.
        assert!(cubic.allows());
        cubic.sent(1200);
        assert!(!cubic.allows());
    }

    #[test]
    fn the_window_is_never_below_two_datagrams() {
        let mut now = Instant::now();
        let mut cubic = Cubic::new(DATAGRAM);
        for _ in 0..20 {
            now += ROUND_TRIP;
            cubic.lost(now, now);
        }
        assert_eq!(cubic.window(), 2_400);
    }

    #[test]
    fn a_window_that_is_not_used_does_not_grow() {
        let begin = Instant::now();
        let mut cubic = Cubic::new(DATAGRAM);
        cubic.sent(2_400);
        cubic.leave_unused();
        cubic.acked(1200, begin, begin, ROUND_TRIP);
        assert_eq!(cubic.window(), 12_000);
    }

    #[test]
    fn the_window_follows_the_curve() {
        let begin = Instant::now();
        let mut cubic = after_loss(100, begin);
        is_near(&cubic, 70.0);
        // K is the third root of 30 / 0.4, 4.21716 seconds (section 4.2). The first ACK begins the stage.
        let mut window = 70.0;
        let mut friendly = 70.0;
        for tenth in 0..60 {
            let now = begin + tenth * ROUND_TRIP;
            cubic.acked(DATAGRAM, now + ROUND_TRIP, now, ROUND_TRIP);
            let at = f64::from(tenth) / 10.0;
            let curve = |at: f64| 0.4 * (at - 4.217_163_326_508_746_f64).powi(3) + 100.0;
            // Section 4.3: 3 * 0.3 / 1.7 for each window that is acknowledged.
            friendly += 0.529_411_764_705_882_3 / window;
            if curve(at) < friendly {
                window = friendly;
            } else {
                window += (curve(at + 0.1).min(1.5 * window) - window) / window;
            }
            is_near(&cubic, window);
        }
        assert!(window > 72.0);
    }

    #[test]
    fn a_whole_window_of_acks_a_round_trip_reaches_the_plateau_in_time() {
        let begin = Instant::now();
        let mut cubic = after_loss(100, begin);
        let mut reached = None;
        for tenth in 0..60 {
            let now = begin + tenth * ROUND_TRIP;
            for _ in 0..cubic.window() / DATAGRAM {
                cubic.acked(DATAGRAM, now + ROUND_TRIP, now, ROUND_TRIP);
            }
            if cubic.window() >= 99 * DATAGRAM {
                reached = reached.or(Some(tenth));
            }
        }
        // The curve is one below the plateau of 100 at K less the third root of 1 / 0.4: 4.217 - 1.357 = 2.860 seconds.
        assert!((26..=33).contains(&reached.unwrap()), "{reached:?}");
    }

    #[test]
    fn a_small_window_grows_as_that_of_reno() {
        let begin = Instant::now();
        let mut cubic = after_loss(20, begin);
        // In a millisecond the curve rises by 0.008 at the most. W_est rises by 9/17 of a datagram for each window that is acknowledged,
        // and from the old window on by 1 (section 4.3).
        let mut window = 14.0;
        for place in 0..400 {
            let now = begin + Duration::from_millis(place);
            let alpha = if window < 20.0 { 9.0 / 17.0 } else { 1.0 };
            window += alpha / window;
            cubic.acked(DATAGRAM, now + ROUND_TRIP, now, Duration::from_millis(10));
            is_near(&cubic, window);
        }
        assert!(window > 25.0);
    }

    #[test]
    fn a_second_loss_below_the_plateau_lowers_it_further() {
        let begin = Instant::now();
        let mut cubic = after_loss(100, begin);
        let later = begin + ROUND_TRIP;
        cubic.lost(later, later);
        is_near(&cubic, 49.0);
        // W_max is 70 * 1.7 / 2 = 59.5 (section 4.7), K the third root of (59.5 - 49) / 0.4 = 26.25: 2.97196 seconds.
        let now = later + Duration::from_secs(2);
        cubic.acked(0, now, later, ROUND_TRIP);
        cubic.acked(DATAGRAM, now, now, ROUND_TRIP);
        let target = 0.4 * (2.1 - 2.971_962_f64).powi(3) + 59.5;
        is_near(&cubic, 49.0 + (target - 49.0) / 49.0);
    }

    #[test]
    fn time_in_which_the_window_was_not_used_does_not_count() {
        let begin = Instant::now();
        let (mut used, mut paused) = (after_loss(100, begin), after_loss(100, begin));
        let pause = Duration::from_secs(30);
        let later = begin + ROUND_TRIP;
        for cubic in [&mut used, &mut paused] {
            cubic.acked(DATAGRAM, later, begin, ROUND_TRIP);
        }
        paused.leave_unused();
        paused.acked(DATAGRAM, later, begin, ROUND_TRIP);
        paused.sent(DATAGRAM);
        used.acked(DATAGRAM, later, begin, ROUND_TRIP);
        paused.acked(DATAGRAM, later + pause, later + pause, ROUND_TRIP);
        assert_eq!(paused.window(), used.window());
    }

    #[test]
    fn larger_datagrams_leave_as_many_bytes() {
        let begin = Instant::now();
        let mut cubic = after_loss(100, begin);
        cubic.resize(1452);
        assert_eq!(cubic.window(), 84_000);
        cubic.acked(0, begin + ROUND_TRIP, begin, ROUND_TRIP);
        let now = begin + Duration::from_secs(2);
        cubic.acked(1452, now, now, ROUND_TRIP);
        // W_max is 120,000 / 1452 = 82.6446 datagrams, the window 57.8512: K is the third root of 61.9835, 3.95754 seconds.
        let target = 0.4 * (2.1 - 3.957_54_f64).powi(3) + 82.644_628;
        let grown = 57.851_240 + (target - 57.851_240) / 57.851_240;
        assert!((cubic.window() as f64 / 1452.0 - grown).abs() < 0.002);
    }

    #[test]
    fn a_window_is_used_to_the_nearest_datagram() {
        let now = Instant::now();
        let mut cubic = Cubic::new(DATAGRAM);
        cubic.lost(now - ROUND_TRIP, now);
        // 0.7 * 10, and once more 4.9: five go.
        cubic.sent(DATAGRAM);
        cubic.lost(now + ROUND_TRIP, now + ROUND_TRIP);
        cubic.sent(DATAGRAM);
        assert_eq!(cubic.window(), 5_880);
        cubic.sent(2 * DATAGRAM);
        assert!(cubic.allows());
        cubic.sent(DATAGRAM);
        assert!(!cubic.allows());
    }

    #[test]
    fn after_a_collapse_the_curve_begins_flat() {
        let begin = Instant::now();
        let mut cubic = after_loss(100, begin);
        cubic.collapse();
        assert_eq!(cubic.window(), 2_400);
        // Slow start up to 0.7 of the window before.
        (0..68).for_each(|_| cubic.acked(DATAGRAM, begin, begin, ROUND_TRIP));
        is_near(&cubic, 70.0);
        // K is 0 and W_max is 70 (section 4.8): after 5 seconds the curve is at 0.4 * 5.1^3 + 70 = 123.06, and 1.5 * 70 at the most.
        cubic.acked(0, begin, begin, ROUND_TRIP);
        let now = begin + Duration::from_secs(5);
        cubic.acked(DATAGRAM, now, now, ROUND_TRIP);
        is_near(&cubic, 70.0 + 0.5);
    }
}
