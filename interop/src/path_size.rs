//! How large a datagram may be on the path: a search by probes, where much goes (RFC 9000, section 14.3; RFC 8899).

/// Every path carries so much (RFC 9000, section 14), so a connection begins with it.
pub const DATAGRAM: usize = 1200;

/// What is tried: what Ethernet carries beside the headers of IPv6 and UDP, and what a tunnel leaves of that.
const SIZES: [usize; 2] = [1452, 1350];

/// A probe may be lost by chance, so each is tried so often (RFC 8899, section 5.1.2).
const TRIES: usize = 3;

#[derive(Clone, Debug)]
pub struct PathSize {
    size: usize,
    pub most: u64,
    tried: usize,
    probe: Option<u64>,
}

impl PathSize {
    pub fn new() -> PathSize {
        PathSize {
            size: DATAGRAM,
            most: 0,
            tried: 0,
            probe: None,
        }
    }

    pub fn size(&self) -> usize {
        self.size
    }

    pub fn due(&self) -> Option<usize> {
        let size = *SIZES.get(self.tried / TRIES)?;
        (self.probe.is_none() && size as u64 <= self.most).then_some(size)
    }

    pub fn sent(&mut self, number: u64) {
        self.probe = Some(number);
    }

    /// Whether a packet is the probe that is in flight. Its loss tells nothing of congestion (RFC 9000, section 14.4).
    pub fn is_probe(&self, number: u64) -> bool {
        self.probe == Some(number)
    }

    /// Datagrams are as large from now on: a probe that came shows that the path carries it.
    pub fn came(&mut self) {
        self.size = SIZES[self.tried / TRIES];
        self.stop();
    }

    pub fn was_lost(&mut self) {
        self.probe = None;
        self.tried += 1;
    }

    /// The probe didn't go, since the link is too small for it. Answers which one that was: a smaller one is tried.
    pub fn was_refused(&mut self) -> Option<u64> {
        let probe = self.probe.take()?;
        self.tried = (self.tried / TRIES + 1) * TRIES;
        Some(probe)
    }

    /// Large datagrams come no more: the path is another one now (RFC 8899, section 4.3).
    pub fn narrow(&mut self) {
        self.size = DATAGRAM;
        self.stop();
    }

    fn stop(&mut self) {
        self.probe = None;
        self.tried = TRIES * SIZES.len();
    }
}

impl Default for PathSize {
    fn default() -> PathSize {
        PathSize::new()
    }
}

#[cfg(test)]
mod tests {
    use super::*;

    #[test]
    fn a_size_is_tried_three_times_and_then_a_smaller_one() {
        let mut path = PathSize::new();
        assert_eq!(path.due(), None);
        path.most = 65_527;
        for number in 0..3 {
            assert_eq!(path.due(), Some(1452));
            path.sent(number);
            assert_eq!(path.due(), None);
            path.was_lost();
        }
        assert_eq!(path.due(), Some(1350));
        path.sent(3);
        assert!(path.is_probe(3) && !path.is_probe(2));
        path.came();
        assert_eq!((path.size(), path.due()), (1350, None));
        path.narrow();
        assert_eq!((path.size(), path.due()), (1200, None));
    }

    #[test]
    fn a_size_that_the_link_refuses_is_tried_once() {
        let mut path = PathSize::new();
        path.most = 65_527;
        path.sent(7);
        assert_eq!(path.was_refused(), Some(7));
        assert_eq!(path.due(), Some(1350));
        path.sent(8);
        assert_eq!(path.was_refused(), Some(8));
        assert_eq!((path.size(), path.due()), (1200, None));
    }

    #[test]
    fn nothing_is_tried_that_the_peer_does_not_take() {
        let mut path = PathSize::new();
        path.most = 1451;
        assert_eq!(path.due(), None);
    }
}
