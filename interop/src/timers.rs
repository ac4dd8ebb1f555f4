//! When each of many is to be looked at next. Those that aren't due cost nothing.

use std::collections::{BTreeSet, HashMap};
use std::time::Instant;

#[derive(Debug, Default)]
pub struct Timers {
    by_time: BTreeSet<(Instant, u64)>,
    times: HashMap<u64, Instant>,
}

impl Timers {
    pub fn set(&mut self, key: u64, time: Option<Instant>) {
        let before = match time {
            Some(time) => self.times.insert(key, time),
            None => self.times.remove(&key),
        };
        if let Some(before) = before {
            self.by_time.remove(&(before, key));
        }
        self.by_time.extend(time.map(|time| (time, key)));
    }

    pub fn next(&self) -> Option<Instant> {
        self.by_time.first().map(|(time, _)| *time)
    }

    pub fn take_due(&mut self, now: Instant) -> Vec<u64> {
        let mut due = Vec::new();
        while self.next().is_some_and(|time| time <= now) {
            due.extend(self.by_time.pop_first().map(|(_, key)| key));
        }
        for key in &due {
            self.times.remove(key);
        }
        due
    }
}

#[cfg(test)]
mod tests {
    use super::*;
    use std::time::Duration;

    #[test]
    fn those_that_are_due_are_taken_in_order() {
        let begin = Instant::now();
        let after = |seconds| begin + Duration::from_secs(seconds);
        let mut timers = Timers::default();
        for (key, seconds) in [(1, 5), (2, 3), (3, 4), (4, 3)] {
            timers.set(key, Some(after(seconds)));
        }
        timers.set(3, None);
        timers.set(4, Some(after(9)));
        assert_eq!(timers.next(), Some(after(3)));
        assert_eq!(timers.take_due(after(2)), []);
        assert_eq!(timers.take_due(after(5)), [2, 1]);
        assert_eq!(timers.take_due(after(5)), []);
        assert_eq!(timers.next(), Some(after(9)));
    }
}
