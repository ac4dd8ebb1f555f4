//! The packet numbers that came in a space of the handshake.

/// How many ranges are kept, and an ACK names at most.
const MOST: usize = 32;

/// Numbers as ranges, each by its lowest and its highest, the highest first.
#[derive(Clone, Debug, Default)]
pub struct Numbers {
    ranges: Vec<(u64, u64)>,
    /// Numbers below were let go, and count as known.
    floor: u64,
}

impl Numbers {
    pub fn as_slice(&self) -> &[(u64, u64)] {
        &self.ranges
    }

    pub fn end(&self) -> u64 {
        self.ranges.first().map_or(0, |(_, highest)| highest + 1)
    }

    pub fn has(&self, number: u64) -> bool {
        let within = |&(lowest, highest): &(u64, u64)| (lowest..=highest).contains(&number);
        number < self.floor || self.ranges.iter().any(within)
    }

    pub fn insert(&mut self, number: u64) {
        if self.has(number) {
            return;
        }
        let place = self.ranges.partition_point(|(lowest, _)| *lowest > number);
        self.ranges.insert(place, (number, number));
        self.join(place);
        if place > 0 {
            self.join(place - 1);
        }
        if self.ranges.len() > MOST {
            let dropped = self.ranges.pop();
            self.floor = dropped.map_or(self.floor, |(_, highest)| highest + 1);
        }
    }

    // The range at a place and the one below it are one where they touch.
    fn join(&mut self, place: usize) {
        if place + 1 < self.ranges.len() && self.ranges[place + 1].1 + 1 == self.ranges[place].0 {
            let (lowest, _) = self.ranges.remove(place + 1);
            self.ranges[place].0 = lowest;
        }
    }
}

#[cfg(test)]
mod tests {
    use super::*;

    #[test]
    fn ranges_that_touch_are_one() {
        let mut numbers = Numbers::default();
        for number in [3, 1, 7, 2, 8, 2] {
            numbers.insert(number);
        }
        assert_eq!(numbers.as_slice(), [(7, 8), (1, 3)]);
        assert_eq!(numbers.end(), 9);
        assert!(numbers.has(2) && !numbers.has(4));
    }

    #[test]
    fn the_lowest_range_goes_first() {
        let mut numbers = Numbers::default();
        (0..40).for_each(|number| numbers.insert(2 * number));
        assert_eq!(numbers.as_slice().len(), MOST);
        assert!(numbers.has(3) && !numbers.has(77));
    }
}
