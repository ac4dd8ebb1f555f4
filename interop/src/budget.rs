//! How much of answers is kept until the peer acknowledges them: of a stream, of a connection, and of all connections together. Without
//! bounds a few clients that read nothing would take up the memory.

use std::sync::Arc;
use std::sync::atomic::{AtomicU64, Ordering};

pub const OF_STREAM: usize = 1 << 18;

pub const OF_CONNECTION: u64 = 1 << 20;

pub const OF_ALL: u64 = 256 << 20;

/// Beside the bytes themselves: a piece of its file, and what is known of its stream. Counted, since many small answers are mostly that.
const OF_ANSWER: u64 = 24 << 10;

#[derive(Clone, Debug)]
pub struct Budget {
    left: Arc<AtomicU64>,
}

/// It comes back when the connection is dropped, so that none is lost by an early return.
#[derive(Debug)]
pub struct Share {
    budget: Budget,
    taken: u64,
}

/// What a connection takes at most whose answers have so many bytes each.
pub fn most(answers: impl Iterator<Item = u64>) -> u64 {
    let (mut bytes, mut count) = (0, 0);
    for len in answers {
        bytes += len.min(OF_STREAM as u64);
        count += 1;
    }
    bytes.min(OF_CONNECTION) + count * OF_ANSWER
}

impl Budget {
    pub fn new(bytes: u64) -> Budget {
        Budget {
            left: Arc::new(AtomicU64::new(bytes)),
        }
    }

    pub fn share(&self) -> Share {
        Share {
            budget: self.clone(),
            taken: 0,
        }
    }
}

impl Share {
    /// Returns whether it is: if too little is left, it stays as it was, and the connection goes on with less.
    pub fn set(&mut self, wanted: u64) -> bool {
        let taken = self.taken;
        let change = |left: u64| (left + taken).checked_sub(wanted);
        let order = Ordering::Relaxed;
        let was_set = self.budget.left.fetch_update(order, order, change).is_ok();
        if was_set {
            self.taken = wanted;
        }
        was_set
    }
}

impl Drop for Share {
    fn drop(&mut self) {
        self.set(0);
    }
}

#[cfg(test)]
mod tests {
    use super::*;

    #[test]
    fn no_more_is_taken_than_there_is() {
        let budget = Budget::new(100);
        let (mut one, mut other) = (budget.share(), budget.share());
        assert!(one.set(60) && !other.set(41) && other.set(40));
        assert!(one.set(50) && other.set(50) && !other.set(51));
        drop(one);
        assert!(other.set(100));
    }

    #[test]
    fn a_connection_keeps_no_more_than_its_part() {
        assert_eq!(most([].into_iter()), 0);
        assert_eq!(most([10, 20].into_iter()), 30 + 2 * OF_ANSWER);
        let large = [1 << 30; 100];
        assert_eq!(most(large.into_iter()), OF_CONNECTION + 100 * OF_ANSWER);
    }
}
