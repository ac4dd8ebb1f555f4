//! Which stream's bytes go next (RFC 9218): that of the most urgent, the lowest number first; those that a client can use as they come
//! go by turns. Streams of which nothing is told go by turns, behind all others.

use gotsavena::{Endpoint, StreamId};
use std::collections::{BTreeMap, BTreeSet};

#[derive(Clone, Copy, Debug, PartialEq, Eq, PartialOrd, Ord)]
pub struct Priority {
    /// 0 to 7, 0 being the most urgent (RFC 9218, section 4.1).
    pub urgency: u8,
    /// Whether a part is of use already, so that it may go by turns (section 4.2).
    pub is_incremental: bool,
}

#[derive(Debug, Default)]
pub struct Priorities {
    of: BTreeMap<StreamId, Priority>,
    streams: BTreeMap<Priority, BTreeSet<StreamId>>,
}

impl Priorities {
    pub fn set(&mut self, stream: StreamId, priority: Option<Priority>) {
        if self.of.get(&stream) == priority.as_ref() {
            return;
        }
        let before = match priority {
            Some(priority) => self.of.insert(stream, priority),
            None => self.of.remove(&stream),
        };
        if let Some(before) = before {
            let streams = self.streams.entry(before).or_default();
            streams.remove(&stream);
            if streams.is_empty() {
                self.streams.remove(&before);
            }
        }
        if let Some(priority) = priority {
            self.streams.entry(priority).or_default().insert(stream);
        }
    }

    pub fn forget(&mut self, is_over: impl Fn(&StreamId) -> bool) {
        let over: Vec<StreamId> = self.of.keys().copied().filter(is_over).collect();
        over.into_iter().for_each(|stream| self.set(stream, None));
    }

    /// The stream from which on the next packet takes bytes, where those that go by turns have come to this one.
    pub fn next(&self, end: &Endpoint, turn: StreamId) -> StreamId {
        let first = StreamId::new(0).expect("it is below 2^62");
        let next = self.streams.iter().find_map(|(priority, streams)| {
            let from = if priority.is_incremental { turn } else { first };
            sendable(streams, end, from).or_else(|| sendable(streams, end, first))
        });
        next.unwrap_or(turn)
    }
}

fn sendable(streams: &BTreeSet<StreamId>, end: &Endpoint, from: StreamId) -> Option<StreamId> {
    let mut from = from;
    loop {
        let stream = *streams.range(from..).next()?;
        match end.next_sendable(stream)? {
            found if found == stream => return Some(found),
            found => from = found,
        }
    }
}

#[cfg(test)]
mod tests {
    use super::*;
    use gotsavena::{Dir, Role, Settings};

    #[test]
    fn the_most_urgent_goes_first() {
        let settings = Settings::default();
        let mut end = Endpoint::new(Role::Client, settings, settings.limits()).unwrap();
        let [a, b, c, d, e] = [0; 5].map(|_| end.open(Dir::Bidi).unwrap());
        let mut priorities = Priorities::default();
        // Nothing is told: they go by turns.
        assert_eq!(priorities.next(&end, c), c);
        for (stream, urgency, is_incremental) in [
            (a, 3, true),
            (b, 3, true),
            (c, 3, false),
            (d, 3, false),
            (e, 0, true),
        ] {
            let priority = Priority {
                urgency,
                is_incremental,
            };
            priorities.set(stream, Some(priority));
            end.write(stream, b"bytes").unwrap();
        }
        let mut next = |turn, gone: Option<StreamId>| {
            if let Some(gone) = gone {
                end.reset(gone, 0).unwrap();
            }
            priorities.next(&end, turn)
        };
        assert_eq!(next(a, None), e);
        // By number, and then by turns.
        assert_eq!(next(a, Some(e)), c);
        assert_eq!(next(e, Some(c)), d);
        assert_eq!(next(a, Some(d)), a);
        assert_eq!(next(b, None), b);
        assert_eq!(next(c, None), a);
        priorities.set(b, None);
        assert_eq!(priorities.next(&end, b), a);
    }
}
