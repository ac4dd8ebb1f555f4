//! Random scripts by seed: payloads of frames of which most are lawful. One that differs is made smaller, as long as it differs so.

use crate::cases::{CODE, Case, Context, Step, Whose};
use crate::wire::{
    DATA_BLOCKED, MAX_DATA, MAX_STREAM_DATA, MAX_STREAMS, RESET_STREAM, STOP_SENDING,
    STREAM_DATA_BLOCKED, frame,
};
use gotsavena::Dir;

/// How many payloads a script has, and how many frames a payload has at most.
const PAYLOADS: u64 = 14;
const FRAMES: u64 = 3;

/// A frame by the random numbers that it is made of: the limits that it lies at are those of the server that it is played at.
#[derive(Clone, Copy, Debug)]
struct Draw([u64; 6]);

/// What a script is: its payloads, each of frames.
#[derive(Clone, Debug)]
pub struct Script {
    seed: u64,
    payloads: Vec<Vec<Draw>>,
}

/// xorshift64*: the same on every machine.
struct Random(u64);

impl Random {
    fn below(&mut self, most: u64) -> u64 {
        self.0 ^= self.0 << 13;
        self.0 ^= self.0 >> 7;
        self.0 ^= self.0 << 17;
        (self.0 >> 11) % most
    }
}

impl Draw {
    fn new(random: &mut Random) -> Draw {
        Draw(std::array::from_fn(|_| random.below(1 << 40)))
    }

    // Mostly streams of the peer within the count; now and then one at its edge, or one of the endpoint's own.
    fn stream(self, context: &Context<'_>) -> (u64, Whose, Dir) {
        let [pick, index, ..] = self.0;
        let (whose, dir, index) = match pick % 24 {
            0..=8 => (Whose::Peers, Dir::Uni, index % 3),
            9..=17 => (Whose::Peers, Dir::Bidi, index % 3),
            18 => (Whose::Peers, Dir::Bidi, edge(context, Dir::Bidi, index)),
            19 => (Whose::Peers, Dir::Uni, edge(context, Dir::Uni, index)),
            20..=22 => (Whose::Own, Dir::Bidi, 0),
            _ => (Whose::Own, Dir::Uni, index % 2),
        };
        (context.id(whose, dir, index), whose, dir)
    }

    fn frame(self, context: &Context<'_>) -> Vec<u8> {
        let (stream, whose, dir) = self.stream(context);
        let [_, _, kind, at, len, more] = self.0;
        let takes = whose == Whose::Peers || dir == Dir::Bidi;
        let sends = whose == Whose::Own || dir == Dir::Bidi;
        let limit = context.limit(stream).min(1 << 20);
        let offset = match more % 10 {
            0 | 1 => limit.saturating_sub(6) + at % 6,
            _ => at % 60,
        };
        let len = (len % 9).min(limit.saturating_sub(offset).max(u64::from(more % 20 == 0)));
        match kind % 14 {
            0..=6 if takes => context.stream(stream, offset, len, more % 7 == 0),
            7 if takes => frame(RESET_STREAM, &[stream, CODE, offset]),
            8 if sends => frame(STOP_SENDING, &[stream, CODE]),
            9 if sends => frame(MAX_STREAM_DATA, &[stream, at % (1 << 20)]),
            10 => frame(STREAM_DATA_BLOCKED, &[stream, offset]),
            11 => frame(MAX_DATA, &[at % (1 << 22)]),
            12 => frame(MAX_STREAMS + more % 2, &[at % 200]),
            13 => frame(DATA_BLOCKED, &[at % (1 << 20)]),
            _ => vec![1],
        }
    }
}

// The last within the count, or now and then the first past it.
fn edge(context: &Context<'_>, dir: Dir, index: u64) -> u64 {
    let past = u64::from(index % 12 == 11);
    context.seen.count(dir).saturating_sub(1).min(1 << 11) + past
}

impl Script {
    pub fn new(seed: u64) -> Script {
        // (a state of 0 would stay)
        let mut random = Random(seed.wrapping_add(1).wrapping_mul(0x9e37_79b9_7f4a_7c15) | 1);
        let payloads = (0..PAYLOADS).map(|_| {
            let frames = 0..1 + random.below(FRAMES);
            frames.map(|_| Draw::new(&mut random)).collect()
        });
        Script {
            seed,
            payloads: payloads.collect(),
        }
    }

    pub fn case(&self) -> Case {
        let steps = self.payloads.iter().map(|frames| {
            let frames = frames.clone();
            Step::Send(Box::new(move |context: &Context<'_>| {
                let parts: Vec<_> = frames.iter().map(|draw| draw.frame(context)).collect();
                parts.concat()
            }))
        });
        Case::new(format!("random/{}", self.seed), steps.collect())
    }

    /// The scripts that lack one payload or one frame of this.
    fn smaller(&self) -> Vec<Script> {
        let mut all = Vec::new();
        for place in (0..self.payloads.len()).rev() {
            let mut less = self.clone();
            less.payloads.remove(place);
            all.push(less);
            for frame in 0..self.payloads[place].len() {
                if self.payloads[place].len() > 1 {
                    let mut less = self.clone();
                    less.payloads[place].remove(frame);
                    all.push(less);
                }
            }
        }
        all.retain(|script| !script.payloads.is_empty());
        all
    }

    /// The smallest that it finds of which this holds.
    pub fn shrunk(self, mut holds: impl FnMut(&Script) -> bool) -> Script {
        let mut script = self;
        while let Some(less) = script.smaller().into_iter().find(|less| holds(less)) {
            script = less;
        }
        script
    }
}

#[cfg(test)]
mod tests {
    use super::*;

    #[test]
    fn a_seed_makes_the_same_script_and_another_makes_another() {
        let text = |seed| format!("{:?}", Script::new(seed));
        assert_eq!(text(7), text(7));
        assert_ne!(text(7), text(8));
    }

    #[test]
    fn what_does_not_count_is_left_out() {
        let script = Script::new(3);
        let first = format!("{:?}", script.payloads[5][0]);
        let has = |script: &Script| {
            let mut frames = script.payloads.iter().flatten();
            frames.any(|draw| format!("{draw:?}") == first)
        };
        let less = script.shrunk(has);
        assert_eq!((less.payloads.len(), less.payloads[0].len()), (1, 1));
    }
}
