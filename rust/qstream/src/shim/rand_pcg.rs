//! A permuted congruential generator: PCG XSH RR 64/32 (M. E. O'Neill, "PCG: A Family of Simple Fast Space-Efficient Statistically Good
//! Algorithms for Random Number Generation", 2014), begun as its authors' library and the crate `rand_pcg` begin it.

use super::rand_core::utils::NextWord;

const MULTIPLIER: u64 = 6_364_136_223_846_793_005;

/// The state and the increment, which is odd.
#[derive(Clone, Debug, PartialEq, Eq)]
pub struct Lcg64Xsh32 {
    state: u64,
    increment: u64,
}

impl Lcg64Xsh32 {
    /// The generator of a state and a stream.
    pub fn new(state: u64, stream: u64) -> Self {
        let increment = stream << 1 | 1;
        let mut made = Lcg64Xsh32 {
            state: state.wrapping_add(increment),
            increment,
        };
        made.step();
        made
    }

    fn step(&mut self) {
        self.state = self
            .state
            .wrapping_mul(MULTIPLIER)
            .wrapping_add(self.increment);
    }
}

impl NextWord for Lcg64Xsh32 {
    type Word = u32;

    /// The state's upper bits, of which 5 say how far the others are turned.
    fn next_word(&mut self) -> u32 {
        let state = self.state;
        self.step();
        let word = ((state >> 18 ^ state) >> 27) as u32;
        word.rotate_right((state >> 59) as u32)
    }
}
