//! What a generator answers.

pub mod utils {
    /// A generator that answers one word after the other.
    pub trait NextWord {
        type Word;

        fn next_word(&mut self) -> Self::Word;
    }
}
