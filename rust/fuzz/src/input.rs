//! How an input is read: as `c/fuzz/input.h` does.

/// What is left of an input.
pub struct Input<'a>(pub &'a [u8]);

impl<'a> Input<'a> {
    /// The next byte, 0 where none is left.
    pub fn byte(&mut self) -> u64 {
        match self.0 {
            [] => 0,
            [first, rest @ ..] => {
                self.0 = rest;
                u64::from(*first)
            }
        }
    }

    pub fn flag(&mut self) -> bool {
        self.byte() & 1 != 0
    }

    /// A number. Small ones, powers of two and those below them take one byte, any other nine.
    pub fn number(&mut self) -> u64 {
        match self.byte() {
            small @ ..0x80 => small,
            power @ ..0xc0 => 1 << (power - 0x80),
            power @ ..0xff => (1 << (power - 0xc0)) - 1,
            _ => (0..8).fold(0xff, |number, _| number << 8 | self.byte()),
        }
    }

    /// A number of bytes up to 131,072, of which the smaller ones come more often.
    pub fn size(&mut self) -> usize {
        match self.byte() as usize {
            small @ ..0x80 => 10 * small,
            code => (1 << (code % 18)) - (code >> 5 & 1),
        }
    }

    /// The next bytes as they are: at most so many, and as many as are left.
    pub fn bytes(&mut self, most: usize) -> &'a [u8] {
        let (taken, rest) = self.0.split_at(most.min(self.0.len()));
        self.0 = rest;
        taken
    }
}
