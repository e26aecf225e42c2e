//! The one source of pseudo-random bytes for the printed vectors and the tests.
//! It has nothing to do with the cipher and is chosen to be easy to repeat.

/// A linear congruential generator: x' = (x * 1103515245 + 12345) mod 2^31.
#[derive(Clone, Debug)]
pub struct Generator {
    x: u64,
}

impl Generator {
    /// A generator that starts from the given seed, reduced modulo 2^31.
    pub fn new(seed: u64) -> Self {
        Generator {
            x: seed % (1 << 31),
        }
    }

    /// Steps once and gives the byte (x / 65536) mod 256 of the new x.
    pub fn byte(&mut self) -> u8 {
        self.x = (self.x * 1_103_515_245 + 12_345) % (1 << 31);
        ((self.x / 65_536) % 256) as u8
    }

    /// The next `count` bytes, in the order in which they are drawn.
    pub fn bytes(&mut self, count: usize) -> Vec<u8> {
        (0..count).map(|_| self.byte()).collect()
    }
}
