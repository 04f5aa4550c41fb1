//! A small random number generator (splitmix64): the same seed gives the same numbers.

/// The generator's state.
pub struct Random {
    state: u64,
}

impl Random {
    pub fn new(seed: u64) -> Random {
        Random { state: seed }
    }

    /// The next 64 bits.
    fn next(&mut self) -> u64 {
        self.state = self.state.wrapping_add(0x9E37_79B9_7F4A_7C15);
        let mut bits = self.state;
        bits = (bits ^ (bits >> 30)).wrapping_mul(0xBF58_476D_1CE4_E5B9);
        bits = (bits ^ (bits >> 27)).wrapping_mul(0x94D0_49BB_1331_11EB);
        bits ^ (bits >> 31)
    }

    /// A number from the least to the most, both included.
    pub fn between(&mut self, least: u16, most: u16) -> u16 {
        let span = u64::from(most - least) + 1;
        least + (self.next() % span) as u16
    }

    /// A place below a count, which must not be 0.
    pub fn below(&mut self, count: usize) -> usize {
        (self.next() % count as u64) as usize
    }

    /// True so many times in a hundred.
    pub fn percent(&mut self, times: u16) -> bool {
        self.between(1, 100) <= times
    }

    /// One of the things in a list, which must not be empty.
    pub fn pick<T: Copy>(&mut self, list: &[T]) -> T {
        list[self.below(list.len())]
    }

    /// Any byte.
    pub fn byte(&mut self) -> u8 {
        self.between(0, 255) as u8
    }
}
