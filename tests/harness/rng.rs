//! Numbers drawn from a printed seed: the same seed and case draw the same numbers everywhere.

/// A generator of 64-bit numbers (SplitMix64).
pub struct Rng {
    state: u64,
}

impl Rng {
    /// The generator of one case: cases of one seed draw independently of each other.
    pub fn of_case(seed: u64, case: usize) -> Rng {
        let mut mixed = Rng { state: seed };
        let state = mixed.next() ^ (case as u64).wrapping_mul(0xd6e8_feb8_6659_fd93);
        Rng { state }
    }

    pub fn next(&mut self) -> u64 {
        self.state = self.state.wrapping_add(0x9e37_79b9_7f4a_7c15);
        let mut z = self.state;
        z = (z ^ z >> 30).wrapping_mul(0xbf58_476d_1ce4_e5b9);
        z = (z ^ z >> 27).wrapping_mul(0x94d0_49bb_1331_11eb);
        z ^ z >> 31
    }

    /// A number below `bound`, which is not 0.
    pub fn below(&mut self, bound: usize) -> usize {
        (self.next() % bound as u64) as usize
    }

    /// A number from `low` to `high`, both possible.
    pub fn between(&mut self, low: i64, high: i64) -> i64 {
        low + (self.next() % (high - low + 1) as u64) as i64
    }

    pub fn pick<T: Copy>(&mut self, choices: &[T]) -> T {
        choices[self.below(choices.len())]
    }

    /// True in about `percent` of a hundred draws.
    pub fn chance(&mut self, percent: usize) -> bool {
        self.below(100) < percent
    }

    pub fn bytes(&mut self, length: usize) -> Vec<u8> {
        (0..length).map(|_| self.next() as u8).collect()
    }
}
