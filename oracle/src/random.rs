//! Random numbers that depend on nothing but the seed, so that a run can be repeated.

/// The generator splitmix64.
pub struct Random {
    state: u64,
}

impl Random {
    /// One of many independent streams of a seed.
    pub fn stream(seed: u64, number: u64) -> Random {
        // The first word of a neighbouring seed is far away, unlike the neighbouring seed itself.
        let mut start = Random {
            state: seed.wrapping_add(number),
        };
        Random {
            state: start.word(),
        }
    }

    /// All 64 bits random.
    pub fn word(&mut self) -> u64 {
        self.state = self.state.wrapping_add(0x9e37_79b9_7f4a_7c15);
        let mut z = self.state;
        z = (z ^ (z >> 30)).wrapping_mul(0xbf58_476d_1ce4_e5b9);
        z = (z ^ (z >> 27)).wrapping_mul(0x94d0_49bb_1331_11eb);
        z ^ (z >> 31)
    }

    /// A number below `end`.
    pub fn below(&mut self, end: u64) -> u64 {
        ((u128::from(self.word()) * u128::from(end)) >> 64) as u64
    }

    /// A number of 1 to `most` binary digits, every length as likely as another.
    pub fn of_any_size(&mut self, most: u64) -> u64 {
        let top = 1 << self.below(most);
        top | (self.word() & (top - 1))
    }
}
