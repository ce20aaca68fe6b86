//! Made-up numbers that a seed gives, the same each time (SplitMix64).

pub struct Random {
    state: u64,
}

impl Random {
    /// The numbers of a seed, apart from those of the same seed with other labels.
    pub fn new(seed: u64, labels: &[u64]) -> Random {
        let mut random = Random { state: seed };
        for &label in labels {
            random.state = random.next() ^ label;
        }
        random
    }

    /// A number below a bound, which is not 0.
    pub fn below(&mut self, bound: u64) -> u64 {
        self.next() % bound
    }

    pub fn one_in(&mut self, times: u64) -> bool {
        self.below(times) == 0
    }

    fn next(&mut self) -> u64 {
        self.state = self.state.wrapping_add(0x9E37_79B9_7F4A_7C15);
        let mut mixed = self.state;
        mixed = (mixed ^ (mixed >> 30)).wrapping_mul(0xBF58_476D_1CE4_E5B9);
        mixed = (mixed ^ (mixed >> 27)).wrapping_mul(0x94D0_49BB_1331_11EB);
        mixed ^ (mixed >> 31)
    }
}
