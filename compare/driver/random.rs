//! Random numbers that depend on the seed and the case alone (SplitMix64).

pub struct Random {
    state: u64,
}

impl Random {
    /// The numbers of one case, independent of those of the cases before it.
    pub fn of_case(seed: u64, case: u64) -> Self {
        let mut mixed = Random { state: seed };
        let state = mixed.bits() ^ case.wrapping_mul(0x9e37_79b9_7f4a_7c15);
        Random { state }
    }

    pub fn bits(&mut self) -> u64 {
        self.state = self.state.wrapping_add(0x9e37_79b9_7f4a_7c15);
        let mut z = self.state;
        z = (z ^ (z >> 30)).wrapping_mul(0xbf58_476d_1ce4_e5b9);
        z = (z ^ (z >> 27)).wrapping_mul(0x94d0_49bb_1331_11eb);
        z ^ (z >> 31)
    }

    /// 0 to n - 1.
    pub fn below(&mut self, n: usize) -> usize {
        (self.bits() % n as u64) as usize
    }

    /// Both ends included.
    pub fn between(&mut self, low: i32, high: i32) -> i32 {
        let span = (high as i64 - low as i64 + 1) as u64;
        (low as i64 + (self.bits() % span) as i64) as i32
    }

    pub fn one_in(&mut self, n: usize) -> bool {
        self.below(n) == 0
    }

    pub fn pick<T: Copy>(&mut self, from: &[T]) -> T {
        from[self.below(from.len())]
    }
}
