//! Random numbers that are the same on every machine: splitmix64.

pub struct Random(u64);

impl Random {
    /// The numbers of one case of a run: each case can be made again without those before it.
    pub fn of(seed: u64, index: u64) -> Self {
        let mut start = Random(seed);
        let mixed = start.next();
        let mut both = Random(mixed ^ index.wrapping_mul(0xd6e8_feb8_6659_fd93));
        both.next();
        both
    }

    pub fn next(&mut self) -> u64 {
        self.0 = self.0.wrapping_add(0x9e37_79b9_7f4a_7c15);
        let a = (self.0 ^ (self.0 >> 30)).wrapping_mul(0xbf58_476d_1ce4_e5b9);
        let b = (a ^ (a >> 27)).wrapping_mul(0x94d0_49bb_1331_11eb);
        b ^ (b >> 31)
    }

    /// 0 to n - 1.
    pub fn below(&mut self, n: usize) -> usize {
        ((u128::from(self.next()) * n as u128) >> 64) as usize
    }

    /// low to high, both included.
    pub fn within(&mut self, low: i64, high: i64) -> i64 {
        low + self.below((high - low + 1) as usize) as i64
    }

    pub fn chance(&mut self, hundredths: usize) -> bool {
        self.below(100) < hundredths
    }

    pub fn pick<T: Copy>(&mut self, from: &[T]) -> T {
        from[self.below(from.len())]
    }
}
