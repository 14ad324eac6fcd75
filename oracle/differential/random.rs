//! Numbers drawn from a seed.

pub struct Random(u64);

impl Random {
    /// The seed and the index decide everything that is drawn for a case.
    pub fn of_case(seed: u64, index: u64) -> Random {
        let mut first = Random(seed);
        Random(first.next() ^ index.wrapping_mul(0xd129_42f0_63b5_a2c5))
    }

    pub fn next(&mut self) -> u64 {
        self.0 = self.0.wrapping_add(0x9e37_79b9_7f4a_7c15);
        let z = (self.0 ^ (self.0 >> 30)).wrapping_mul(0xbf58_476d_1ce4_e5b9);
        let z = (z ^ (z >> 27)).wrapping_mul(0x94d0_49bb_1331_11eb);
        z ^ (z >> 31)
    }

    /// Of 128 binary digits.
    pub fn next_wide(&mut self) -> u128 {
        u128::from(self.next()) << 64 | u128::from(self.next())
    }

    pub fn below(&mut self, n: u64) -> u64 {
        ((u128::from(self.next()) * u128::from(n)) >> 64) as u64
    }

    pub fn index(&mut self, len: usize) -> usize {
        self.below(len as u64) as usize
    }

    pub fn between(&mut self, low: u64, high: u64) -> u64 {
        low + self.below(high - low + 1)
    }

    pub fn once_in(&mut self, n: u64) -> bool {
        self.below(n) == 0
    }

    pub fn pick<T: Copy>(&mut self, from: &[T]) -> T {
        from[self.index(from.len())]
    }

    /// Of any length up to so many binary digits.
    pub fn short(&mut self, digits: u64) -> u64 {
        self.next() >> (63 - self.below(digits))
    }

    /// The same, of up to 128.
    pub fn short_wide(&mut self, digits: usize) -> u128 {
        self.next_wide() >> (127 - self.index(digits))
    }

    /// At most 2 away.
    pub fn near(&mut self, x: u64) -> u64 {
        x.saturating_add(self.below(3)).saturating_sub(self.below(3))
    }

    pub fn near_wide(&mut self, x: u128) -> u128 {
        x.saturating_add(self.below(3).into()).saturating_sub(self.below(3).into())
    }

    /// From 0 up to 1.
    pub fn unit(&mut self) -> f64 {
        (self.next() >> 11) as f64 / (1u64 << 53) as f64
    }

    pub fn words(&mut self, len: usize) -> Vec<u64> {
        (0..len).map(|_| self.next()).collect()
    }

    pub fn bytes(&mut self, len: usize) -> Vec<u8> {
        let mut bytes: Vec<u8> = (0..len.div_ceil(8)).flat_map(|_| self.next().to_le_bytes()).collect();
        bytes.truncate(len);
        bytes
    }
}
