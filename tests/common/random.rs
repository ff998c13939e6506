//! A seeded source of numbers (splitmix64): the same every run.

pub struct Random(pub u64);

impl Random {
    /// The source of one of many: the two numbers are mixed first, so that neighbours share nothing.
    pub fn of(seed: u64, number: u64) -> Random {
        Random(Random(seed).next() ^ Random(!number).next())
    }

    #[inline]
    pub fn next(&mut self) -> u64 {
        self.0 = self.0.wrapping_add(0x9e37_79b9_7f4a_7c15);
        let z = (self.0 ^ (self.0 >> 30)).wrapping_mul(0xbf58_476d_1ce4_e5b9);
        let z = (z ^ (z >> 27)).wrapping_mul(0x94d0_49bb_1331_11eb);
        z ^ (z >> 31)
    }

    /// Below n, which is not 0.
    #[inline]
    pub fn below(&mut self, n: u64) -> u64 {
        self.next() % n
    }

    /// A finite float with no minus sign below 2^exponent, its exponent uniform from 2^-low up.
    #[inline]
    pub fn float(&mut self, low: u64, exponent: u64) -> f64 {
        let field = 1023 - low + self.below(low + exponent);
        f64::from_bits((field << 52) | (self.next() >> 12))
    }
}
