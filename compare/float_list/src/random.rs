//! Random floats, the same in every run.

/// A source of random numbers (splitmix64).
pub struct Random(pub u64);

impl Random {
    /// The next 64 bits.
    pub fn bits(&mut self) -> u64 {
        self.0 = self.0.wrapping_add(0x9e37_79b9_7f4a_7c15);
        let mut mixed = self.0;
        mixed = (mixed ^ (mixed >> 30)).wrapping_mul(0xbf58_476d_1ce4_e5b9);
        mixed = (mixed ^ (mixed >> 27)).wrapping_mul(0x94d0_49bb_1331_11eb);
        mixed ^ (mixed >> 31)
    }

    /// A number from `low` to `high`.
    pub fn between(&mut self, low: i32, high: i32) -> i32 {
        low + (self.bits() % (high - low + 1) as u64) as i32
    }

    /// A float of random sign and fraction, its exponent from `low` to `high`.
    pub fn float(&mut self, low: i32, high: i32) -> f64 {
        self.with_fraction(u64::MAX, low, high)
    }

    /// A float with few bits set, so that sums are often ties.
    pub fn sparse(&mut self, low: i32, high: i32) -> f64 {
        let mask = (1 << self.between(0, 51)) | (1 << self.between(0, 51)) | 1;
        self.with_fraction(mask, low, high)
    }

    /// A normal float whose fraction lies in `mask`.
    fn with_fraction(&mut self, mask: u64, low: i32, high: i32) -> f64 {
        let fraction = self.bits() & mask & ((1 << 52) - 1);
        let sign = self.bits() & (1 << 63);
        let exponent = (1023 + self.between(low, high)) as u64;
        f64::from_bits(sign | exponent << 52 | fraction)
    }
}
