//! Random coefficients larger than measured ones, within the limit of a pair and beyond it.

use crate::Coefficients;
use crate::pairs::{LARGEST_SUM, MEASURED, with_pair};
use crate::random::Random;

/// A pair's magnitudes have at most this sum.
const MOST: usize = 65_536;

/// Draws a pair.
type Draw = fn(&mut Random) -> [i16; 2];

/// The kinds of banks: all pairs large, all of hand-made size, or a mixture with small ones.
const KINDS: [&[Draw]; 3] = [
    &[Random::large_pair],
    &[Random::hand_made_pair],
    &[Random::large_pair, Random::hand_made_pair, Random::hand_made_pair, Random::small_pair],
];

impl Random {
    /// Coefficients within the limit, of one of these kinds.
    pub fn older_bank(&mut self) -> Coefficients {
        let kind = KINDS[self.below(KINDS.len())];
        let mut bank = [0; 16];
        for pair in bank.as_chunks_mut().0 {
            *pair = kind[self.below(kind.len())](self);
        }
        bank
    }

    /// A pair at the limit, just below it, or with any smaller sum.
    fn large_pair(&mut self) -> [i16; 2] {
        let sum = LARGEST_SUM - self.below_one(&[1, 1, 2, 100, LARGEST_SUM + 1]);
        self.pair_of_sum(sum)
    }

    /// A pair with c0 within ±16,000 and c1 within ±8,192, half of the time of round numbers.
    fn hand_made_pair(&mut self) -> [i16; 2] {
        let limits = [[8_192, 4_096], [16_000, 8_192]][self.below(2)];
        let step = [1, 128][self.below(2)];
        limits.map(|limit| (step * self.within(limit / step)) as i16)
    }

    /// A pair of zeros, or within ±1,000.
    fn small_pair(&mut self) -> [i16; 2] {
        let limit = [0, 1_000][self.below(2)];
        [0; 2].map(|_: i16| self.within(limit) as i16)
    }

    /// A pair with |c0| + |c1| = `sum`, up to 65,536, any signs, and either coefficient at its ends more often.
    fn pair_of_sum(&mut self, sum: usize) -> [i16; 2] {
        let (least, most) = (sum.saturating_sub(MOST / 2), sum.min(MOST / 2));
        let first = match self.below(4) {
            0 => (least + self.below(2)).min(most),
            1 => most.saturating_sub(self.below(2)).max(least),
            _ => least + self.below(most - least + 1),
        };
        [first, sum - first].map(|magnitude| self.signed(magnitude))
    }

    /// A number with this magnitude and any sign; 32,768 has the lower one alone.
    fn signed(&mut self, magnitude: usize) -> i16 {
        let number = magnitude as i32 * [1, -1][self.below(2)];
        number.try_into().unwrap_or(i16::MIN)
    }

    /// The coefficients with one pair beyond the limit: by one, by a few, by any amount, or twice -32,768.
    pub fn with_pair_beyond(&mut self, coefficients: Coefficients) -> Coefficients {
        let most = MOST - LARGEST_SUM;
        let by = [1, 1, 1, 1 + self.below(10), 1 + self.below(most), most][self.below(6)];
        with_pair(coefficients, self.below(8), self.pair_of_sum(LARGEST_SUM + by))
    }

    /// The coefficients with one beyond ±4,096 (c0) or ±2,048 (c1): by one, by any amount, or at the ends of 16 bits.
    pub fn with_one_larger(&mut self, mut coefficients: Coefficients) -> Coefficients {
        let place = self.below(16);
        let larger = MEASURED[place % 2] + 1 + self.below_one(&[1, 2, 28_000]) as i16;
        coefficients[place] = match self.below(5) {
            0 => [i16::MIN, i16::MAX][self.below(2)],
            1 | 2 => larger,
            _ => -larger,
        };
        coefficients
    }
}
