//! Random clips, cuts and coefficients, the same for the same seed.

use crate::pairs::MEASURED;
use crate::{Coefficients, History};

/// A source of random numbers (splitmix64).
pub struct Random(u64);

impl Random {
    /// Starts from a seed.
    pub fn new(seed: u64) -> Self {
        Self(seed)
    }

    /// The next 64 bits.
    pub fn bits(&mut self) -> u64 {
        self.0 = self.0.wrapping_add(0x9e37_79b9_7f4a_7c15);
        let mut mixed = self.0;
        mixed = (mixed ^ (mixed >> 30)).wrapping_mul(0xbf58_476d_1ce4_e5b9);
        mixed = (mixed ^ (mixed >> 27)).wrapping_mul(0x94d0_49bb_1331_11eb);
        mixed ^ (mixed >> 31)
    }

    /// A number from 0 to `end` - 1.
    pub fn below(&mut self, end: usize) -> usize {
        (self.bits() % end as u64) as usize
    }

    /// A number below one of the ends given.
    pub fn below_one(&mut self, ends: &[usize]) -> usize {
        let end = ends[self.below(ends.len())];
        self.below(end)
    }

    /// A number from -`limit` to `limit`.
    pub fn within(&mut self, limit: i32) -> i32 {
        self.below(2 * limit as usize + 1) as i32 - limit
    }

    /// Any sample, the extremes more often than others.
    pub fn sample(&mut self) -> i16 {
        match self.below(16) {
            0 => i16::MIN,
            1 => i16::MAX,
            2 => self.within(9) as i16,
            _ => self.bits() as i16,
        }
    }

    /// Coefficients with c0 within ±4096 and c1 within ±2048, limits and zeros more often.
    pub fn coefficients(&mut self) -> Coefficients {
        std::array::from_fn(|place| self.coefficient(MEASURED[place % 2]))
    }

    /// One coefficient within ±`limit`.
    fn coefficient(&mut self, limit: i16) -> i16 {
        match self.below(8) {
            0 => limit,
            1 => -limit,
            2 => 0,
            _ => self.within(limit.into()) as i16,
        }
    }

    /// Samples that nearly follow one pair from a history, so that errors build up.
    pub fn follow(&mut self, len: usize, pair: [i16; 2], history: History) -> Vec<i16> {
        let [c0, c1] = pair.map(i64::from);
        let [mut last, mut before] = history.map(i64::from);
        let limit = 1 << self.below(8);
        let mut next = || {
            let next = (c0 * last + c1 * before) / 2048 + i64::from(self.within(limit));
            (last, before) = (next.clamp(-32768, 32767), last);
            last as i16
        };
        (0..len).map(|_| next()).collect()
    }

    /// A clip of one of eight kinds.
    pub fn clip(&mut self, len: usize) -> Vec<i16> {
        match self.below(8) {
            0 => vec![0; len],
            1 => vec![self.sample(); len],
            2 => (0..len).map(|_| self.sample()).collect(),
            3 => self.noise(len),
            4 => self.square(len),
            5 => self.clicks(len),
            _ => self.tone(len),
        }
    }

    /// Noise within a random limit.
    fn noise(&mut self, len: usize) -> Vec<i16> {
        let limit = 1 << self.below(15);
        (0..len).map(|_| self.within(limit) as i16).collect()
    }

    /// A square wave between the extremes.
    fn square(&mut self, len: usize) -> Vec<i16> {
        let half = 1 + self.below(20);
        (0..len).map(|place| [i16::MAX, i16::MIN][place / half % 2]).collect()
    }

    /// Silence with single samples in it.
    fn clicks(&mut self, len: usize) -> Vec<i16> {
        (0..len).map(|_| if self.below(20) == 0 { self.sample() } else { 0 }).collect()
    }

    /// A resonant filter driven by noise, its tuning changed now and then.
    pub fn tone(&mut self, len: usize) -> Vec<i16> {
        let (mut tuning, mut last, mut before) = (self.tuning(), 0, 0);
        let mut samples = Vec::with_capacity(len);
        for _ in 0..len {
            if self.below(300) == 0 {
                tuning = self.tuning();
            }
            let next = (tuning.0 * last - tuning.1 * before) / 2048 + self.within(tuning.2);
            (last, before) = (next.clamp(-32768, 32767), last);
            samples.push(last as i16);
        }
        samples
    }

    /// Two coefficients of a resonant filter, and how loud its noise is.
    fn tuning(&mut self) -> (i32, i32, i32) {
        (self.within(4000), 1500 + self.below(548) as i32, 1 << self.below(12))
    }

    /// Cuts a clip into pieces, some of them empty.
    pub fn cut<'s>(&mut self, mut samples: &'s [i16]) -> Vec<&'s [i16]> {
        let limit = [2, 15, 30, 400][self.below(4)];
        let mut pieces = vec![];
        while !samples.is_empty() {
            let (piece, rest) = samples.split_at(self.below(limit).min(samples.len()));
            pieces.push(piece);
            samples = rest;
        }
        pieces
    }
}
