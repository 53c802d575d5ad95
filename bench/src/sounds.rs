//! The clips that are timed: made here, the same on every machine.

use oracle::random::Random;
use std::f64::consts::TAU;

/// A kind of sound.
#[derive(Clone, Copy, PartialEq, Eq, Debug)]
pub enum Sound {
    /// Decaying notes of a few partials, with a little noise.
    Music,
    /// Noise over all 16 bits: the hardest to predict.
    Noise,
    /// A low hum within 40 of zero, with a little noise.
    Quiet,
    /// A square wave at nearly full scale: a jump every 100 samples.
    Square,
}

impl Sound {
    pub const ALL: [Self; 4] = [Self::Music, Self::Noise, Self::Quiet, Self::Square];

    /// Its name in the tables.
    pub fn name(self) -> &'static str {
        match self {
            Self::Music => "music",
            Self::Noise => "noise",
            Self::Quiet => "quiet",
            Self::Square => "square",
        }
    }

    /// A clip of `count` samples.
    pub fn clip(self, count: usize) -> Vec<i16> {
        let mut random = Random::new(1);
        (0..count).map(|place| self.sample(place, &mut random)).collect()
    }

    fn sample(self, place: usize, random: &mut Random) -> i16 {
        match self {
            Self::Music => music(place, random),
            Self::Noise => random.bits() as i16,
            Self::Quiet => (30.0 * wave(50.0, place)) as i16 + random.within(9) as i16,
            Self::Square => [-30_000, 30_000][place / 100 % 2],
        }
    }
}

/// A sine of so many turns a second, at 32,000 samples a second.
fn wave(frequency: f64, place: usize) -> f64 {
    (TAU * frequency * place as f64 / 32_000.0).sin()
}

/// A note each quarter of a second: four partials that fade at their own pace.
fn music(place: usize, random: &mut Random) -> i16 {
    let (note, since) = (place / 8_000, (place % 8_000) as f64 / 8_000.0);
    let base = 110.0 * 2f64.powf((note * 7 % 24) as f64 / 12.0);
    let partial = |k: f64| (-k * 2.0 * since).exp() * wave(base * k, place) / k;
    let sum: f64 = [1.0, 2.0, 3.0, 5.0].into_iter().map(partial).sum();
    (12_000.0 * sum) as i16 + random.within(40) as i16
}
