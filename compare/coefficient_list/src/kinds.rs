//! Kinds of sound.

use oracle::random::Random;

/// One sample again and again.
pub fn constant(level: i16, len: usize) -> Vec<i16> {
    vec![level; len]
}

/// A square wave between two samples, each held for `half` samples.
pub fn square(levels: [i16; 2], half: usize, len: usize) -> Vec<i16> {
    (0..len).map(|place| levels[place / half % 2]).collect()
}

/// Silence with one sample every `period` samples, the first at `first`.
pub fn impulses(level: i16, first: usize, period: usize, len: usize) -> Vec<i16> {
    let is_one = |place| place >= first && (place - first) % period == 0;
    (0..len).map(|place| if is_one(place) { level } else { 0 }).collect()
}

/// Noise within a limit.
pub fn noise(random: &mut Random, limit: i32, len: usize) -> Vec<i16> {
    (0..len).map(|_| hold(random.within(limit).into())).collect()
}

/// Noise with the extremes in it.
pub fn harsh(random: &mut Random, len: usize) -> Vec<i16> {
    (0..len).map(|_| random.sample()).collect()
}

/// A sum of sine waves; `turn` is twice the cosine of the angle from a sample to the next.
pub fn tone(turns: &[f64], level: f64, len: usize) -> Vec<i16> {
    let mut sum = vec![0.0; len];
    for turn in turns {
        let (mut last, mut before) = (level / turns.len() as f64, 0.0);
        for place in &mut sum {
            *place += last;
            (last, before) = (turn * last - before, last);
        }
    }
    sum.into_iter().map(|value: f64| value as i16).collect()
}

/// A sample that each sample's multiple follows: growing, dying away or changing sign.
pub fn geometric(first: f64, factor: f64, len: usize) -> Vec<i16> {
    let mut next = first;
    let mut step = || {
        let now = next;
        next *= factor;
        now as i16
    };
    (0..len).map(|_| step()).collect()
}

/// A straight line that starts anew after 65,536 steps.
pub fn ramp(first: i16, step: i16, len: usize) -> Vec<i16> {
    let mut next = first.wrapping_sub(step);
    let mut step = || {
        next = next.wrapping_add(step);
        next
    };
    (0..len).map(|_| step()).collect()
}

/// A few samples again and again.
pub fn repeated(pattern: &[i16], len: usize) -> Vec<i16> {
    pattern.iter().copied().cycle().take(len).collect()
}

/// Pulses or breath through two resonances, and pauses in between.
pub fn speech(random: &mut Random, loudness: i32, len: usize) -> Vec<i16> {
    let mut samples = vec![];
    while samples.len() < len {
        let part = 20 + random.below(120);
        match random.below(5) {
            0 => samples.extend(noise(random, 2, part)),
            1 => samples.extend(spoken(random, loudness / 4, 1, part)),
            _ => {
                let period = 25 + random.below(60);
                samples.extend(spoken(random, loudness, period, part));
            }
        }
    }
    samples.truncate(len);
    samples
}

/// Pulses of one period, or breath where the period is 1, through two resonances.
fn spoken(random: &mut Random, loudness: i32, period: usize, len: usize) -> Vec<i16> {
    let (mut low, mut high) = (Resonance::new(random), Resonance::new(random));
    let mut next = |place| {
        let pulse = if place % period == 0 { random.within(loudness) } else { 0 };
        hold(high.next(low.next(pulse.into())))
    };
    (0..len).map(&mut next).collect()
}

/// A resonant filter of two samples.
struct Resonance {
    pair: [i64; 2],
    last: [i64; 2],
}

impl Resonance {
    /// A random tuning.
    fn new(random: &mut Random) -> Self {
        let pair = [random.within(3600).into(), -1200 - random.below(700) as i64];
        Self { pair, last: [0, 0] }
    }

    /// The next sample.
    fn next(&mut self, input: i64) -> i64 {
        let sum = self.pair[0] * self.last[0] + self.pair[1] * self.last[1];
        let next = (input + sum / 2048).clamp(-100_000, 100_000);
        self.last = [next, self.last[0]];
        next
    }
}

/// A sample within 16 bits.
fn hold(value: i64) -> i16 {
    value.clamp(-32_768, 32_767) as i16
}
