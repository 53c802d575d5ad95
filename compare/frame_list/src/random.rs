//! Random frames.

use crate::cases::HISTORIES;
use crate::{Case, HIGH, LOW};
use oracle::pairs::{MEASURED, largest_measured};
use oracle::random::Random;
use oracle::{Coefficients, History, measure};

/// A random frame of any kind, full or short; one in 32 has a pair beyond the limit, one in 32 one coefficient larger than
/// measured ones.
pub fn random_frame(random: &mut Random) -> Case {
    let mut case = if random.below(4) == 0 { within_clip(random) } else { alone(random) };
    match random.below(32) {
        0 => case.coefficients = random.with_pair_beyond(case.coefficients),
        1 => case.coefficients = random.with_one_larger(case.coefficients),
        _ => {}
    }
    case
}

/// A frame of a clip, with the samples before it, and half of the time with the clip's own coefficients.
fn within_clip(random: &mut Random) -> Case {
    let first = 2 + random.below(40);
    let len = first + count(random);
    let clip = if random.below(2) == 0 { random.tone(len) } else { random.clip(len) };
    let coefficients = match random.below(2) {
        0 => measure(&[&clip]).coefficients,
        _ => coefficients(random),
    };
    Case::new(&clip[first..], [clip[first - 1], clip[first - 2]], coefficients)
}

/// A frame whose samples, history and coefficients need not belong together.
fn alone(random: &mut Random) -> Case {
    let (coefficients, history) = (coefficients(random), history(random));
    let count = count(random);
    let samples = if random.below(4) == 0 {
        let pair = 2 * random.below(8);
        random.follow(count, [coefficients[pair], coefficients[pair + 1]], history)
    } else {
        samples(random, count)
    };
    Case::new(&samples, history, coefficients)
}

/// How many samples are real.
fn count(random: &mut Random) -> usize {
    if random.below(3) == 0 { 1 + random.below(13) } else { 14 }
}

/// Samples of a kind.
fn samples(random: &mut Random, len: usize) -> Vec<i16> {
    match random.below(8) {
        0 => vec![level(random); len],
        1 => square(random, [LOW, HIGH], len),
        2 => {
            let levels = [level(random), level(random)];
            square(random, levels, len)
        }
        3 => impulse(random, len),
        4 => noise_around(random, len),
        5 => noise(random, len),
        6 => random.tone(len),
        _ => random.clip(len),
    }
}

/// A sample within a random power of two, or any.
fn level(random: &mut Random) -> i16 {
    if random.below(4) == 0 { random.sample() } else { within_bits(random, 15) }
}

/// A number within a random power of two of at most this exponent.
fn within_bits(random: &mut Random, most: usize) -> i16 {
    let limit = (1 << random.below(most + 1)).min(32_767);
    random.within(limit) as i16
}

/// A square wave, from alternating samples on, that may start within a half.
fn square(random: &mut Random, levels: [i16; 2], len: usize) -> Vec<i16> {
    let (half, first) = (1 + random.below_one(&[1, 7]), random.below(14));
    (0..len).map(|place| levels[(first + place) / half % 2]).collect()
}

/// One sample in silence.
fn impulse(random: &mut Random, len: usize) -> Vec<i16> {
    let mut samples = vec![0; len];
    samples[random.below(len)] = level(random);
    samples
}

/// Noise within a random power of two.
fn noise(random: &mut Random, len: usize) -> Vec<i16> {
    let limit = (1 << random.below(16)).min(32_767);
    (0..len).map(|_| random.within(limit) as i16).collect()
}

/// Noise around a level.
fn noise_around(random: &mut Random, len: usize) -> Vec<i16> {
    let middle = level(random);
    noise(random, len).into_iter().map(|sample| sample.saturating_add(middle)).collect()
}

/// The two samples before the frame.
fn history(random: &mut Random) -> History {
    match random.below(4) {
        0 => HISTORIES[random.below(HISTORIES.len())],
        1 => [level(random); 2],
        2 => [level(random), level(random)],
        _ => [random.sample(), random.sample()],
    }
}

/// Coefficients: more than a third of older banks, else of measured size.
fn coefficients(random: &mut Random) -> Coefficients {
    match random.below(11) {
        0..3 => random.older_bank(),
        3 => {
            let bank = random.older_bank();
            few_pairs(random, bank)
        }
        _ => of_measured_size(random),
    }
}

/// Coefficients within ±4,096 and ±2,048: at these limits, small, like a resonance's, few pairs, or any.
fn of_measured_size(random: &mut Random) -> Coefficients {
    match random.below(8) {
        0 => largest_measured()[random.below(largest_measured().len())],
        1 => std::array::from_fn(|place| [-1, 0, 1][random.below(3)] * MEASURED[place % 2]),
        2 => std::array::from_fn(|_| within_bits(random, 10)),
        3 | 4 => std::array::from_fn(|place| match place % 2 {
            0 => random.within(4096) as i16,
            _ => -1200 - random.below(849) as i16,
        }),
        5 => {
            let some = random.coefficients();
            few_pairs(random, some)
        }
        _ => random.coefficients(),
    }
}

/// The first one to three pairs, repeated.
fn few_pairs(random: &mut Random, some: Coefficients) -> Coefficients {
    let pairs = 1 + random.below(3);
    std::array::from_fn(|place| some[place % (2 * pairs)])
}
