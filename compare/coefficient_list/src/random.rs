//! Random clips.

use crate::kinds::{geometric, harsh, impulses, noise, ramp, repeated, speech, square, tone};
use crate::{Clip, Step};
use oracle::random::Random;

/// A random clip of one or more sounds, cut at random, with askings in between.
pub fn random_clip(random: &mut Random) -> Clip {
    let len = random.below_one(&[3, 16, 60, 60, 120, 300, 950]);
    let samples = sounds(random, len);
    let asking = [1, 2, 5, 1000][random.below(4)];
    let mut steps = vec![];
    for piece in random.cut(&samples) {
        steps.push(Step::Measure(piece.to_vec()));
        if steps.len() < 100 && asking < 1000 && random.below(4 * asking) == 0 {
            steps.push(Step::Ask);
        }
    }
    steps.push(Step::Ask);
    if random.below(8) == 0 {
        steps.push(Step::Ask);
    }
    Clip(steps)
}

/// One sound, or several one after the other.
fn sounds(random: &mut Random, len: usize) -> Vec<i16> {
    if random.below(3) > 0 {
        return sound(random, len);
    }
    let mut samples = vec![];
    while samples.len() < len {
        let part = 1 + random.below_one(&[4, 30, 90]);
        samples.extend(sound(random, part));
    }
    samples.truncate(len);
    samples
}

/// A sound of any kind.
fn sound(random: &mut Random, len: usize) -> Vec<i16> {
    let period = 1 + random.below(20);
    let level = random.sample();
    match random.below(14) {
        0..4 => random.clip(len),
        4 => harsh(random, len),
        5 => noise(random, 1 + (period % 4) as i32, len),
        6 => square([level, random.sample()], period, len),
        7 => impulses(level, random.below(20), period, len),
        8 => tone(&[turn(random), turn(random)], level.into(), len),
        9 => tone(&[turn(random)], f64::from(level) / 1000.0, len),
        10 => geometric(level.into(), turn(random) / 1.9, len),
        11 => ramp(level, random.within(400) as i16, len),
        12 => {
            let limit = 1 << random.below(15);
            let pattern = noise(random, limit, period);
            repeated(&pattern, len)
        }
        _ => {
            let loudness = 1 << random.below(15);
            speech(random, loudness, len)
        }
    }
}

/// A number from -2 to 2.
fn turn(random: &mut Random) -> f64 {
    f64::from(random.within(2000)) / 1000.0
}
