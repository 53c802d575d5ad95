//! The fixed list.

use crate::older_banks::older_banks;
use crate::{Case, HIGH, LOW};
use oracle::History;
use oracle::pairs::{MEASURED, eight_times, largest_measured};
use oracle::random::Random;

/// All cases, in order.
pub fn cases() -> Vec<Case> {
    let mut random = Random::new(1);
    let lists = [
        worked(),
        steady(),
        extremes(&mut random),
        impulses(&mut random),
        levels(&mut random),
        followed(&mut random),
        short(&mut random),
        equal(&mut random),
        clips(&mut random),
        rounded(),
        one_larger(),
        older_banks(&mut Random::new(2)),
    ];
    lists.concat()
}

/// One sample, zero coefficients and history.
fn worked() -> Vec<Case> {
    [7, 8, -9, 9].map(|sample| Case::new(&[sample], [0, 0], [0; 16])).to_vec()
}

/// D of 25 bits and more, one beyond a half of a step: only its rounding to 24 bits makes it that half.
fn rounded() -> Vec<Case> {
    let mut cases = vec![];
    for half in [9, 11, 13, 15] {
        for (sample, newest) in [(half * 1024, -1), (-half * 1024, 1)] {
            cases.push(Case::new(&[sample], [newest, 0], eight_times(1, 0)));
            cases.push(Case::new(&[sample; 14], [newest, 0], eight_times(1, 0)));
        }
    }
    cases
}

/// Extreme histories.
pub const HISTORIES: [History; 5] = [[0, 0], [LOW, LOW], [HIGH, HIGH], [LOW, HIGH], [HIGH, LOW]];

/// Fourteen times the same sample.
fn steady() -> Vec<Case> {
    let mut cases = vec![];
    for level in [0, 1, -1, 7, 8, -8, -9, 1000, -1000, HIGH, LOW] {
        for coefficients in largest_measured() {
            cases.extend(HISTORIES.map(|history| Case::new(&[level; 14], history, coefficients)));
        }
    }
    cases
}

/// Square waves between the extremes, from alternating samples on.
fn extremes(random: &mut Random) -> Vec<Case> {
    let mut cases = vec![];
    for half in 1..=7 {
        for first in [[LOW, HIGH], [HIGH, LOW], [LOW, 0], [HIGH, 0]] {
            let samples: [i16; 14] = std::array::from_fn(|place| first[place / half % 2]);
            for coefficients in largest_measured() {
                let history = HISTORIES[random.below(HISTORIES.len())];
                cases.push(Case::new(&samples, history, coefficients));
            }
            cases.push(Case::new(&samples, [first[1], first[1]], random.coefficients()));
        }
    }
    cases
}

/// One sample in silence, at each place.
fn impulses(random: &mut Random) -> Vec<Case> {
    let mut cases = vec![];
    for place in 0..14 {
        for level in [LOW, HIGH, 12345, -321, 8] {
            let mut samples = [0; 14];
            samples[place] = level;
            cases.push(Case::new(&samples, [0, 0], random.coefficients()));
            cases.push(Case::new(
                &samples,
                [random.sample(), random.sample()],
                largest_measured()[5],
            ));
        }
    }
    cases
}

/// Noise at each level.
fn levels(random: &mut Random) -> Vec<Case> {
    let mut cases = vec![];
    for bits in 0..=15 {
        for _ in 0..24 {
            let limit = (1 << bits) - i32::from(bits == 15);
            let samples: [i16; 14] = std::array::from_fn(|_| random.within(limit) as i16);
            let history = [random.within(limit) as i16, random.within(limit) as i16];
            cases.push(Case::new(&samples, history, random.coefficients()));
        }
    }
    cases
}

/// Samples that nearly follow one of the pairs.
fn followed(random: &mut Random) -> Vec<Case> {
    let follow = |_| {
        let coefficients = random.coefficients();
        let history = [random.sample(), random.sample()];
        let samples = random.follow(14, [coefficients[6], coefficients[7]], history);
        Case::new(&samples, history, coefficients)
    };
    (0..300).map(follow).collect()
}

/// Frames of 1 to 13 real samples.
fn short(random: &mut Random) -> Vec<Case> {
    let short = |place: usize| {
        let samples = random.clip(1 + place % 13);
        Case::new(&samples, [random.sample(), random.sample()], random.coefficients())
    };
    (0..260).map(short).collect()
}

/// Pairs that are given more than once.
fn equal(random: &mut Random) -> Vec<Case> {
    let equal = |_| {
        let some = random.coefficients();
        let coefficients = std::array::from_fn(|place| some[8 + place % 4]);
        Case::new(&random.clip(14), [random.sample(), random.sample()], coefficients)
    };
    (0..120).map(equal).collect()
}

/// Frames of all kinds.
fn clips(random: &mut Random) -> Vec<Case> {
    let clip =
        |_| Case::new(&random.clip(14), [random.sample(), random.sample()], random.coefficients());
    (0..500).map(clip).collect()
}

/// One coefficient just larger than measured ones, at each place.
fn one_larger() -> Vec<Case> {
    let larger = |place: usize| {
        let larger = MEASURED[place % 2] + 1;
        [larger, -larger].map(|coefficient| {
            let mut coefficients = largest_measured()[5];
            coefficients[place] = coefficient;
            Case::new(&[100; 14], [1, -1], coefficients)
        })
    };
    (0..16).flat_map(larger).collect()
}
