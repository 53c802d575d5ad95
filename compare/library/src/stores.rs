//! Measuring from arbitrary states, with arbitrary stores.

use crate::measuring::{MOST_SAMPLES, Measuring, compare_finish, compare_process};
use crate::tally::Tally;
use oracle::random::Random;

/// A piece and an asking from a random state.
pub fn random(random: &mut Random, tally: &mut Tally) {
    let mut now = state(random);
    let len = random.below_one(&[1, 15, 40]);
    let piece = random.clip(len);
    let input = (now.clone(), piece.clone());
    if random.below(2) == 0 {
        compare_process(&mut now, &piece, &input, tally);
    }
    compare_finish(&mut now, &input, tally);
}

/// A state, one in four of which is refused, or its store is too short, or the piece too long.
fn state(random: &mut Random) -> Measuring {
    let samples = random.below_one(&[15, 60, 200, 600]) as u32;
    let records = random.below(samples as usize / 14 + 1) as u32;
    let numbers = 2 * (samples as usize + 40).div_ceil(14) + random.below(5);
    let store = store(random, numbers);
    let history = std::array::from_fn(|_| random.sample());
    let mut state = Measuring { samples, records, history, store };
    if random.below(4) == 0 {
        spoil(random, &mut state);
    }
    state
}

fn spoil(random: &mut Random, state: &mut Measuring) {
    match random.below(5) {
        0 => state.records = state.samples / 14 + 1 + random.below_one(&[1, 9]) as u32,
        1 => state.records = u32::MAX - random.below(3) as u32,
        2 => state.samples = MOST_SAMPLES + 1 + random.below_one(&[1, 9, 1 << 31]) as u32,
        3 => state.samples = MOST_SAMPLES - random.below(20) as u32,
        _ => {
            let needed = 2 * (state.samples as usize).div_ceil(14);
            state.store.truncate(random.below(needed + 1));
        }
    }
}

/// Numbers of one kind or of all kinds.
fn store(random: &mut Random, len: usize) -> Vec<f64> {
    let kind = random.below(KINDS + 1);
    let mut any = || if kind == KINDS { random.below(KINDS) } else { kind };
    let kinds: Vec<_> = (0..len).map(|_| any()).collect();
    kinds.into_iter().map(|kind| value(random, kind)).collect()
}

const KINDS: usize = 8;

/// A number of a kind: as records have them, small, large, any bits, zero, infinite, not a number.
fn value(random: &mut Random, kind: usize) -> f64 {
    let near = f64::from(random.within(2_000_000)) / 1_000_000.0;
    match kind {
        0 | 1 => near,
        2 => f64::from(random.within(2)),
        3 => near * 1.0e-310,
        4 => near * f64::powi(10.0, random.within(300)),
        5 => f64::from_bits(random.bits()),
        6 => [0.0, -0.0, f64::INFINITY, f64::NEG_INFINITY][random.below(4)],
        _ => [f64::NAN, near][random.below(2)],
    }
}
