//! Clips with coefficients larger than measured ones, of the fixed list.

use crate::case::{Case, Step};
use crate::cases::{HIGH, HISTORIES, LOW, after, every, start};
use crate::codes::image_size;
use crate::refusals::{for_many_reasons, started};
use crate::state::{Start, State};
use oracle::pairs::with_pair;
use oracle::random::Random;

/// Pairs with a sum of 61,440, and the same with a sum of one more.
const WITHIN: [[i16; 2]; 8] = [
    [HIGH, 28_673],
    [HIGH, -28_673],
    [LOW, 28_672],
    [LOW, -28_672],
    [30_720, 30_720],
    [-30_720, 30_720],
    [28_672, LOW],
    [-28_673, HIGH],
];
const BEYOND: [[i16; 2]; 8] = [
    [HIGH, 28_674],
    [HIGH, -28_674],
    [LOW, 28_673],
    [LOW, -28_673],
    [30_720, 30_721],
    [-30_720, 30_721],
    [28_673, LOW],
    [-28_674, HIGH],
];

/// All of them, in order.
pub fn older_banks(random: &mut Random) -> Vec<Case> {
    let mut cases = starts(random);
    cases.extend(cuts(random));
    cases.extend(limits(random));
    cases.push(states(random));
    cases
}

/// Starts with a pair at the limit and one beyond it, at each place, and with several reasons at once.
fn starts(random: &mut Random) -> Vec<Case> {
    let good = start(random, 29, 17);
    let size = image_size(29, 16) as usize;
    let mut at_places = vec![];
    for place in 0..8 {
        for other in [place, (place + 3) % 8] {
            for pair in [WITHIN[other], BEYOND[other]] {
                let coefficients = with_pair(good.coefficients, place, pair);
                at_places.push((Start { coefficients, ..good.clone() }, size));
            }
        }
    }
    let beyond = with_pair(random.older_bank(), 7, BEYOND[3]);
    [at_places, for_many_reasons(&good, size, beyond)].map(started).to_vec()
}

/// Clips with older banks, in pieces.
fn cuts(random: &mut Random) -> Vec<Case> {
    let mut cases = vec![];
    for (total, size, len) in [
        (1, 8, 1),
        (13, 8, 5),
        (14, 8, 14),
        (15, 16, 7),
        (29, 16, 10),
        (43, 8, 43),
        (57, 24, 20),
        (70, 16, 29),
        (84, 65_536, 28),
        (85, 32, 17),
    ] {
        let samples = random.clip(total);
        let coefficients = random.older_bank();
        let start = Start { coefficients, ..start(random, total, size) };
        cases.push(Case::clip(&start, &every(&samples, len), 3));
    }
    cases
}

/// Clips with eight pairs at the limit and extreme starting histories and samples.
fn limits(random: &mut Random) -> Vec<Case> {
    let coefficients = WITHIN.as_flattened().try_into().unwrap();
    let mut cases = vec![];
    for history in HISTORIES {
        for samples in [[LOW; 29], [HIGH; 29]] {
            let start = Start { coefficients, history, ..start(random, 29, 8) };
            cases.push(Case::clip(&start, &every(&samples, 15), 1));
        }
    }
    cases
}

/// States with a pair at the limit and one beyond it, at each place, fed to the end and closed.
fn states(random: &mut Random) -> Case {
    let samples = random.tone(29);
    let start = start(random, samples.len(), 16);
    let room = image_size(start.total, start.block()) as usize + 3;
    let good = after(&Case::clip(&start, &[&samples[..20]], 3).0[..3]);
    let mut steps = vec![Step::New];
    for place in 0..8 {
        for pair in [WITHIN[place], BEYOND[place]] {
            let coefficients = with_pair(good.coefficients, place, pair);
            steps.push(Step::Put(State { coefficients, ..good.clone() }));
            steps.push(Step::Feed { piece: samples[20..].to_vec(), room, shown: false });
            steps.push(Step::Close { room, shown: false });
        }
    }
    Case(steps)
}
