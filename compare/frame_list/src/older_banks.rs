//! Frames with coefficients larger than measured ones, of the fixed list.

use crate::cases::HISTORIES;
use crate::{Case, HIGH, LOW};
use oracle::pairs::{eight_times, with_pair};
use oracle::random::Random;

/// The four choices of signs.
const SIGNS: [[i16; 2]; 4] = [[1, 1], [1, -1], [-1, 1], [-1, -1]];

/// All of them, in order.
pub fn older_banks(random: &mut Random) -> Vec<Case> {
    let lists = [
        worked(),
        at_each_place(random),
        at_the_limit(random),
        beyond_by_one(random),
        of_all_kinds(random),
        long_searches(),
    ];
    lists.concat()
}

/// One sample and thirteen zeros.
fn one_and_zeros(sample: i16) -> [i16; 14] {
    std::array::from_fn(|place| if place == 0 { sample } else { 0 })
}

/// Samples that the estimate of a pair at the limit follows within a nibble; the last one is as far from what is played as can be.
const FAR_AT_LAST: [i16; 14] = [
    -2_090, 2_623, -3_293, 4_133, -5_189, 6_515, -8_180, 10_269, -12_891, 16_181, -20_283, 25_059,
    -26_299, LOW,
];

/// Samples that the estimate of a pair at the limit follows too; what is played for the last ones is as low as can be before the clamp.
const FAR_BELOW: [i16; 14] = [
    1_545, -1_642, 1_745, -1_854, 1_970, -2_093, 2_224, -2_363, 2_511, -2_666, 2_834, -2_992,
    3_438, 248,
];

/// A hand-made pair before zero pairs, and frames whose sums, D, squared differences and samples before the clamp are as far out as can be.
fn worked() -> Vec<Case> {
    vec![
        Case::new(&one_and_zeros(9), [0, 0], with_pair([0; 16], 0, [8_192, -4_096])),
        Case::new(&one_and_zeros(LOW), [LOW, LOW], eight_times(LOW, -28_672)),
        Case::new(&[HIGH; 14], [LOW, LOW], eight_times(HIGH, 28_673)),
        Case::new(&FAR_AT_LAST, [1_665, -1_326], eight_times(-28_672, LOW)),
        Case::new(&FAR_BELOW, [-1_454, 1_368], eight_times(28_673, HIGH)),
    ]
}

/// A pair just larger than measured ones, on either side of the limit or the lowest, at each place among small ones.
fn at_each_place(random: &mut Random) -> Vec<Case> {
    let pairs = [
        [4_097, 0],
        [0, 2_049],
        [HIGH, 28_673],
        [HIGH, -28_674],
        [LOW, 28_672],
        [LOW, -28_672],
        [LOW, -28_673],
        [30_720, -30_720],
        [30_720, -30_721],
        [28_673, LOW],
        [LOW, LOW],
    ];
    let mut cases = vec![];
    for place in 0..8 {
        for pair in pairs {
            let small = std::array::from_fn(|_| random.within(300) as i16);
            let history = [random.sample(), random.sample()];
            let samples = random.follow(14, pair, history);
            cases.push(Case::new(&samples, history, with_pair(small, place, pair)));
        }
    }
    cases
}

/// Pairs with a sum of 61,440, alike or one at an end, in all signs.
fn limit_pairs() -> Vec<[i16; 2]> {
    let alike_and_high = [[30_720, 30_720], [HIGH, 28_673], [28_673, HIGH]];
    let signed = |[c0, c1]: [i16; 2]| SIGNS.map(|[s0, s1]| [s0 * c0, s1 * c1]);
    let low = [[LOW, 28_672], [LOW, -28_672], [28_672, LOW], [-28_672, LOW]];
    alike_and_high.into_iter().flat_map(signed).chain(low).collect()
}

/// Loud, quiet and short frames from extreme histories with each of these pairs eight times, and silence that ends in one sample.
fn at_the_limit(random: &mut Random) -> Vec<Case> {
    let mut cases = vec![];
    for (turn, [c0, c1]) in limit_pairs().into_iter().enumerate() {
        let frames = [
            (0..14).map(|_| random.sample()).collect(),
            (0..14).map(|_| random.sample()).collect(),
            (0..14).map(|_| random.within(9) as i16).collect(),
            random.clip(1 + turn % 13),
            random.clip(1 + (turn + 6) % 13),
        ];
        for (place, samples) in frames.iter().enumerate() {
            let history = HISTORIES[(turn + place) % HISTORIES.len()];
            cases.push(Case::new(samples, history, eight_times(c0, c1)));
        }
        let mut silence = [0; 14];
        silence[13] = 9 << (turn % 12);
        cases.push(Case::new(&silence, [0, 0], eight_times(c0, c1)));
    }
    cases
}

/// A pair with a sum of 61,441, at each place, in all signs.
fn beyond_by_one(random: &mut Random) -> Vec<Case> {
    let mut cases = vec![];
    for place in 0..8 {
        let [c0, c1] = [[HIGH, 28_674], [28_674, HIGH], [30_720, 30_721]][place % 3];
        for [s0, s1] in SIGNS {
            let coefficients = with_pair(random.coefficients(), place, [s0 * c0, s1 * c1]);
            cases.push(Case::new(&random.clip(14), [1, -1], coefficients));
        }
    }
    cases
}

/// Frames of all kinds, every third one short.
fn of_all_kinds(random: &mut Random) -> Vec<Case> {
    let frame = |turn: usize| {
        let bank = random.older_bank();
        let history = [random.sample(), random.sample()];
        let len = [1 + random.below(13), 14, 14][turn % 3];
        let samples = match turn % 4 {
            0 => random.follow(len, [bank[4], bank[5]], history),
            1 => random.tone(len),
            _ => random.clip(len),
        };
        Case::new(&samples, history, bank)
    };
    (0..60).map(frame).collect()
}

/// Frames whose search takes four passes for each pair, which random ones seldom do.
fn long_searches() -> Vec<Case> {
    vec![
        Case::new(&[-8, 53, -531], [3, -2], eight_times(-25_108, -30_652)),
        Case::new(&[17], [3, -2], eight_times(-10_553, LOW)),
        Case::new(&[8], [3, -2], eight_times(-15_804, LOW)),
    ]
}
