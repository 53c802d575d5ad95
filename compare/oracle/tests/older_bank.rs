//! Older banks are within the limit and of every kind, and pairs beyond it are too.

use oracle::pairs::{LARGEST_SUM, are_of_measured_size, are_within_limit, sum_of_pair, with_pair};
use oracle::random::Random;

/// The pairs of many banks, with their places.
fn pairs(choose: impl Fn(&mut Random) -> [i16; 16]) -> Vec<(usize, [i16; 2])> {
    let mut random = Random::new(41);
    let pairs = |_| choose(&mut random).as_chunks().0.to_vec().into_iter().enumerate();
    (0..4000).flat_map(pairs).collect()
}

/// The four choices of signs.
const SIGNS: [[bool; 2]; 4] = [[false, false], [false, true], [true, false], [true, true]];

fn signs(pair: [i16; 2]) -> [bool; 2] {
    pair.map(|coefficient| coefficient < 0)
}

#[test]
fn the_limit() {
    for (pair, is_within) in [
        ([4_097, 0], true),
        ([0, 2_049], true),
        ([32_767, 28_673], true),
        ([32_767, -28_674], false),
        ([-32_768, 28_672], true),
        ([-32_768, -28_672], true),
        ([-32_768, -28_673], false),
        ([30_720, -30_720], true),
        ([30_720, -30_721], false),
        ([-32_768, -32_768], false),
    ] {
        for place in 0..8 {
            let coefficients = with_pair([0; 16], place, pair);
            assert_eq!(are_within_limit(&coefficients), is_within, "{pair:?}");
            assert!(!are_of_measured_size(&coefficients));
        }
    }
    let measured = std::array::from_fn(|place| [-4096, 2048][place % 2]);
    assert!(are_within_limit(&measured) && are_of_measured_size(&measured));
}

#[test]
fn banks_are_within_the_limit_and_mostly_larger_than_measured_ones() {
    let mut random = Random::new(42);
    let banks: Vec<_> = (0..4000).map(|_| random.older_bank()).collect();
    assert!(banks.iter().all(are_within_limit));
    let small = banks.iter().filter(|bank| are_of_measured_size(bank)).count();
    assert!(small < 40, "{small}");
}

#[test]
fn banks_have_pairs_of_every_kind() {
    let pairs = pairs(Random::older_bank);
    let some = |is: &dyn Fn([i16; 2]) -> bool| pairs.iter().filter(|(_, pair)| is(*pair)).count();
    for all in SIGNS {
        let count = some(&|pair| sum_of_pair(pair) == LARGEST_SUM && signs(pair) == all);
        assert!(count >= 100, "{all:?}: {count}");
        assert!(some(&|pair| sum_of_pair(pair) == LARGEST_SUM - 1 && signs(pair) == all) >= 50);
    }
    for end in [i16::MAX, i16::MIN] {
        for place in 0..2 {
            let at_end = |pair: [i16; 2]| pair[place] == end && sum_of_pair(pair) == LARGEST_SUM;
            for all in SIGNS.into_iter().filter(|all| all[place] == (end < 0)) {
                assert!(some(&|pair| at_end(pair) && signs(pair) == all) >= 20, "{end} {all:?}");
            }
        }
    }
    assert!(some(&|pair| pair == [0, 0]) >= 50);
    assert!(some(&|[c0, c1]| c0.abs_diff(0) < 1000 && c1.abs_diff(0) < 1000) >= 100);
    assert!(some(&|pair| (6_144..24_192).contains(&sum_of_pair(pair))) >= 4000);
}

#[test]
fn pairs_beyond_the_limit_are_at_each_place_with_all_signs() {
    let pairs = pairs(|random| random.with_pair_beyond([0; 16]));
    let beyond = pairs.iter().filter(|(_, pair)| *pair != [0, 0]);
    assert!(beyond.clone().count() == 4000);
    assert!(beyond.clone().all(|(_, pair)| sum_of_pair(*pair) > LARGEST_SUM));
    assert!(beyond.clone().any(|(_, pair)| *pair == [i16::MIN; 2]));
    for place in 0..8 {
        for all in SIGNS {
            let by_one = |pair| sum_of_pair(pair) == LARGEST_SUM + 1 && signs(pair) == all;
            let count = beyond.clone().filter(|(at, pair)| *at == place && by_one(*pair)).count();
            assert!(count >= 10, "{place} {all:?}: {count}");
        }
    }
}
