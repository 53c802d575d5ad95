//! The Rust's expression with ± 0.4999999 against the scope paper's rule in whole numbers.

use oracle::{quantised, unclamped};

fn same(power: i32, distance: i32) -> bool {
    unclamped(power, distance) as i64 == quantised(distance.into(), 2048 << power)
}

/// D around the halves of S', from 0 and up to the ends of 32 bits.
#[test]
fn expression_is_the_rule_around_halves() {
    for power in 0..=12 {
        let half = 1024_i64 << power;
        let last = (1 << 31) / half;
        for k in (0..=64.min(last)).chain(last - 64.min(last)..=last) {
            for d in (k * half - 300..=k * half + 300).flat_map(|d| [d, -d]) {
                let Ok(distance) = d.try_into() else { continue };
                assert!(same(power, distance), "p = {power}, D = {distance}");
            }
        }
    }
}

/// Every D of 32 bits: some minutes, so only when asked for.
#[test]
#[ignore]
fn expression_is_the_rule_for_every_distance() {
    for power in 0..=12 {
        for distance in i32::MIN..=i32::MAX {
            assert!(same(power, distance), "p = {power}, D = {distance}");
        }
    }
}

/// Beyond p = 12, which no search reaches, the two part.
#[test]
fn expression_is_not_the_rule_at_13() {
    assert_eq!((unclamped(13, 8_388_609), quantised(8_388_609, 2048 << 13)), (0, 1));
}
