//! Numbers, blocks and words of the refusals.

use super::*;
use std::collections::BTreeSet;

/// Every refusal; those that name a block name this one.
fn all(block: u32) -> Vec<Refusal> {
    Refusal::NUMBERS.iter().map(|number| Refusal::from_number(*number, block).unwrap()).collect()
}

#[test]
fn each_number_gives_its_refusal_and_no_other_does() {
    for number in 0..1000 {
        let listed = Refusal::NUMBERS.contains(&number).then_some(number);
        assert_eq!(Refusal::from_number(number, 7).map(Refusal::number), listed);
    }
    for unused in [0, 16, 27, 34, 36, u32::MAX] {
        assert_eq!(Refusal::from_number(unused, 0), None);
    }
}

#[test]
fn numbers_rise_as_refusals_do() {
    assert!(Refusal::NUMBERS.is_sorted_by(|a, b| a < b));
    assert!(all(7).is_sorted_by(|a, b| a < b));
    assert!(Refusal::BadOffset { block: 9 } < Refusal::BadLength { block: 1 });
    assert!(Refusal::BadOffset { block: 8 } < Refusal::BadOffset { block: 9 });
}

#[test]
fn the_block_counts_with_20_21_22_and_35_alone() {
    for (refusal, other) in all(7).into_iter().zip(all(u32::MAX)) {
        let names_block = [20, 21, 22, 35].contains(&refusal.number());
        assert_eq!(refusal.block(), names_block.then_some(7));
        assert_eq!(other.block(), names_block.then_some(u32::MAX));
        assert_eq!(refusal == other, !names_block);
    }
}

#[test]
fn a_code_and_an_entry_are_checked() {
    assert_eq!(Refusal::check(0, 0), Ok(()));
    assert_eq!(Refusal::check(15, 0), Err(Refusal::BadHead));
    assert_eq!(Refusal::check(19, 0), Err(Refusal::NoSuchSample));
    assert_eq!(Refusal::check(20, 0), Err(Refusal::BadOffset { block: 0 }));
    assert_eq!(Refusal::check(21, 1), Err(Refusal::BadLength { block: 1 }));
    assert_eq!(Refusal::check(22, 1_048_575), Err(Refusal::BadHeader { block: 1_048_575 }));
    assert_eq!(Refusal::check(23, 0), Err(Refusal::LoopOutside));
    assert_eq!(Refusal::check(24, 0), Err(Refusal::BadLoop));
    assert_eq!(Refusal::check(25, 0), Err(Refusal::FileTooShort));
    assert_eq!(Refusal::check(26, 0), Err(Refusal::BadField));
    assert_eq!(Refusal::check(35, 7), Err(Refusal::OtherHistory { block: 7 }));
}

#[test]
#[should_panic(expected = "gave code 16")]
fn the_number_of_no_refusal_is_an_unknown_code() {
    let _ = Refusal::check(16, 1);
}

#[test]
fn words_name_the_number_and_the_block() {
    for (refusal, words) in [
        (Refusal::RateZero, "the sample rate is 0 (refusal 5)"),
        (
            Refusal::CoefficientOutside,
            "a pair of coefficients has |c0| + |c1| above 61,440 (refusal 7)",
        ),
        (Refusal::NoSuchSample, "the first sample is not in the clip (refusal 19)"),
        (
            Refusal::BadOffset { block: 0 },
            "block 0: the entry's offset is not where the block's body begins (refusal 20)",
        ),
        (
            Refusal::BadLength { block: 1 },
            "block 1: the entry's length or its zero bytes are wrong (refusal 21)",
        ),
        (
            Refusal::BadHeader { block: 1_048_575 },
            "block 1048575: the entry's predictor-and-scale is not the body's first byte (refusal 22)",
        ),
        (
            Refusal::LoopOutside,
            "the loop's start is not below its end, or its end is above the sample count (refusal 23)",
        ),
        (
            Refusal::BadLoop,
            "the loop's entry is wrong: its start or end, its header or its zero bytes (refusal 24)",
        ),
        (
            Refusal::FileTooShort,
            "the .dsp file lacks bytes of its header or of its samples (refusal 25)",
        ),
        (
            Refusal::BadField,
            "a field of the .dsp file's header is not as it should be (refusal 26)",
        ),
        (
            Refusal::OtherHistory { block: 3 },
            "block 3: it does not begin from what the block before it leaves, which a .dsp file cannot hold (refusal 35)",
        ),
    ] {
        assert_eq!(refusal.to_string(), words);
    }
}

#[test]
fn each_refusal_has_its_own_words() {
    let messages: BTreeSet<_> = all(0).into_iter().map(Refusal::message).collect();
    assert_eq!(messages.len(), Refusal::NUMBERS.len());
}
