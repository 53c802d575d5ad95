//! The lines are as said, and random calls are of every kind.

use block_list::{Case, cases, random_call};
use oracle::list::Listed;
use oracle::random::Random;

/// Random calls.
fn random_calls(count: usize) -> Vec<Case> {
    let mut random = Random::new(11);
    (0..count).map(|_| random_call(&mut random)).collect()
}

#[test]
fn each_call_has_a_record_and_an_answer() {
    for case in cases().into_iter().chain(random_calls(3000)) {
        let (line, answer) = (case.inputs(), case.answers());
        assert!(line.len() == 357 && line.ends_with('\n'), "{line}");
        assert!(answer.ends_with('\n') && answer.lines().count() == 1, "{answer}");
        let kind = match case {
            Case::Play { .. } => "00",
            Case::Join { .. } => "01",
            Case::Addresses(_) => "02",
        };
        assert!(line.starts_with(kind));
    }
}

#[test]
fn random_calls_have_every_answer() {
    let calls = random_calls(3000);
    let kind = |case: &Case| case.inputs()[..2].to_string() + &case.answers()[..2];
    let kinds: Vec<_> = calls.iter().map(kind).collect();
    for kind in ["0000", "000c", "000d", "000e", "0100", "010e", "0112", "0200"] {
        assert!(kinds.iter().filter(|other| *other == kind).count() >= 20, "{kind}");
    }
}

#[test]
fn random_blocks_have_every_length_header_and_end() {
    let (mut lengths, mut set, mut clear, mut ends) = ([0; 97], 0, 0, [0; 2]);
    for case in random_calls(10_000) {
        let is_played = case.answers().starts_with("00");
        let Case::Play { part, context, .. } = case else { continue };
        if is_played {
            lengths[part.len as usize] += 1;
            set |= context.predictor_and_scale;
            clear |= !context.predictor_and_scale;
            ends[0] += usize::from(part.coefficients.contains(&i16::MIN));
            ends[1] += usize::from(part.coefficients.contains(&i16::MAX));
        }
    }
    assert!(lengths[1..].iter().all(|count| *count >= 5), "{lengths:?}");
    assert!(set == 0xffff && clear == 0xffff && ends.iter().all(|count| *count >= 100));
}
