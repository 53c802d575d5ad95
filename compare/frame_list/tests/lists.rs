//! The lines are as said, they hold the frames, and random frames are of every kind.

use frame_list::{Case, cases, random_frame};
use oracle::list::Listed;
use oracle::pairs::{are_of_measured_size, sum_of_pair};
use oracle::random::Random;

/// Random frames.
fn random_frames(count: usize) -> Vec<Case> {
    let mut random = Random::new(11);
    (0..count).map(|_| random_frame(&mut random)).collect()
}

/// The frames of the fixed list, and some random ones.
fn frames() -> Vec<Case> {
    cases().into_iter().chain(random_frames(2000)).collect()
}

/// The numbers of four digits each.
fn numbers<const N: usize>(word: &str) -> [i16; N] {
    assert_eq!(word.len(), 4 * N);
    let number = |place: usize| u16::from_str_radix(&word[4 * place..4 * place + 4], 16).unwrap();
    std::array::from_fn(|place| number(place) as i16)
}

#[test]
fn a_line_holds_the_frame() {
    for case in frames() {
        let line = case.inputs();
        assert!(line.len() == 135 && line.ends_with('\n'), "{line}");
        let words: Vec<_> = line.trim_end().split(' ').collect();
        let [count, newest, older, samples, coefficients] = words[..] else { panic!("{line}") };
        let history = [numbers::<1>(newest)[0], numbers::<1>(older)[0]];
        let count = usize::from_str_radix(count, 16).unwrap();
        let (samples, coefficients) = (numbers(samples), numbers(coefficients));
        assert_eq!(Case { count, history, samples, coefficients }, case);
    }
}

#[test]
fn each_frame_has_an_answer() {
    for case in frames() {
        let answer = case.answers();
        assert_eq!(answer.lines().count(), 1);
        assert_eq!(answer == "refused 7\n", case.is_refused());
        assert!(case.is_refused() || answer.len() == 30, "{answer}");
    }
}

#[test]
fn random_frames_are_of_every_kind() {
    let frames = random_frames(10_000);
    let some = |is: &dyn Fn(&Case) -> bool| frames.iter().filter(|case| is(case)).count() >= 20;
    for count in 1..=14 {
        assert!(some(&|case| case.count == count), "{count} samples");
    }
    let highest = |case: &Case| case.samples.iter().map(|sample| sample.unsigned_abs()).max();
    for bits in 0..=15 {
        assert!(some(&|case| highest(case).unwrap().checked_ilog2() == Some(bits)), "{bits} bits");
    }
    let alternates = |[first, second]: [i16; 2]| first == !second && first.unsigned_abs() >= 32_767;
    assert!(some(&|case| case.samples == [0; 14]));
    assert!(some(&|case| case.samples[0] != 0 && case.samples == [case.samples[0]; 14]));
    assert!(some(&|case| case.samples.array_windows().all(|pair| alternates(*pair))));
    assert!(some(&|case| case.history == [i16::MIN; 2]));
    assert!(some(&|case| case.coefficients[..2] == [4096, -2048]));
    assert!(some(&|case| case.coefficients.iter().all(|number| number.unsigned_abs() < 100)));
    assert!(some(&Case::is_refused));
}

#[test]
fn random_frames_use_every_pair_and_scale() {
    let frames = random_frames(3000);
    let answers: Vec<_> = frames.iter().map(Case::answers).collect();
    for pair in 0..8 {
        assert!(answers.iter().any(|answer| answer.starts_with(&format!("{pair:x}"))));
    }
    for scale in 0..=12 {
        assert!(answers.iter().any(|answer| answer[1..2] == format!("{scale:x}")));
    }
}

/// Whether a frame has a pair of this sum with these signs, at this place where one is told.
fn has_pair(case: &Case, place: Option<usize>, sum: usize, is_negative: [bool; 2]) -> bool {
    let is = |pair: [i16; 2]| sum_of_pair(pair) == sum && pair.map(|c| c < 0) == is_negative;
    let mut pairs = case.coefficients.as_chunks().0.iter().enumerate();
    pairs.any(|(at, pair)| place.is_none_or(|place| place == at) && is(*pair))
}

/// The four choices of signs.
const SIGNS: [[bool; 2]; 4] = [[false, false], [false, true], [true, false], [true, true]];

#[test]
fn random_frames_are_at_the_limit_and_beyond_it() {
    let frames = random_frames(40_000);
    let count = |is: &dyn Fn(&Case) -> bool| frames.iter().filter(|case| is(case)).count();
    let of_older_banks = count(&|case| !are_of_measured_size(&case.coefficients));
    assert!((12_000..=16_000).contains(&of_older_banks), "{of_older_banks}");
    for signs in SIGNS {
        let at_limit = |case: &Case| has_pair(case, None, 61_440, signs) && !case.is_refused();
        assert!(count(&at_limit) >= 1000, "{signs:?}");
        for place in 0..8 {
            let beyond = |case: &Case| has_pair(case, Some(place), 61_441, signs);
            assert!(count(&beyond) >= 3, "{place} {signs:?}");
            assert!(frames.iter().all(|case| !beyond(case) || case.is_refused()));
        }
    }
    for end in [i16::MAX, i16::MIN] {
        for place in 0..2 {
            let at_end = |pair: &[i16; 2]| pair[place] == end && sum_of_pair(*pair) == 61_440;
            let has = |case: &Case| case.coefficients.as_chunks().0.iter().any(at_end);
            assert!(count(&|case| has(case) && !case.is_refused()) >= 200, "{place} {end}");
        }
    }
    let one_larger =
        |case: &Case| case.coefficients.iter().filter(|c| c.unsigned_abs() > 4096).count() == 1;
    assert!(count(&|case| one_larger(case) && !case.is_refused()) >= 200);
}

#[test]
fn frames_of_older_banks_end_at_every_scale() {
    let is_older = |case: &Case| !are_of_measured_size(&case.coefficients) && !case.is_refused();
    let frames = random_frames(6000).into_iter().filter(is_older);
    let scales: Vec<_> = frames.map(|case| case.answers()[1..2].to_owned()).collect();
    for scale in 0..=12 {
        let scale = format!("{scale:x}");
        let count = scales.iter().filter(|other| **other == scale).count();
        assert!(count >= 20, "{scale}: {count}");
    }
}
