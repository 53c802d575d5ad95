//! The lines are as said, and the lists have every call and answer.

use clip_list::{Case, LoopState, Machine, Start, State, Step, cases, random_clip};
use oracle::FrameContext;
use oracle::list::Listed;
use oracle::pairs::{are_of_measured_size, are_within_limit, sum_of_pair};
use oracle::random::Random;

/// Random clips.
fn random_clips(count: usize) -> Vec<Case> {
    let mut random = Random::new(11);
    (0..count).map(|_| random_clip(&mut random)).collect()
}

/// The clips of the fixed list, and some random ones.
fn clips() -> Vec<Case> {
    cases().into_iter().chain(random_clips(500)).collect()
}

/// The number of the digits from a place of a line on.
fn number(line: &str, place: usize, digits: usize) -> u32 {
    u32::from_str_radix(&line[place..place + digits], 16).unwrap()
}

/// The numbers of four digits each from a place of a line on.
fn numbers<const N: usize>(line: &str, place: usize) -> [i16; N] {
    std::array::from_fn(|index| number(line, place + 4 * index, 4) as i16)
}

/// The loop and the context of a line.
fn loop_of(line: &str) -> (LoopState, FrameContext) {
    let [start, end] = [9, 17].map(|place| number(line, place, 8));
    let header = number(line, 25, 4) as u16;
    let context = FrameContext { predictor_and_scale: header, last_samples: numbers(line, 29) };
    (LoopState { start, end, present: line[7..9] == *"01" }, context)
}

/// The step of a line that is not of a piece, with the loop of the line before.
fn step_of(line: &str, looped: Option<LoopState>) -> Step {
    let (room, shown) = (number(line, 1, 4) as usize, line[5..7] == *"01");
    let state = State {
        total: number(line, 9, 8),
        rate: number(line, 17, 8),
        block: number(line, 25, 8),
        gain: number(line, 33, 4) as u16,
        coefficients: numbers(line, 37),
        history: numbers(line, 101),
        fed: number(line, 109, 8),
        passes: number(line, 117, 8),
        frame: numbers(line, 125),
        closed: line[7..9] == *"01",
        ..State::default()
    };
    match &line[..1] {
        "n" => Step::New,
        "p" => Step::Put(state),
        "c" => Step::Close { room, shown },
        "s" => {
            let State { total, rate, block: size, gain, coefficients, history, .. } = state;
            let looped = looped.and_then(LoopState::looped);
            let start = Start { total, rate, size, gain, coefficients, history, looped };
            Step::Start { start, room, shown }
        }
        _ => panic!("{line}"),
    }
}

#[test]
fn the_list_is_large_enough() {
    let cases = cases();
    let inputs: String = cases.iter().map(Case::inputs).collect();
    let answers: String = cases.iter().map(Case::answers).collect();
    println!("{} cases, {} and {} bytes", cases.len(), inputs.len(), answers.len());
    assert!(cases.len() >= 300 && inputs.len() + answers.len() <= 1_600_000);
}

/// Puts a loop that no start takes into the state put before it.
fn put_loop(steps: &mut [Step], looped: Option<(LoopState, FrameContext)>) {
    if let Some((looped, context)) = looped {
        let Some(Step::Put(state)) = steps.last_mut() else { panic!("{looped:?}") };
        (state.looped, state.loop_context) = (looped, context);
        assert!(state.has_loop());
    }
}

#[test]
fn lines_hold_the_steps() {
    for case in clips() {
        let (mut steps, mut piece) = (vec![], vec![]);
        let mut looped: Option<(LoopState, FrameContext)> = None;
        for line in case.inputs().split_inclusive('\n') {
            assert!(line.len() == 182 && line.is_ascii() && line.ends_with('\n'), "{line}");
            if line.starts_with('s') && line[7..9] == *"01" {
                let (looped, context) = looped.take().unwrap();
                assert!(looped.present && context == FrameContext::default());
                steps.push(step_of(line, Some(looped)));
                continue;
            }
            put_loop(&mut steps, looped.take());
            if line.starts_with('l') {
                looped = Some(loop_of(line));
                continue;
            }
            if !"bf".contains(&line[..1]) {
                steps.push(step_of(line, None));
                continue;
            }
            let count = number(line, 7, 2) as usize;
            piece.extend(&numbers::<42>(line, 9)[..count]);
            if line.starts_with('f') {
                let (room, shown) = (number(line, 1, 4) as usize, line[5..7] == *"01");
                steps.push(Step::Feed { piece: std::mem::take(&mut piece), room, shown });
            }
        }
        put_loop(&mut steps, looped);
        assert_eq!(Case(steps), case);
    }
}

#[test]
fn each_call_has_an_answer() {
    for case in clips() {
        let answers = case.answers();
        let lent: Vec<_> = case.0.iter().filter_map(Step::lent).collect();
        assert_eq!(answers.lines().count(), lent.len());
        for (line, (room, shown)) in answers.lines().zip(lent) {
            let words: Vec<_> = line.split(' ').map(str::len).collect();
            let mut fields = vec![2, 8, 8, 8, 4, 64, 8, 8, 8, 56, 2];
            let has_loop = words[11] == 8;
            fields.extend(if has_loop { &[8, 8, 2, 4, 8, 10][..] } else { &[10] });
            fields.extend(shown.then_some(2 * room));
            assert_eq!(words, fields, "{line}");
        }
    }
}

/// The calls' letters and answers.
fn kinds(cases: &[Case]) -> Vec<String> {
    let mut kinds = vec![];
    for case in cases {
        let letters = case.inputs();
        let letters =
            letters.lines().map(|line| &line[..1]).filter(|letter| "sfc".contains(letter));
        kinds.extend(
            letters
                .zip(case.answers().lines())
                .map(|(letter, line)| format!("{letter}{}", &line[..2])),
        );
    }
    kinds
}

#[test]
fn every_call_has_every_answer() {
    let kinds_of_both = [(kinds(&cases()), 3), (kinds(&random_clips(3000)), 20)];
    let all = "s00 s04 s05 s06 s07 s17 s08 f00 f01 f08 f09 f0a c00 c01 c08 c09 c0b";
    for (kinds, least) in kinds_of_both {
        for kind in all.split(' ') {
            let count = kinds.iter().filter(|other| *other == kind).count();
            assert!(count >= least, "{kind}: {count}");
        }
        assert!(kinds.iter().all(|kind| all.contains(kind)));
    }
}

/// The coefficients of all starts.
fn started(cases: &[Case]) -> Vec<[i16; 16]> {
    let of_start = |step: &Step| match step {
        Step::Start { start, .. } => Some(start.coefficients),
        _ => None,
    };
    cases.iter().flat_map(|case| case.0.iter().filter_map(of_start)).collect()
}

#[test]
fn random_clips_have_older_banks_and_pairs_beyond_the_limit() {
    let started = started(&random_clips(3000));
    let (within, beyond): (Vec<_>, Vec<_>) = started.into_iter().partition(are_within_limit);
    let older = within.iter().filter(|bank| !are_of_measured_size(bank)).count();
    assert!((within.len() / 4..within.len() / 2).contains(&older), "{older}");
    let has_sum = |bank: &[i16; 16], sum| bank.as_chunks().0.iter().any(|p| sum_of_pair(*p) == sum);
    for (banks, sum) in [(within, 61_440), (beyond, 61_441)] {
        let count = banks.iter().filter(|bank| has_sum(bank, sum)).count();
        assert!(count >= 20, "{sum}: {count}");
    }
}

/// The states after each accepted call.
fn states(cases: &[Case]) -> Vec<State> {
    let mut states = vec![];
    for case in cases {
        let mut machine = Machine::default();
        for step in &case.0 {
            if machine.take(step) == 0 && step.lent().is_some() {
                states.push(machine.state.clone());
            }
        }
    }
    states
}

#[test]
fn half_of_the_random_clips_have_a_loop() {
    let cases = random_clips(3000);
    let states = states(&cases);
    let closed: Vec<_> = states.iter().filter(|state| state.closed).collect();
    let looped = closed.iter().filter(|state| state.looped.present).count();
    assert!((closed.len() * 2 / 5..closed.len() * 3 / 5).contains(&looped), "{looped}");
    let known = |state: &&State| state.loop_context != FrameContext::default();
    let begun = states.iter().filter(|state| !state.closed && state.looped.present);
    let count = begun.clone().filter(known).count();
    assert!((begun.clone().count() / 5..begun.count() * 4 / 5).contains(&count), "{count}");
}
