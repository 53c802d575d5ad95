//! The lines are as said, and the lists have every call and answer.

use dsp_list::{Answer, Call, Case, HEADER, Machine, Step, cases, random_files};
use oracle::list::Listed;
use oracle::random::Random;

/// Random files.
fn random_cases(count: usize) -> Vec<Case> {
    let mut random = Random::new(11);
    (0..count).map(|_| random_files(&mut random)).collect()
}

/// The cases of the fixed list, and some random ones.
fn all() -> Vec<Case> {
    cases().into_iter().chain(random_cases(500)).collect()
}

/// The number of the digits from a place of a line on.
fn number(line: &str, place: usize, digits: usize) -> usize {
    usize::from_str_radix(&line[place..place + digits], 16).unwrap()
}

/// The step of a line.
fn step_of(line: &str) -> Step {
    let (size, room) = (number(line, 9, 8) as u32, number(line, 5, 4));
    let call = match &line[..1] {
        "p" => {
            let byte = |i| number(line, 7 + 2 * i, 2) as u8;
            let bytes = (0..number(line, 5, 2)).map(byte).collect();
            return Step::Put { place: number(line, 1, 4), bytes };
        }
        "s" => return Step::Swap,
        "e" => Call::Export { room },
        "i" => Call::Import { size, room },
        "r" => Call::Room { size },
        letter => panic!("{letter}"),
    };
    Step::Call { call, len: number(line, 1, 4), shown: number(line, 17, 2) == 1 }
}

#[test]
fn the_list_is_large_enough_and_short() {
    let cases = cases();
    let inputs: String = cases.iter().map(Case::inputs).collect();
    let answers: String = cases.iter().map(Case::answers).collect();
    let calls = answers.lines().count();
    println!("{} cases, {calls} calls, {} and {} bytes", cases.len(), inputs.len(), answers.len());
    assert!(calls >= 3000 && inputs.len() + answers.len() <= 450_000);
}

#[test]
fn lines_hold_the_steps() {
    for case in all() {
        let inputs = case.inputs();
        for line in inputs.split_inclusive('\n') {
            assert!(line.len() == 32 && line.is_ascii() && line.ends_with('\n'), "{line}");
        }
        assert_eq!(Case(inputs.lines().map(step_of).collect()), case);
    }
}

/// A call with the source that it is lent, its answer and its line.
struct Made {
    call: Call,
    source: Vec<u8>,
    answer: Answer,
    line: String,
}

/// The calls of a case.
fn made(case: &Case) -> Vec<Made> {
    let mut machine = Machine::default();
    let mut calls = vec![];
    for step in &case.0 {
        let taken = machine.take(step);
        if let (Step::Call { call, len, .. }, Some((answer, line))) = (step, taken) {
            let source = machine.source[..*len].to_vec();
            calls.push(Made { call: *call, source, answer, line });
        }
    }
    calls
}

#[test]
fn each_call_has_an_answer() {
    for case in all() {
        let calls = made(&case);
        let lines: String = calls.iter().map(|made| format!("{}\n", made.line)).collect();
        assert_eq!(lines, case.answers());
        for Made { call, answer, line, .. } in calls {
            let words: Vec<_> = line.split(' ').map(str::len).collect();
            assert_eq!(words[..4], [2, 8, 8, 10], "{line}");
            assert!([&[][..], &[2 * call.room()]].contains(&&words[4..]), "{line}");
            assert_eq!(number(&line, 0, 2), usize::from(answer.code));
            assert_eq!(
                [3, 12].map(|at| number(&line, at, 8)),
                [answer.block as usize, answer.count]
            );
        }
    }
}

/// The letters and codes of the calls that there are.
const KINDS: &str =
    "e0 e13 e14 e15 e20 e21 e22 e24 e35 i0 i4 i5 i6 i8 i13 i25 i26 r0 r4 r5 r6 r13 r25 r26";

#[test]
fn every_call_has_every_answer() {
    for (cases, least) in [(cases(), 4), (random_cases(2000), 20)] {
        let calls = cases.iter().flat_map(made);
        let kinds: Vec<_> =
            calls.map(|made| format!("{}{}", made.call.letter(), made.answer.code)).collect();
        for kind in KINDS.split(' ') {
            let count = kinds.iter().filter(|other| *other == kind).count();
            assert!(count >= least, "{kind}: {count}");
        }
        assert!(kinds.iter().all(|kind| KINDS.split(' ').any(|known| known == kind)));
    }
}

#[test]
fn export_names_the_second_block_and_later_ones() {
    for cases in [cases(), random_cases(2000)] {
        let calls: Vec<_> = cases.iter().flat_map(made).collect();
        for (code, blocks) in [(20, [0, 1]), (21, [0, 1]), (22, [0, 1]), (35, [1, 2])] {
            let named = calls.iter().filter(|made| made.answer.code == code);
            let first = named.clone().filter(|made| made.answer.block == blocks[0]).count();
            let later = named.clone().filter(|made| made.answer.block >= blocks[1]).count();
            assert!(first >= 1 && later >= 1, "{code}: {first}, {later}");
            assert!(named.count() == first + later);
        }
        let others = calls.iter().filter(|made| ![20, 21, 22, 35].contains(&made.answer.code));
        assert!(others.into_iter().all(|made| made.answer.block == 0));
    }
}

/// The places where a source differs from another of its length.
fn altered(source: &[u8], other: &[u8]) -> Vec<usize> {
    match source.len() == other.len() {
        true => (0..source.len()).filter(|place| source[*place] != other[*place]).collect(),
        false => vec![],
    }
}

#[test]
fn each_byte_of_a_header_is_altered_alone_in_two_files() {
    let mut count = 0;
    for case in cases() {
        let calls: Vec<_> =
            made(&case).into_iter().filter(|made| made.call.letter() == 'i').collect();
        let Some(whole) = calls.last().map(|made| made.source.clone()) else { continue };
        let mut places: Vec<_> = calls.iter().map(|made| altered(&made.source, &whole)).collect();
        places.retain(|places| places.len() == 1);
        let times = |place| places.iter().filter(|altered| **altered == [place]).count();
        count += u32::from((0..HEADER).all(|place| times(place) >= 2));
    }
    assert_eq!(count, 2);
}

#[test]
fn every_loop_of_two_frames_goes_in_and_out() {
    let mut loops = vec![];
    for made in cases().iter().flat_map(made).filter(|made| made.call.letter() == 'i') {
        let is_of_two_frames =
            made.answer.code == 0 && made.source[..8] == [0, 0, 0, 28, 0, 0, 0, 32];
        if is_of_two_frames && made.source[13] == 1 {
            loops.push([made.source[19], made.source[23]]);
        }
    }
    loops.sort();
    loops.dedup();
    assert_eq!(loops.len(), 28 * 29 / 2);
    assert!(loops.iter().flatten().all(|address| address % 16 >= 2 && *address < 32));
}
