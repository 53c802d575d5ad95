//! The lines are as said, and the lists have every call and answer.

use image_list::reader::Refused;
use image_list::{Call, Case, Machine, Step, To, cases, random_images, same, table};
use oracle::list::Listed;
use oracle::random::Random;

/// Random images.
fn random_cases(count: usize) -> Vec<Case> {
    let mut random = Random::new(11);
    (0..count).map(|_| random_images(&mut random)).collect()
}

/// The cases of the fixed list, and some random ones.
fn all() -> Vec<Case> {
    cases().into_iter().chain(random_cases(500)).collect()
}

/// The number of the digits from a place of a line on.
fn number(line: &str, place: usize, digits: usize) -> usize {
    usize::from_str_radix(&line[place..place + digits], 16).unwrap()
}

/// The call of a letter, with the number of a block, of a sample or of times.
fn call_of(letter: &str, k: u32, room: usize) -> Call {
    match letter {
        "o" => Call::Open,
        "k" => Call::Body { k },
        "p" => Call::Play { k, room },
        "a" => Call::PlayAll { room },
        "m" => Call::PlayFrom { first: k, room },
        "t" => Call::PlayLoop { times: k, room },
        "s" => Call::Same,
        "r" => Call::Reversed,
        "h" => Call::SoundsSame,
        "v" => Call::SoundsReversed,
        _ => panic!("{letter}"),
    }
}

/// The step of a line.
fn step_of(line: &str) -> Step {
    let put = |to| {
        let byte = |i| number(line, 7 + 2 * i, 2) as u8;
        let bytes = (0..number(line, 5, 2)).map(byte).collect();
        Step::Put { to, place: number(line, 1, 4), bytes }
    };
    match &line[..1] {
        "b" => put(To::Both),
        "f" => put(To::First),
        "g" => put(To::Second),
        letter => {
            let call = call_of(letter, number(line, 9, 8) as u32, number(line, 17, 4));
            Step::Call { call, lens: [1, 5].map(|place| number(line, place, 4)) }
        }
    }
}

#[test]
fn the_list_is_large_enough() {
    let cases = cases();
    let inputs: String = cases.iter().map(Case::inputs).collect();
    let answers: String = cases.iter().map(Case::answers).collect();
    let calls = answers.lines().count();
    println!("{} cases, {calls} calls, {} and {} bytes", cases.len(), inputs.len(), answers.len());
    assert!(calls >= 6000 && inputs.len() + answers.len() <= 1_100_000);
}

#[test]
fn lines_hold_the_steps() {
    for case in all() {
        let inputs = case.inputs();
        for line in inputs.split_inclusive('\n') {
            assert!(line.len() == 56 && line.is_ascii() && line.ends_with('\n'), "{line}");
        }
        assert_eq!(Case(inputs.lines().map(step_of).collect()), case);
    }
}

/// The calls of a case, with the images that they are lent and their answers.
fn answered(case: &Case) -> Vec<(Call, [Vec<u8>; 2], String)> {
    let mut machine = Machine::default();
    let mut calls = vec![];
    for step in &case.0 {
        let answer = machine.take(step);
        if let Step::Call { call, lens } = step {
            let [first, second] = [0, 1].map(|i| machine.images[i][..lens[i]].to_vec());
            calls.push((*call, [first, second], answer.unwrap()));
        }
    }
    calls
}

#[test]
fn each_call_has_an_answer() {
    for case in all() {
        let calls = answered(&case);
        let lines: String = calls.iter().map(|(_, _, answer)| format!("{answer}\n")).collect();
        assert_eq!(lines, case.answers());
        for (call, _, answer) in calls {
            let words: Vec<_> = answer.split(' ').map(str::len).collect();
            match call {
                Call::Open => {
                    let (head, looped) = words.split_at(8);
                    assert_eq!(head, [2, 8, 8, 8, 8, 64, 4, 8], "{answer}");
                    assert!([&[][..], &[8, 8, 4, 8]].contains(&looped), "{answer}");
                }
                Call::Body { .. } => {
                    assert_eq!((words[0], words[1], words.len()), (2, 8, 3), "{answer}");
                }
                Call::Play { room, .. } | Call::PlayAll { room } => {
                    assert_eq!(words, [2, 8, 8, 4, 8, 4 * room], "{answer}");
                }
                Call::PlayFrom { room, .. } => {
                    assert_eq!(words, [2, 8, 8, 8, 4 * room], "{answer}");
                }
                Call::PlayLoop { room, .. } => {
                    assert_eq!(words, [2, 8, 8, 4 * room], "{answer}");
                }
                Call::Same | Call::Reversed | Call::SoundsSame | Call::SoundsReversed => {
                    assert_eq!(words, [2, 8, 8], "{answer}");
                }
            }
        }
    }
}

/// The calls' letters and answers, for comparing with whether the images are the same.
fn kinds(cases: &[Case]) -> Vec<String> {
    let kind = |(call, _, answer): (Call, _, String)| match (call.letter(), &answer[..2]) {
        (letter @ ('s' | 'r' | 'h' | 'v'), "00") => format!("{letter}{}", &answer[19..]),
        (letter, code) => format!("{letter}{code}"),
    };
    cases.iter().flat_map(answered).map(kind).collect()
}

/// All kinds that there are.
const KINDS: &str = "o00 o0f o14 o15 o16 o18 k00 k0f k11 k14 k15 k16 k18 p00 p0d p0e p0f p11 p14 p15 p16 p18 \
    a00 a0d a0e a0f a14 a15 a16 a18 m00 m0d m0f m13 m14 m15 m16 m18 t00 t0d t0e t0f t14 t15 t16 t18 \
    s0 s1 s0d s0f s14 s15 s16 s18 r0 r1 r0d r0f r14 r15 r16 r18 \
    h0 h1 h0d h0f h14 h15 h16 h18 v0 v1 v0d v0f v14 v15 v16 v18";

#[test]
fn every_call_has_every_answer() {
    for (kinds, least) in [(kinds(&cases()), 5), (kinds(&random_cases(2000)), 20)] {
        for kind in KINDS.split(' ') {
            let count = kinds.iter().filter(|other| *other == kind).count();
            let least = if least < 20 && kind.starts_with('t') { 1 } else { least };
            assert!(count >= least, "{kind}: {count}");
        }
        assert!(kinds.iter().all(|kind| KINDS.split(' ').any(|known| known == kind)));
    }
}

/// The calls' letters, codes and blocks, of those that 20, 21 or 22 refuses.
fn bad_entries(cases: &[Case]) -> Vec<(char, u8, usize)> {
    let calls = cases.iter().flat_map(answered).map(|(call, _, answer)| {
        (call.letter(), number(&answer, 0, 2) as u8, number(&answer, 3, 8))
    });
    calls.filter(|(_, code, _)| (20..=22).contains(code)).collect()
}

#[test]
fn every_call_names_the_first_block_and_later_ones() {
    for (cases, letters) in [(cases(), "okpamsrhv"), (random_cases(2000), "okpamtsrhv")] {
        let seen = bad_entries(&cases);
        for letter in letters.chars() {
            for code in 20..=22 {
                let blocks = seen.iter().filter(|bad| (bad.0, bad.1) == (letter, code));
                let later = blocks.clone().filter(|bad| bad.2 > 0).count();
                let least = later.min(blocks.count() - later);
                let fewest = if "hv".contains(letter) { 1 } else { 2 };
                assert!(least >= fewest, "{letter}, {code}: {least}");
            }
        }
    }
}

/// The images that are compared, by the sound alone or not, in the order of comparing, each with why it is refused, if it is.
fn compared(case: &Case, by_sound: bool) -> Vec<[Option<Refused>; 2]> {
    let of_call = |(call, [first, second], _): (Call, [Vec<u8>; 2], String)| match call {
        Call::Same if !by_sound => Some([first, second]),
        Call::Reversed if !by_sound => Some([second, first]),
        Call::SoundsSame if by_sound => Some([first, second]),
        Call::SoundsReversed if by_sound => Some([second, first]),
        _ => None,
    };
    let pairs = answered(case).into_iter().filter_map(of_call);
    pairs.map(|pair| pair.map(|image| same(&image, &image).err())).collect()
}

#[test]
fn two_images_are_refused_in_every_order() {
    for by_sound in [false, true] {
        let pairs: Vec<_> = cases().iter().flat_map(|case| compared(case, by_sound)).collect();
        every_order(&pairs);
    }
}

/// Every two reasons are among these.
fn every_order(pairs: &[[Option<Refused>; 2]]) {
    let code = |refused: Option<Refused>| refused.map_or(0, |refused| refused.code);
    let is_told = |[first, second]: [Option<Refused>; 2]| match (first, second) {
        (Some(first), Some(second)) => first != second || first.code < 20,
        _ => true,
    };
    for codes in [0, 13, 15, 20, 21, 22].map(|a| [0, 13, 15, 20, 21, 22].map(|b| [a, b])).concat() {
        let mut seen = pairs.iter().filter(|pair| pair.map(code) == codes);
        assert!(seen.any(|pair| is_told(*pair)), "{codes:?}");
    }
    for codes in [0, 13, 15, 20, 22].map(|other| [[24, other], [other, 24]]).concat() {
        assert!(pairs.iter().any(|pair| pair.map(code) == codes), "{codes:?}");
    }
}

#[test]
fn no_other_refusal_names_a_block() {
    for (_, _, answer) in all().iter().flat_map(answered) {
        let code = number(&answer, 0, 2);
        assert!((20..=22).contains(&code) || number(&answer, 3, 8) == 0, "{answer}");
    }
}

#[test]
fn each_byte_of_a_head_and_a_table_is_altered_alone() {
    let mut count = 0;
    for case in cases() {
        let mut altered = vec![];
        let calls = answered(&case);
        for (_, [first, second], _) in calls.iter().filter(|(call, ..)| *call == Call::Open) {
            let places = (0..first.len().min(second.len())).filter(|i| first[*i] != second[*i]);
            altered.extend(Some(places.collect::<Vec<_>>()).filter(|places| places.len() == 1));
        }
        let table = calls.first().map_or(0, |(_, [_, second], _)| table(second));
        count += u32::from((0..table).all(|place| altered.contains(&vec![place])));
    }
    assert_eq!(count, 3);
}

#[test]
fn half_of_the_random_images_have_a_loop() {
    let cases = random_cases(2000);
    let opened = cases.iter().flat_map(answered).filter(|(call, ..)| *call == Call::Open);
    let looped = |(_, _, answer): (_, _, String)| answer.split(' ').count() == 12;
    let (with, without): (Vec<_>, Vec<_>) =
        opened.filter(|(_, _, answer)| answer.starts_with("00")).map(looped).partition(|has| *has);
    assert!((without.len() * 3 / 4..without.len()).contains(&with.len()), "{}", with.len());
}

#[test]
fn the_worked_image() {
    let calls = answered(&cases()[0]);
    let (_, [image, _], _) = &calls[0];
    let mut right = b"DSPC\0\0\0\x01\0\0\x7d\0\0\0\0\x08".to_vec();
    right.extend([0; 36]);
    right.extend(b"\0\0\0\x01\0\0\0\x48\0\0\0\x03\0\x01\0\0\0\0\0\0\x01\x40");
    assert_eq!(*image, right);
    let answers: Vec<_> = calls.iter().map(|(_, _, answer)| answer.as_str()).collect();
    let head = format!("00 00000000 00000001 00007d00 00000008 {} 0000 00000001", "0".repeat(64));
    let (body, none) = ("00 00000000 0140", "11 00000000 ");
    let played = "00 00000000 00000001 0001 00080000 0008";
    let refused = "11 00000000 00000000 0000 00000000 5a5a";
    let same = "00 00000000 00000001";
    assert_eq!(answers, [&head, body, played, none, refused, played, same, same]);
}

/// The answers of one row: opening, a body, a block, all blocks, both ways.
fn row(begun: &str, room: usize) -> Vec<String> {
    let zeros = "0".repeat(64);
    let played = |room| format!("{begun} 00000000 0000 00000000 {}", "5a5a".repeat(room));
    let head = format!("{begun} 00000000 00000000 00000000 {zeros} 0000 00000000");
    let same = format!("{begun} 00000000");
    vec![head, format!("{begun} "), played(1), played(room), same.clone(), same]
}

#[test]
fn the_worked_table() {
    let rows = ["14 00000000", "15 00000001", "15 00000001", "16 00000000", "16 00000001"];
    let rows = rows.into_iter().chain(["16 00000000", "15 00000000", "0f 00000000"]);
    let right: Vec<_> = rows.flat_map(|begun| row(begun, 15)).collect();
    let answers = |case: &Case| case.answers().lines().map(str::to_owned).collect::<Vec<_>>();
    assert_eq!(cases().iter().filter(|case| answers(case) == right).count(), 1);
}
