//! The list has every kind of call, its lines are as said, and neither cuts nor askings change an answer.

use coefficient_list::{Clip, Cut, LONGEST_PIECE, ROOM, Step, cases, random_clip};
use oracle::list::Listed;
use oracle::measure;
use oracle::random::Random;

/// The clips of the fixed list, and some random ones.
fn clips() -> Vec<Clip> {
    let mut random = Random::new(11);
    cases().into_iter().chain((0..300).map(|_| random_clip(&mut random))).collect()
}

/// The samples of the pieces that the store has room for.
fn samples(clip: &Clip) -> Vec<i16> {
    let mut samples = vec![];
    for step in &clip.0 {
        if let Step::Measure(piece) = step
            && (samples.len() + piece.len()).div_ceil(14) <= ROOM
        {
            samples.extend(piece);
        }
    }
    samples
}

/// The samples' frames whose squares add up to this.
fn frames_of_sum(clip: &Clip, sum: i64) -> usize {
    let square = |sample: &i16| i64::from(*sample).pow(2);
    let sum_of = |frame: &[i16]| frame.iter().map(square).sum::<i64>();
    samples(clip).chunks(14).filter(|frame| sum_of(frame) == sum).count()
}

#[test]
fn the_list_is_large_enough() {
    let clips = cases();
    let inputs: String = clips.iter().map(Clip::inputs).collect();
    let answers: String = clips.iter().map(Clip::answers).collect();
    println!("{} clips, {} and {} bytes", clips.len(), inputs.len(), answers.len());
    assert!(clips.len() >= 600 && inputs.len() + answers.len() <= 1_000_000);
    for sum in [10, 11] {
        assert!(clips.iter().map(|clip| frames_of_sum(clip, sum)).sum::<usize>() >= 15);
    }
    for len in [0, 1, 2, 13, 14, 15, 27, 28, 29, 41, 42, 43, 896] {
        assert!(clips.iter().any(|clip| samples(clip).len() == len), "no clip of {len} samples");
    }
    assert!(answers.matches("refused 3").count() >= 4);
}

#[test]
fn lines_have_a_letter_a_count_and_fourteen_samples() {
    for line in clips().iter().map(Clip::inputs).collect::<String>().split_inclusive('\n') {
        let (letter, count) = (&line[..1], &line[1..3]);
        let count: usize = count.parse().unwrap();
        assert!(line.len() == 60 && "nbma".contains(letter) && count <= 14, "{line}");
        assert!(letter != "n" && letter != "a" || count == 0, "{line}");
        assert!(letter != "b" || count == 14, "{line}");
        let digits = line[3..59].as_bytes();
        assert!(digits.iter().all(|digit| b"0123456789abcdef".contains(digit)), "{line}");
        assert!(digits[4 * count..].iter().all(|digit| *digit == b'0'), "{line}");
    }
}

#[test]
fn a_list_holds_the_pieces() {
    for clip in clips() {
        let mut steps = vec![];
        let mut piece = vec![];
        for line in clip.inputs().lines().skip(1) {
            let count: usize = line[1..3].parse().unwrap();
            let sample = |place: usize| &line[3 + 4 * place..7 + 4 * place];
            let sample = |place| u16::from_str_radix(sample(place), 16).unwrap() as i16;
            piece.extend((0..count).map(sample));
            match &line[..1] {
                "m" => steps.push(Step::Measure(std::mem::take(&mut piece))),
                "a" => steps.push(Step::Ask),
                _ => {}
            }
        }
        assert_eq!(Clip(steps), clip);
    }
}

#[test]
fn pieces_are_short_enough() {
    let pieces = clips().into_iter().flat_map(|clip| clip.0);
    for step in pieces {
        assert!(!matches!(step, Step::Measure(piece) if piece.len() > LONGEST_PIECE));
    }
}

#[test]
fn each_asking_and_each_refusal_has_a_line() {
    for clip in clips() {
        let (mut lines, mut len) = (0, 0);
        for step in &clip.0 {
            match step {
                Step::Measure(piece) if len + piece.len() <= 14 * ROOM => len += piece.len(),
                _ => lines += 1,
            }
        }
        assert_eq!(clip.answers().lines().count(), lines);
    }
}

#[test]
fn the_last_answer_is_that_of_the_samples_in_one_piece() {
    for clip in clips() {
        let samples = samples(&clip);
        let whole = Cut::Whole.apply(&samples).answers();
        assert_eq!(clip.answers().lines().last(), whole.lines().last());
        let records = measure(&[&samples]).records.len();
        assert!(whole.starts_with(&format!("{records} ")));
    }
}

#[test]
fn no_record_is_the_replay_programs_mark() {
    for clip in clips() {
        let records = measure(&[&samples(&clip)]).records;
        assert!(records.iter().flatten().all(|number| number.abs() < 4.0));
    }
}
