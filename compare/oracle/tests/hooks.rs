//! The ways into the Rust agree with each other on random clips.

use oracle::random::Random;
use oracle::self_run::self_run;
use oracle::{
    coefficients_of_records, decode, encode, encode_blocks, join, measure, process_frame,
};

#[test]
fn coefficients_are_those_of_the_records() {
    let mut random = Random::new(11);
    for _ in 0..300 {
        let len = random.below_one(&[30, 700, 4000]);
        let samples = random.clip(len);
        let measured = measure(&random.cut(&samples));
        assert_eq!(coefficients_of_records(&measured.records), measured.coefficients);
        assert_eq!(measure(&random.cut(&samples)), measured, "another cut");
        assert_eq!(measure(&[&samples]), measured, "one piece");
    }
}

#[test]
fn random_tones_have_records() {
    let samples = Random::new(3).tone(2800);
    let measured = measure(&[&samples]);
    assert!(measured.records.len() > 100, "{} records", measured.records.len());
    assert_ne!(measured.coefficients, [0; 16]);
}

#[test]
fn no_record_gives_sixteen_zeros() {
    assert_eq!(coefficients_of_records(&[]), [0; 16]);
    for pieces in [&[][..], &[&[][..]], &[&[0; 40][..]], &[&[1; 10][..]]] {
        let measured = measure(pieces);
        assert_eq!((measured.records.len(), measured.coefficients), (0, [0; 16]));
    }
}

/// A sum of squares of 10 is not analysed; 11 is (the record needs samples before it too).
#[test]
fn frames_are_analysed_above_a_sum_of_10() {
    let frame = |last| {
        let mut history = [0; 28];
        history[12..14].copy_from_slice(&[5, 3]);
        history[14..17].copy_from_slice(&[3, 1, last]);
        process_frame(&mut history)
    };
    assert_eq!(frame(0), None);
    assert!(frame(1).is_some());
}

#[test]
fn history_moves_even_without_a_record() {
    let mut history: [i16; 28] = std::array::from_fn(|place| (place == 27) as i16);
    assert_eq!(process_frame(&mut history), None);
    assert_eq!((history[13], history[27]), (1, 1));
}

#[test]
fn blocks_are_the_same_for_every_cut() {
    let mut random = Random::new(12);
    for _ in 0..200 {
        let len = random.below_one(&[30, 700]);
        let (samples, coefficients) = (random.clip(len), random.coefficients());
        let history = [random.sample(), random.sample()];
        let size = 8 + random.below_one(&[20, 300]);
        let run =
            |pieces: &[&[i16]]| encode(pieces, 8000, size, &coefficients, 7, history).unwrap();
        let encoded = run(&[&samples]);
        assert_eq!(run(&random.cut(&samples)), encoded);
        let (blocks, end) =
            encode_blocks(&[&samples], 8000, size, &coefficients, 7, history).unwrap();
        assert_eq!((blocks, end), (encoded.blocks, encoded.history));
    }
}

#[test]
fn blocks_hold_what_was_given_and_play_as_many_samples() {
    let mut random = Random::new(13);
    for len in (0..200).chain([1000, 4001]) {
        let (samples, coefficients) = (random.clip(len), random.coefficients());
        let size = 8 + random.below_one(&[20, 300]);
        let encoded = encode(&[&samples], 8000, size, &coefficients, 7, [5, -6]).unwrap();
        let mut played = 0;
        for block in &encoded.blocks {
            assert!(block.bytes.len() <= size / 8 * 8);
            assert_eq!(block.len.div_ceil(2), block.bytes.len());
            assert_eq!((block.rate, block.gain, block.coefficients), (8000, 7, coefficients));
            assert_eq!(block.predictor_and_scale, block.bytes[0].into());
            played += decode(&block.bytes, block.len, &coefficients, block.context()).0.len();
        }
        assert_eq!(played, len);
    }
}

#[test]
fn only_empty_pieces_give_no_block() {
    for pieces in [&[][..], &[&[][..]], &[&[][..], &[]]] {
        let encoded = encode(pieces, 8000, 8, &[0; 16], 0, [1, 2]).unwrap();
        assert_eq!((encoded.blocks.len(), encoded.passes, encoded.history), (0, 0, [1, 2]));
    }
}

#[test]
fn rate_0_is_an_error_of_the_rust() {
    let error = encode(&[&[1]], 0, 8, &[0; 16], 0, [0, 0]).unwrap_err();
    assert_eq!(format!("{error:?}"), "InvalidSampleRate(0)");
}

#[test]
fn joining_needs_equal_coefficients() {
    let mut others = [0; 16];
    assert_eq!(join(&[1, 2], &[0; 16], &[3], &others).unwrap(), [1, 2, 3]);
    others[15] = 1;
    let error = join(&[1, 2], &[0; 16], &[3], &others).unwrap_err();
    assert_eq!(format!("{error:?}"), "DifferentCoefficients");
}

#[test]
fn random_run_has_no_panic_and_no_difference() {
    let report = self_run(2000, 1);
    assert_eq!(report.panics, Vec::<String>::new());
    assert_eq!(report.differences, Vec::<String>::new());
}
