//! Undo is keeping the older state.

use crate::clips::{encode_from, noise, start_of, tone};
use doilycairn::{Calculator, Encoder, Image, Measure, Refusal};

#[test]
fn an_older_measuring_state_goes_on_as_if_nothing_had_come_after_it() {
    let (clip, other) = (tone(500), noise(300, 20_000, 3));
    for at in [0, 1, 13, 14, 15, 250, 499] {
        let mut measure = Measure::new();
        measure.process(&clip[..at]).unwrap();
        let older = measure.calculator();
        measure.process(&other).unwrap();
        measure.coefficients().unwrap();
        let mut measure = Measure::from_parts(older, measure.into_parts().1);
        measure.process(&clip[at..]).unwrap();
        let mut straight = Measure::new();
        straight.process(&clip).unwrap();
        assert_eq!(measure.calculator(), straight.calculator());
        assert_eq!(measure.coefficients(), straight.coefficients());
    }
}

#[test]
fn an_older_encoding_state_closes_to_the_same_image() {
    let (clip, other) = (tone(500), noise(500, 20_000, 3));
    let start = start_of(&clip, 40);
    let image = encode_from(&start, &clip);
    for at in [0, 1, 13, 14, 15, 250, 499] {
        let mut encoder = Encoder::start(&start).unwrap();
        encoder.feed(&clip[..at]).unwrap();
        let older = encoder.state();
        encoder.feed(&other[at..]).unwrap();
        encoder.close().unwrap();
        assert_ne!(encoder.image(), image);
        let mut encoder = Encoder::from_parts(older, encoder.into_parts().1);
        encoder.feed(&clip[at..]).unwrap();
        encoder.close().unwrap();
        assert_eq!(encoder.image(), image);
    }
}

#[test]
fn a_clone_keeps_the_image_too() {
    let clip = tone(500);
    let start = start_of(&clip, 40);
    let mut encoder = Encoder::start(&start).unwrap();
    encoder.feed(&clip[..300]).unwrap();
    let kept = encoder.clone();
    let before = kept.image().to_vec();
    encoder.feed(&clip[300..]).unwrap();
    encoder.close().unwrap();
    assert_eq!(kept.image(), before);
    assert_eq!(kept.state().fed, 300);
}

/// A measured clip, its state at place `at`, and the store.
fn measured_with_older(clip: &[i16], at: usize) -> (Measure, Calculator) {
    let mut measure = Measure::new();
    measure.process(&clip[..at]).unwrap();
    let older = measure.calculator();
    measure.process(&clip[at..]).unwrap();
    (measure, older)
}

#[test]
fn asking_an_older_measuring_state_writes_one_record_of_the_later_one() {
    let clip = noise(500, 20_000, 3);
    for at in [15, 250, 499] {
        let (mut measure, older) = measured_with_older(&clip, at);
        let coefficients = measure.coefficients();
        let (later, mut store) = measure.into_parts();
        let before = store.clone();
        older.finish(&mut store).unwrap();
        let place = 2 * older.records as usize;
        assert_ne!(store[place..place + 2], before[place..place + 2]);
        // With these two numbers put back the later state goes on as before.
        store[place..place + 2].copy_from_slice(&before[place..place + 2]);
        assert_eq!(store, before);
        assert_eq!(later.finish(&mut store), coefficients);
    }
}

#[test]
fn asking_an_older_measuring_state_at_a_frames_edge_writes_nothing() {
    let clip = noise(500, 20_000, 3);
    for at in [0, 14, 252] {
        let (measure, older) = measured_with_older(&clip, at);
        let (_, mut store) = measure.into_parts();
        let before = store.clone();
        older.finish(&mut store).unwrap();
        assert_eq!(store, before);
    }
}

#[test]
fn what_a_later_closing_left_stays_until_it_is_written_over() {
    let clip = noise(500, 20_000, 3);
    let start = start_of(&clip, 40);
    let mut encoder = Encoder::start(&start).unwrap();
    encoder.feed(&clip[..100]).unwrap();
    let older = encoder.state();
    encoder.feed(&clip[100..]).unwrap();
    encoder.close().unwrap();
    let mut encoder = Encoder::from_parts(older, encoder.into_parts().1);
    encoder.feed(&[0; 100]).unwrap();
    // The mark is there already: that the clip is not closed is told by the state alone.
    assert!(Image::open(encoder.image()).is_ok());
    assert!(!encoder.state().closed);
    assert_eq!(encoder.close(), Err(Refusal::Unfinished));
}

#[test]
fn an_older_encoding_state_writes_no_byte_before_its_place() {
    let (clip, other) = (tone(500), noise(500, 20_000, 3));
    let start = start_of(&clip, 40);
    let image = encode_from(&start, &clip);
    let bodies = 56 + 16 * Image::open(&image).unwrap().head().blocks as usize;
    for at in [1, 14, 70, 71, 250, 499] {
        let mut encoder = Encoder::start(&start).unwrap();
        encoder.feed(&clip[..at]).unwrap();
        let older = encoder.state();
        let mut again = image.clone();
        older.feed(&other[at..], &mut again).unwrap().close(&mut again).unwrap();
        let (frames, entries) = (at / 14, (at / 14).div_ceil(5));
        assert_eq!(again[..56 + 16 * entries], image[..56 + 16 * entries]);
        assert_eq!(again[bodies..bodies + 8 * frames], image[bodies..bodies + 8 * frames]);
    }
}
