//! What the calls do with states and buffers that do not belong together, and with altered states that pass the test of code 1.

use crate::clips::{Random, encode_from, noise, start_of, tone, with_loop};
use doilycairn::{
    Calculator, Coefficients, Encoder, EncoderState, Image, Loop, Refusal, Start, image_size,
};

/// A clip of 100 samples, its start, and the state and buffer after 50.
fn half() -> (Vec<i16>, Start, EncoderState, Vec<u8>) {
    let clip = tone(100);
    let start = start_of(&clip, 16);
    let mut encoder = Encoder::start(&start).unwrap();
    encoder.feed(&clip[..50]).unwrap();
    let (state, image) = encoder.into_parts();
    (clip, start, state, image)
}

#[test]
fn a_state_that_says_more_was_fed_closes_to_an_image_that_opens() {
    let (clip, start, state, mut image) = half();
    let forged = EncoderState { fed: 100, ..state };
    forged.close(&mut image).unwrap();
    assert_eq!(Image::open(&image).unwrap().play().unwrap().len(), 100);
    assert_ne!(image, encode_from(&start, &clip));
}

#[test]
fn a_state_with_another_history_encodes_other_frames() {
    let (clip, start, mut state, mut image) = half();
    state.history.newest = state.history.newest.wrapping_add(9000);
    state.frame[0] = state.frame[0].wrapping_add(9000);
    state.feed(&clip[50..], &mut image).unwrap().close(&mut image).unwrap();
    assert!(Image::open(&image).is_ok());
    assert_ne!(image, encode_from(&start, &clip));
}

/// Closes a clip of 100 samples with a loop, its state altered before.
fn closed_with(alter: impl FnOnce(&mut EncoderState)) -> Vec<u8> {
    let clip = tone(100);
    let mut encoder = Encoder::start(&with_loop(start_of(&clip, 16), (40, 90))).unwrap();
    encoder.feed(&clip).unwrap();
    let (mut state, mut image) = encoder.into_parts();
    alter(&mut state);
    state.close(&mut image).unwrap();
    image
}

#[test]
fn a_state_with_another_loop_or_context_closes_to_what_it_says() {
    let image = closed_with(|state| state.loop_context.last_samples = [7, -7]);
    assert_eq!(Image::open(&image).unwrap().loop_context().unwrap().last_samples, [7, -7]);
    let image = closed_with(|state| state.looped.end = 50);
    assert_eq!(Image::open(&image).unwrap().looped(), Some(Loop { start: 40, end: 50 }));
    let image = closed_with(|state| state.loop_context.predictor_and_scale ^= 0x100);
    assert_eq!(Image::open(&image).unwrap_err(), Refusal::BadLoop);
    // With none the frame that closing encodes goes 16 bytes before its place.
    let image = closed_with(|state| state.looped.present = false);
    assert_ne!(image, closed_with(|_| {}));
}

#[test]
fn with_an_empty_buffer_the_head_is_missing() {
    let (clip, _, state, image) = half();
    let mut other = vec![0; image.len() + 9];
    state.feed(&clip[50..], &mut other).unwrap().close(&mut other).unwrap();
    assert_eq!(Image::open(&other).unwrap_err(), Refusal::BadHead);
    assert_eq!(other[image.len()..], [0; 9]);
}

#[test]
fn with_another_clips_buffer_that_clips_head_stays() {
    let (clip, _, state, image) = half();
    let longer = noise(700, 9000, 4);
    let start = start_of(&longer, 16);
    let mut other = encode_from(&start, &longer);
    let before = other.clone();
    state.feed(&clip[50..], &mut other).unwrap().close(&mut other).unwrap();
    assert_eq!(other[..56], before[..56]);
    assert_eq!(other[image.len()..], before[image.len()..]);
}

/// The coefficients of these records.
fn worked_out(mut store: Vec<f64>) -> Coefficients {
    let records = store.len() as u32 / 2;
    Calculator { samples: 14 * records, records, history: [0; 28] }.finish(&mut store).unwrap()
}

/// Ten records of any numbers, NaNs among them.
fn any_store(random: &mut Random) -> Vec<f64> {
    let any = |_| {
        let bits = u64::from(random.next()) << 33 | u64::from(random.next()) << 11;
        match random.next() % 40 {
            0 => f64::NAN,
            1..20 => f64::from_bits(bits),
            _ => f64::from(random.next() as i32 % 2001 - 1000) / 1000.0,
        }
    };
    (0..20).map(any).collect()
}

/// The coefficients of such records.
fn of_any_store(random: &mut Random) -> Coefficients {
    worked_out(any_store(random))
}

#[test]
fn any_store_gives_coefficients_of_measured_size_or_the_lowest() {
    let mut random = Random(5);
    let (mut lowest, mut within) = (0, 0);
    for (c0, c1) in (0..500).flat_map(|_| of_any_store(&mut random).pairs()) {
        for (c, most) in [(c0, 4096), (c1, 2048)] {
            assert!(c == i16::MIN || c.unsigned_abs() <= most);
            if c == i16::MIN { lowest += 1 } else { within += 1 }
        }
    }
    assert!(lowest > 0 && within > 0);
}

/// Two records without a NaN whose sums are infinite, with different signs.
const TWICE: [f64; 4] = [1e160, 0.0, 2e160, -3.0];

/// Starts a clip with coefficients that were worked out: refused by 7 exactly where a pair is the lowest twice.
fn starts(coefficients: Coefficients) -> bool {
    let twice = coefficients.pairs().contains(&(i16::MIN, i16::MIN));
    let started = Encoder::start(&Start { coefficients, ..start_of(&tone(20), 8) });
    assert_eq!(started.err(), twice.then_some(Refusal::CoefficientOutside));
    !twice
}

#[test]
fn starting_refuses_coefficients_of_any_store_only_where_a_pair_is_the_lowest_twice() {
    let mut random = Random(6);
    let lowest = |coefficients: &Coefficients| coefficients.0.contains(&i16::MIN);
    let any = (0..2000).map(|_| of_any_store(&mut random)).filter(lowest);
    assert!(any.filter(|coefficients| starts(*coefficients)).count() > 100);
    for more in [&[][..], &[0.5, 0.1]] {
        assert!(!starts(worked_out([&TWICE, more].concat())));
    }
}

#[test]
fn a_nan_or_what_makes_one_gives_the_lowest_coefficient() {
    let (nan, infinity) = (f64::NAN, f64::INFINITY);
    for record in [[nan, 0.5], [0.5, nan], [infinity, 0.5], [0.5, -infinity], [1e200, 1e200]] {
        let coefficients = worked_out(record.to_vec());
        assert_eq!(coefficients.pairs()[0], (i16::MIN, 0));
        assert!(starts(coefficients));
    }
}

#[test]
fn a_nan_among_any_records_gives_a_lowest_coefficient() {
    let mut random = Random(7);
    for turn in 0..2000 {
        let mut store = any_store(&mut random);
        store[turn % 20] = f64::NAN;
        assert!(worked_out(store.clone()).0.contains(&i16::MIN), "{store:?}");
    }
}

#[test]
fn a_state_and_its_buffer_may_be_moved() {
    let (clip, start, state, image) = half();
    let size = image_size(100, 16).unwrap();
    let mut moved = vec![7; size + 50];
    moved[20..20 + size].copy_from_slice(&image);
    state.feed(&clip[50..], &mut moved[20..]).unwrap().close(&mut moved[20..]).unwrap();
    assert_eq!(moved[20..20 + size], encode_from(&start, &clip));
}
