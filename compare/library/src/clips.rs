//! Whole clips: measured, started, fed, closed, opened, played, compared and damaged.

use crate::clip_sameness::compare_clips;
use crate::convert::number;
use crate::damage;
use crate::encoding::{encoded, random_start};
use crate::measuring::{Measuring, compare_finish, compare_process};
use crate::reading::{compare_block, compare_open, compare_play};
use crate::tally::Tally;
use coefficient_list::{Step, random_clip};
use doilycairn::store_size;
use image_list::block_count;
use oracle::random::Random;
use oracle::{Coefficients, measure};

/// A random clip.
pub fn random(random: &mut Random, tally: &mut Tally) {
    let steps = steps(random);
    let samples = measured(random, &steps, tally);
    let start = random_start(random, &samples);
    let image = encoded(random, &start, &samples, tally);
    if !samples.is_empty() {
        read(random, &image, tally);
        compare_clips(random, &start, &samples, &image, tally);
        damage::random(random, &image, tally);
    }
}

/// The calls that measure a clip, one in 100 of which has a few thousand samples.
fn steps(random: &mut Random) -> Vec<Step> {
    let mut steps = random_clip(random).0;
    if random.below(100) == 0 {
        let parts = 2 + random.below(12);
        steps.extend((0..parts).flat_map(|_| random_clip(random).0));
    }
    steps
}

/// What a float store holds before a call.
fn store(len: usize) -> Vec<f64> {
    (0..len).map(|place| place as f64 + 0.1).collect()
}

/// Measures and asks, and gives the samples.
fn measured(random: &mut Random, steps: &[Step], tally: &mut Tally) -> Vec<i16> {
    let count =
        steps.iter().map(|step| if let Step::Measure(piece) = step { piece.len() } else { 0 });
    let count: usize = count.sum();
    let numbers = store_size(count as u32);
    tally.compare("store_size", &count, numbers, 2 * count.div_ceil(14));
    let mut now = Measuring::new(store(numbers + random.below_one(&[1, 5])));
    let mut pieces: Vec<&[i16]> = vec![];
    for step in steps {
        match step {
            Step::Measure(piece) => {
                compare_process(&mut now, piece, &steps, tally);
                pieces.push(piece);
            }
            Step::Ask => {
                compare_finish(&mut now, &steps, tally);
                let rust = measure(&pieces).coefficients;
                tally.compare("calculator", &steps, coefficients(&mut now), Ok(rust));
            }
        }
    }
    pieces.concat()
}

/// The library's coefficients.
fn coefficients(now: &mut Measuring) -> Result<Coefficients, u8> {
    let answer = now.calculator().finish(&mut now.store);
    answer.map(|coefficients| coefficients.0).map_err(number)
}

/// Opens an image, plays each block, one beyond the last, and all.
pub fn read(random: &mut Random, image: &[u8], tally: &mut Tally) {
    compare_open(image, tally);
    let blocks = block_count(image);
    for k in (0..=blocks).chain([u32::MAX as usize]) {
        compare_block(random, image, k, tally);
    }
    compare_play(image, tally);
}
