//! Damaged images.

use crate::reading::{compare_block, compare_open, compare_same};
use crate::tally::Tally;
use image_list::{block_count, damaged, table};
use oracle::random::Random;

/// A few damages; one small image in 64 has each byte of head and table damaged, and each shorter length.
pub fn random(random: &mut Random, image: &[u8], tally: &mut Tally) {
    for _ in 0..4 {
        let damaged = damaged(random, image);
        compare(random, &damaged, image, tally);
    }
    if image.len() < 400 && random.below(64) == 0 {
        all(random, image, tally);
    }
}

fn all(random: &mut Random, image: &[u8], tally: &mut Tally) {
    for place in 0..table(image) {
        let mut damaged = image.to_vec();
        damaged[place] ^= 1 + random.below(255) as u8;
        compare(random, &damaged, image, tally);
    }
    for len in 0..image.len() {
        compare(random, &image[..len], image, tally);
    }
}

/// All calls on a damaged image.
fn compare(random: &mut Random, damaged: &[u8], whole: &[u8], tally: &mut Tally) {
    compare_open(damaged, tally);
    let k = random.below(block_count(whole) + 1);
    compare_block(random, damaged, k, tally);
    compare_same(damaged, whole, tally);
    compare_same(whole, damaged, tally);
}
