//! Playing from a sample on: every run of small images, random runs of random ones, damaged ones too.

use crate::contents::longest;
use crate::encoding::size;
use crate::runs::Runs;
use crate::tally::Tally;
use image_list::{
    LOWEST, PAIRS, damaged, looped_or_not, put_any_bytes, put_any_histories, random_run,
};
use oracle::random::Random;

/// The most samples of a clip.
const MOST: u32 = 14_680_064;

/// Every first sample and every room of small images, and runs of the longest table.
pub fn fixed(tally: &mut Tally) {
    let mut random = Random::new(1);
    for (total, size) in
        [(1, 8), (13, 8), (14, 8), (15, 8), (20, 8), (29, 8), (30, 16), (45, 8), (57, 16), (56, 24)]
    {
        for kind in 0..KINDS {
            let image = image_of_kind(&mut random, kind, total, size);
            every_run(&mut random, &image, total, tally);
        }
    }
    longest_table(&mut random, tally);
}

/// Each first sample up to one past N and the last number, with each room up to two more than N, cut anywhere.
fn every_run(random: &mut Random, image: &[u8], total: usize, tally: &mut Tally) {
    let mut runs = Runs::new(image, tally);
    for first in (0..total as u32 + 2).chain([u32::MAX]) {
        for room in 0..total + 3 {
            runs.compare(first, room, random.below(room + 1));
        }
    }
}

/// Runs of 1,048,576 blocks of any bytes.
fn longest_table(random: &mut Random, tally: &mut Tally) {
    let mut image = longest(None);
    put_any_bytes(random, &mut image);
    let mut runs = Runs::new(&image, tally);
    for first in [0, 13, 917_503, MOST / 2, MOST - 200, MOST - 1, MOST, u32::MAX] {
        for room in [0, 2, 200] {
            runs.compare(first, room, room / 2);
        }
    }
}

/// Ten runs of an image, and a run of each of four damaged ones.
pub fn random(random: &mut Random, tally: &mut Tally) {
    let image = image(random);
    let mut runs = Runs::new(&image, tally);
    for _ in 0..10 {
        run(random, &image, &mut runs);
    }
    for _ in 0..4 {
        let damaged = damaged(random, &image);
        run(random, &image, &mut Runs::new(&damaged, tally));
    }
}

/// A run, cut anywhere.
fn run(random: &mut Random, image: &[u8], runs: &mut Runs) {
    let (first, room) = random_run(random, image);
    runs.compare(first, room, random.below(room + 1));
}

const KINDS: usize = 3;

/// An image of a clip, of any bytes, or of a clip with any histories in its entries; half of the time with a loop.
fn image_of_kind(random: &mut Random, kind: usize, total: usize, size: u32) -> Vec<u8> {
    let mut image = looped_or_not(random, total, size);
    match kind {
        1 => put_any_bytes(random, &mut image),
        2 => put_any_histories(random, &mut image),
        _ => {}
    }
    image
}

/// An image of any kind, one in 500 with 70,000 to 300,000 samples; sometimes with a pair that is not played, or with bytes after it.
fn image(random: &mut Random) -> Vec<u8> {
    let total = match random.below(500) {
        0 => 70_000 + random.below(230_001),
        _ => 1 + random.below_one(&[14, 30, 60, 200, 600, 2000]),
    };
    let (kind, size) = (random.below(KINDS), size(random));
    let mut image = image_of_kind(random, kind, total, size);
    if random.below(16) == 0 {
        let place = PAIRS + 4 * random.below(8);
        image[place..place + 4].copy_from_slice(&LOWEST);
    }
    image.resize(image.len() + random.below_one(&[1, 20]), 0x5a);
    image
}
