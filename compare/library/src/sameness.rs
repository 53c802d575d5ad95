//! Images that are compared: the pairs of the fixed list, the longest table, and random triples, with the laws of sameness.

use crate::c_calls::compare_same;
use crate::contents::longest;
use crate::encoding::random_start;
use crate::sameness_laws::Triple;
use crate::tally::Tally;
use clip_list::{Loop, random_samples};
use image_list::{
    Case, Clip, Machine, Step, alike, altered_field, cases, damaged, loop_place, put_any_bytes,
    put_any_histories, put_header, put_quiet,
};
use oracle::random::Random;

/// The pairs of the fixed list of images, and the longest table.
pub fn fixed(tally: &mut Tally) {
    for [first, second] in cases().iter().flat_map(pairs) {
        Triple::new([first.clone(), second, first]).compare(tally);
    }
    longest_table(tally);
}

/// The images that a case compares.
fn pairs(case: &Case) -> Vec<[Vec<u8>; 2]> {
    let mut machine = Machine::default();
    let mut pairs = vec![];
    for step in &case.0 {
        match step {
            Step::Call { call, lens } => {
                if "srhv".contains(call.letter()) {
                    pairs.push([0, 1].map(|i| machine.images[i][..lens[i]].to_vec()));
                }
            }
            put => _ = machine.take(put),
        }
    }
    pairs.dedup();
    pairs
}

/// Silence in 1,048,576 blocks with a loop: compared with itself, with the history of a late entry and of the loop's altered, and with
/// another last header, which the loop's entry repeats.
fn longest_table(tally: &mut Tally) {
    let image = longest(Some(Loop { start: 14_680_060, end: 14_680_064 }));
    let mut other = image.clone();
    compare_same(&image, &other, tally);
    for place in [56 + 16 * 65_536 + 10, 56 + 16 * 1_048_575 + 13, loop_place(&image) + 12] {
        other[place] ^= 1;
        compare_same(&image, &other, tally);
        other[place] ^= 1;
    }
    let last = 1_048_575;
    for header in [0x80, 0x10] {
        put_header(&mut other, last, header);
        compare_same(&image, &other, tally);
    }
}

/// Three images, each compared with each.
pub fn random(random: &mut Random, tally: &mut Tally) {
    Triple::new(images(random)).compare(tally);
}

/// An image and two that are derived from it or from one another, in any order; one triple in 200 is of a few thousand samples, and one in
/// eight has a damaged image or two.
fn images(random: &mut Random) -> [Vec<u8>; 3] {
    let samples = match random.below(200) {
        0 => long_tone(random),
        _ => random_samples(random),
    };
    let clip = Clip { start: random_start(random, &samples), samples };
    let first = image(random, &clip);
    let second = next(random, &clip, &first);
    let from = [&first, &second, &second][random.below(3)].clone();
    let third = next(random, &clip, &from);
    let mut images = [first, second, third];
    images.rotate_left(random.below(3));
    if random.below(8) == 0 {
        let count = 1 + random.below(2);
        images[..count].iter_mut().for_each(|image| *image = damaged(random, image));
        images.rotate_left(random.below(3));
    }
    images
}

/// A few thousand samples.
fn long_tone(random: &mut Random) -> Vec<i16> {
    let len = 1000 + random.below(3000);
    random.tone(len)
}

/// The image of a clip, with any bytes, with any histories, or with much that is not heard; sometimes with bytes after it.
fn image(random: &mut Random, clip: &Clip) -> Vec<u8> {
    let mut image = clip.image();
    match random.below(6) {
        0 => put_any_bytes(random, &mut image),
        1 => put_any_histories(random, &mut image),
        2 => put_quiet(random, &mut image),
        3 => {
            put_any_bytes(random, &mut image);
            put_quiet(random, &mut image);
        }
        _ => {}
    }
    image.resize(image.len() + random.below_one(&[1, 20]), 0x5a);
    image
}

/// An image derived from one: mostly with changes that do not count, else with one that does.
fn next(random: &mut Random, clip: &Clip, image: &[u8]) -> Vec<u8> {
    let first = alike(random, clip, image);
    match random.below(8) {
        0..3 => first,
        3 | 4 => alike(random, clip, &first),
        5 => altered_field(random, clip, &first),
        _ => altered_field(random, clip, image),
    }
}
